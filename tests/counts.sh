# Words of ./test and of tests/packages, which give the counts `passed`, `failed` and `skipped`.

# told NAME WANTED GOT: counts one row, and says where it differs
told() {
  if [ "$2" = "$3" ]; then
    passed=$((passed + 1))
  else
    failed=$((failed + 1))
    echo "FAILED: $1: wanted '$(head -c 400 <<< "$2")', got '$(head -c 400 <<< "$3")'"
  fi
}

# skip WHAT PACKAGE: counts rows that can't be tried, since a package isn't here
skip() {
  skipped=$((skipped + 1))
  echo "skipped: $1: $2 is not here; tests/install installs it"
}

# rules_of_docs: writes the lines of docs/RULES.md and their answers into room. An answer stands there below its line, after `=> `; a
# block that begins with `rules 2` is of the second profile, and its lines begin so here too; one that begins with `--rules R` is of these
# rules
rules_of_docs() {
  awk '/^```/ { name = "rules" } $0 == "rules 2" { name = "rules-two" } /^--rules / { name = "house" $2 }
    /^=> / { print last > room "/" name ".lines.told"; print substr($0, 4) > room "/" name ".wanted" } { last = $0 }' room="$room" docs/RULES.md
  cp "$room/rules.lines.told" "$room/rules.lines"
  { echo 'rules 2'; cat "$room/rules-two.lines.told"; } > "$room/rules-two.lines"
}

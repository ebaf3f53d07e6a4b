# Rows of examples/many-cores, read by ./test after tests/programs.sh, whose folder `made` and words it uses: pieces of a text
# by many processes give the bytes and the status of one `line`.

# by_many WORDS..: the sum of what examples/many-cores answers to standard input in pieces of 16 KiB, and its status
by_many() {
  local status
  PROGRAM=$program BLOCK=16k examples/many-cores "$@" > "$made/by_many" 2> /dev/null
  status=$?
  echo "$(sha256sum < "$made/by_many") $status"
}
# by_one: the same of one `line`
by_one() {
  local status
  "$program" line > "$made/by_one"
  status=$?
  echo "$(sha256sum < "$made/by_one") $status"
}

if command -v parallel > /dev/null; then
  for profile in '' 'rules 1' 'rules 2' '  rules  2 ' 'rules 2 2'; do
    { [ -z "$profile" ] || echo "$profile"; cat "$made/lines" "$made/lines"; echo 'rules 2'; cat "$made/lines"; } > "$made/text"
    told "many cores after '$profile'" "$(by_one < "$made/text")" "$(by_many 3 < "$made/text")"
  done
  # every line is a stray profile, so that some piece begins with one
  yes 'rules 2' | head -n 20000 > "$made/text"
  told 'many cores, stray profiles' "$({ echo 'rules 1'; cat "$made/text"; } | by_one)" "$({ echo 'rules 1'; cat "$made/text"; } | by_many 2)"
  yes 'waits 1112345678999m' | head -n 5000 > "$made/text"
  told 'many cores, nothing refused' "$(by_one < "$made/text")" "$(by_many < "$made/text")"
  printf 'rules 2\r\nwaits 1m\r\n# end' > "$made/text"
  told 'many cores, carriage returns and no last line feed' "$(by_one < "$made/text")" "$(by_many < "$made/text")"
  told 'many cores, nothing' "$(by_one < /dev/null)" "$(by_many < /dev/null)"
  told 'many cores, a program that is not there' 127 "$(echo waits | PROGRAM=/nowhere/desk examples/many-cores 2> /dev/null; echo $?)"
else
  skip 'many cores' parallel
fi

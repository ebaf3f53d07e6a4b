# Rows of ./release, read by ./test after tests/scripts.sh, whose folder `scripts` and words it uses, and `archive`. It
# is made in a copy of the tree from the built program, and unpacked beside it.

shop=$scripts/shop
mkdir -p "$shop/docs" "$shop/bin"
cp -r "$tree"/{sources,desk,crates.txt,crates} release packages packaging hall examples include web SECURITY.md LICENSE "$shop"
cp "$archive" "$shop/bin"
echo page > "$shop/bin/desk.html"
cp docs/NOTATION.md docs/RULES.md docs/GAME.md docs/HALL.md docs/{answer,game,study}.schema.json "$shop/docs"
cp "$program" "$shop/bin/riichi_desk"
printf 'proved with kit-0, logic 0123\nsources %s\nprogram %s\n' "$sum" "$(sha256sum < "$program" | cut -d' ' -f1)" > "$shop/bin/riichi_desk.proved"
version=$("$program" --version | sed 's/^riichi_desk //')
name=riichi_desk-$version-linux-x86_64
# stand-ins for a licence of the kit, and for what ./packages builds
mkdir -p "$kit/rattle/arrayvec" && echo licence > "$kit/rattle/arrayvec/LICENSE-APACHE"
mkdir "$shop/bin/packages"
for package in "riichi_desk-$version"{.tgz,.crate,-py3-none-manylinux_2_17_x86_64.whl} "riichi_hall-$version-py3-none-any.whl" riichi_desk_portable.c riichi_desk-{windows-x86_64.exe,linux-arm64} libriichi_desk_c-{windows-x86_64,linux-arm64}.a; do
  echo "$package" > "$shop/bin/packages/$package"
done
debs=
if command -v dpkg-deb > /dev/null; then
  debs=$(printf 'release: releases/%s_%s_amd64.deb\n' libriichi-desk-dev "$version" libriichi-desk0 "$version" riichi-desk "$version")$'\n'
else
  skip "Debian's packages" dpkg-dev
fi
others="release: releases/riichi_desk-$version-windows-x86_64.zip
release: releases/riichi_desk-$version-linux-arm64.tar.gz
$debs"
echo another | tee "$shop/bin/desk.html.sources" > "$shop/bin/packages/sources"
told 'a release, with page and packages of other sources' "release: without packages for other languages and systems
release: no page of these sources lies in bin; ./page builds it 0" "$(by_hand "$shop" ./release | grep -E ': (without|no page)') $(tar -tf "$shop/releases/$name.tar.gz" | grep -cE 'desk.html$|whl$|crate$')"
"$shop/web/sources" > "$shop/bin/desk.html.sources"
"$shop/packaging/sources" > "$shop/bin/packages/sources"
told 'a release' "${others}release: releases/$name.tar.gz
status 0" "$(by_hand "$shop" ./release)"
first=$(cd "$shop/releases" && sha256sum -- *)
told 'the checksums of the release' "riichi_desk-$version-linux-arm64.tar.gz: OK
$name.tar.gz: OK
riichi_desk-$version-windows-x86_64.zip: OK" "$(cd "$shop/releases" && cat ./*.sha256 | sha256sum -c)"
told 'the release once more, to the byte' "$first" "$(by_hand "$shop" ./release > /dev/null; cd "$shop/releases" && sha256sum -- *)"
told 'what is in the archive for Windows' 'GAME.md LICENSE NOTATION.md README.md RULES.md SHA256SUMS answer.schema.json examples game.schema.json libriichi_desk_c.a licences riichi_desk.c riichi_desk.exe riichi_desk.h study.schema.json' \
  "$(unzip -l "$shop/releases/riichi_desk-$version-windows-x86_64.zip" | sed -n "s|.* riichi_desk-$version-windows-x86_64/\([^/]*\).*|\1|p" | sort -u | xargs)"
told 'how it is called there' 3 "$(unzip -p "$shop/releases/riichi_desk-$version-windows-x86_64.zip" '*/README.md' | grep -cF '$ .\riichi_desk.exe ')"
tar -C "$scripts" -xf "$shop/releases/$name.tar.gz"
unpacked=$scripts/$name
told 'what is in the release' 'GAME.md HALL.md LICENSE NOTATION.md README.md RULES.md SECURITY.md SHA256SUMS answer.schema.json completions desk.html examples game.schema.json library libriichi_desk_c.a licences packages riichi_desk riichi_desk.1 riichi_desk.h riichi_desk.proved study.schema.json' \
  "$(cd "$unpacked" && echo *)"
told 'its files are whole' 0 "$(cd "$unpacked" && sha256sum --quiet -c SHA256SUMS > /dev/null; echo $?)"
# printed WORD: the commands in the block of its README that has WORD; they answer in the release's folder
printed() {
  awk -v word="$1" '/^```/ { if (within && index(text, word)) printf "%s", text; within = !within; text = ""; next } within { text = text $0 "\n" }' "$unpacked/README.md"
}
explained=$("$program" explain < examples/club-night.lines)
told 'the README: C' "$explained" "$(cd "$unpacked" && bash -c "$(printed 'answer.c libriichi_desk_c.a')" 2>&1)"
if command -v pkg-config > /dev/null; then
  told 'the README: C by the shared library' "$explained" "$(cd "$unpacked" && bash -c "$(printed PKG_CONFIG_PATH)" 2>&1)"
else
  skip 'the README: C by the shared library' pkg-config
fi
if command -v rustc > /dev/null; then
  told 'the README: Rust' "$explained" "$(cd "$unpacked" && bash -c "$(printed 'rustc ')" 2>&1)"
else
  skip 'the README: Rust' rustc
fi
told 'the version says what it was proved with' "riichi_desk $version
$(cat "$shop/bin/riichi_desk.proved")" "$("$unpacked/riichi_desk" --version)"
mkdir "$scripts/link" && ln -s "$unpacked/riichi_desk" "$scripts/link/desk"
told 'the version through a link' "$("$unpacked/riichi_desk" --version)" "$("$scripts/link/desk" --version)"
told 'the help under another name' "$("$program" --help)" "$("$scripts/link/desk" --help)"
told 'the version and a full disk' $'riichi_desk: fault F2\nriichi_desk: standard output: No space left on device (os error 28)\nstatus 3' "$("$unpacked/riichi_desk" --version 2>&1 > /dev/full; echo "status $?")"
rm -r "$shop/bin" && cp -r "$unpacked" "$shop"
told 'a release that is unpacked into the tree' $'waits 123456789m\nstatus 0' "$(by_hand "$shop" ./desk waits 1112345678999m)"

# a root of the release and the C library alone, with no kit and no shell
bare=$scripts/bare
mkdir -p "$bare" && cp -r "$unpacked" "$bare/release"
for library in $(ldd "$program" | grep -o '/[^ ]*'); do cp --parents "$(readlink -f "$library")" "$bare" && mkdir -p "$bare$(dirname "$library")" && cp "$library" "$bare$library" 2> /dev/null; done
in_bare() { if [ "$(id -u)" = 0 ]; then chroot "$bare" "$@"; else unshare --map-root-user chroot "$bare" "$@"; fi; }
told 'a bare machine: waits' 'waits 123456789m' "$(in_bare /release/riichi_desk waits 1112345678999m)"
told 'a bare machine: lines' "$(cat examples/club-night.answers)" "$(in_bare /release/riichi_desk line < examples/club-night.lines)"
told 'a bare machine: threads' "$(printf 'table 0\n' | cat - examples/rules.answers)" "$(in_bare /release/riichi_desk score /release/examples/rules.lines)"

# the man page and the completions have just the commands, words and options of the help
commands=$("$program" --help | sed -n '/^Commands:/,/^$/s/^  \([a-z-]*\) .*/\1/p')
# options_of COMMAND: each option of its help, sorted
options_of() { "$program" $1 --help | sed -n '/^Options:/,/^$/p' | grep -oE '^ +(-[a-zA-Z], )?--[a-z-]+' | grep -oE -- '-{1,2}[a-zA-Z][a-z-]*' | sort | xargs; }
page=$(sed 's/\\-/-/g; s/\\(aq/'"'"'/g; s/\\&//g; s/\\e/\\/g' "$unpacked/riichi_desk.1")
for command in '' $(grep -v '^help$' <<< "$commands"); do
  lacking=
  while read -r line; do
    while read -r part; do
      [ -z "$part" ] || grep -qF -- "$part" <<< "$page" || lacking="$lacking '$part'"
    done <<< "$(sed 's/   */\n/g' <<< "$line")"
  done < <("$program" $command --help | sed -n '2,$p' | grep -v '^Usage: ' | sed '/^Commands:/,/^$/d; s/^\(Arguments\|Options\):$//; s/^  *//; s/^Exit status:$//')
  told "the man page has the help of riichi_desk $command" '' "$lacking"
done
told 'the commands of the man page' "$(grep -v '^help$' <<< "$commands" | xargs)" "$(sed -n 's/^\.SS riichi_desk \([a-z-]*\).*/\1/p' <<< "$page" | xargs)"
told 'the options of the man page' "$(for command in '' $(grep -v '^help$' <<< "$commands"); do options_of "$command"; done | tr ' ' '\n' | sort | xargs)" \
  "$(sed -n 's/^\.B \(-.*\)/\1/p' <<< "$page" | grep -oE -- '-{1,2}[a-zA-Z][a-z-]*' | sort | xargs)"
# completed WORDS..: what bash offers after WORDS, sorted
completed() {
  bash -c 'source "$0"; COMP_WORDS=(riichi_desk "$@" ""); COMP_CWORD=$(($# + 1)); _riichi_desk; printf "%s\n" "${COMPREPLY[@]}"' \
    "$unpacked/completions/riichi_desk.bash" "$@" | sort | xargs
}
cd "$scripts/link" || exit 1
told 'bash offers the commands' "$({ echo "$commands"; options_of '' | tr ' ' '\n'; } | sort | xargs)" "$(completed)"
for command in $(grep -v '^help$' <<< "$commands"); do
  files=
  "$program" $command --help | grep -qE '^  [[<].*FILE[]>]|--file <FILE>' && files=desk
  told "bash offers the options of $command" "$({ options_of "$command" | tr ' ' '\n'; echo $files; } | sort | xargs)" "$(completed "$command")"
  told "zsh offers the options of $command" "$(options_of "$command")" \
    "$(sed -n "s/^ *$command) _arguments //p" "$unpacked/completions/_riichi_desk" | grep -oE -- '\)-{1,2}[a-zA-Z][a-z-]*\[' | tr -d ')[' | sort | xargs)"
  told "fish offers the options of $command" "$(options_of "$command")" "$(grep "_from $command'" "$unpacked/completions/riichi_desk.fish" \
    | grep -oE ' -(s [a-zA-Z]|l [a-z-]+)' | sed 's/ -s /-/; s/ -l /--/' | sort | xargs)"
done
cd - > /dev/null || exit 1
told 'zsh offers the commands' "$(sort <<< "$commands" | xargs)" "$(sed -n "s/^    '\([a-z-]*\):.*/\1/p" "$unpacked/completions/_riichi_desk" | sort | xargs)"
told 'fish offers the commands' "$(sort <<< "$commands" | xargs)" "$(sed -n 's/.* -a \([a-z-]*\) .*/\1/p' "$unpacked/completions/riichi_desk.fish" | sort | xargs)"

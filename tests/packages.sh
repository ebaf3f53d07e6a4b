# Rows of packaging/: each package is installed where a user would, and answers 20,000 mixed lines by the bytes of `line`. ./test and
# tests/packages read this; they give `program`, `archive`, an empty folder `room`, the folder
# `packages` where packaging/build-packages builds or has built, and `all`, which says whether rows that take minutes are tried too.

shelf=$room/shelf
mkdir -p "$shelf"
version=$("$program" --version | sed -n '1s/^riichi_desk //p')
tests/mixed-lines 20000 > "$shelf/lines"
"$program" line < "$shelf/lines" > "$shelf/wanted"
"$program" line --json < "$shelf/lines" > "$shelf/json"
"$program" explain < "$shelf/lines" > "$shelf/explained"
for form in 'line' 'line --json' 'explain'; do "$program" $form --number < "$shelf/lines" > "$shelf/numbered-${form##* }"; done
head -n 2000 "$shelf/lines" > "$shelf/few"
"$program" line < "$shelf/few" > "$shelf/few-wanted"
# the few, and among them a line that is longer than any room
{ cat "$shelf/few"; printf '%0200000d\n' 0; head -n 9 "$shelf/few"; } > "$shelf/long"
"$program" line < "$shelf/long" > "$shelf/long-wanted"
# a text of games that takes many calls
for copy in {1..150}; do cat examples/games/evening.game; done > "$shelf/games"
for copy in {1..150}; do cat examples/games/evening.answers; done > "$shelf/games-wanted"
by_games='import riichi_desk, sys; sys.stdout.buffer.write(riichi_desk.game(sys.stdin.buffer.read()).encode())'
told 'mixed lines' 20000 "$(wc -l < "$shelf/lines")"
# same NAME WANTED WORDS..: WORDS answer the mixed lines as the file WANTED, or the lines whose answers it has by its name
same() {
  local name=$1 wanted=$shelf/$2 lines=$shelf/lines
  shift 2
  [[ $wanted != *-wanted ]] || lines=${wanted%-wanted}
  told "$name" "$(sha256sum < "$wanted")" "$("$@" < "$lines" 2> "$room/said" | sha256sum)"
}
# alike NAME COMMAND: the command answers as the program does, words and status, or says that it hasn't what the program has
alike() {
  local name=$1 command=$2 words
  while IFS= read -r words; do
    told "$name: $words" "$(eval "\"\$program\" $words" 2> "$room/said"; echo "status $?")" "$(eval "\"\$command\" $words" 2> "$room/said"; echo "status $?")"
  done << 'rows'
win 99978m444p567s22s on=9m by=ron seat=S round=E riichi=1
win --rules 2-ura 234m567m345p67s99s on=5s by=ron seat=s round=E
shape 123456789m1134p seen=2222p
line --file examples/club-night.lines - examples/rules-two.lines < examples/rules.lines
line --json --number --quiet --file examples/rules-two.lines
line --json --workers 2 --file examples/rules-two.lines
line --number --workers 2 --file examples/rules-two.lines
explain --number --file examples/club-night.lines
explain win 99978m444p567s22s on=9m by=ron seat=S round=E riichi=1
explain 'waits 1112345678999m' 'waits 1m'
explain --json --file examples/club-night.lines
score --workers 2 --quiet examples/club-night.lines examples/rules-two.lines
score --number examples/club-night.lines
score examples/club-night.lines nowhere.lines
line --file examples
game --rules 2 examples/games/evening.game
game nowhere.game
win
line --rules 1+red-five
rows
  while IFS= read -r words; do
    told "$name has no $words" "2 ${words% nothing} is not here" "$(eval "\"\$command\" $words" 2> "$room/said" > "$room/answers"; echo "$? $(grep -o '[a-z].* is not here' "$room/said" | sed 's/.*: //')")"
  done << 'rows'
need nothing
seats nothing
standings nothing
study nothing
replay nothing
help-codes
help-rules
help-yaku
explain --all
rows
  told "$name without --sheet" 2 "$(eval "\"\$command\" game --sheet" 2> "$room/said" > "$room/answers"; echo $?)"
  told "$name: a byte order mark" $'refused H1\n1' "$(printf '\xef\xbb\xbfrules 2' | "$command" line 2> "$room/said"; echo $?)"
  told "$name: its words" 1 "$(grep -c 'standard input: a byte order mark' "$room/said")"
  told "$name: UTF-16" 1 "$(printf '\xff\xfew\0' | "$command" line 2>&1 | grep -c 'standard input: the text is UTF-16')"
}
# has COMMAND..: whether all are here
has() { for command in "$@"; do command -v "$command" > /dev/null || return 1; done; }

# (they are built beside the rows that don't want them)
building=
if [ ! -d "$packages" ]; then
  packaging/build-packages "$program" "$archive" "$packages" > "$shelf/built" 2>&1 & building=$!
fi

# the shared library
packaging/library/install-library "$archive" include/riichi_desk.h "$version" "$shelf/local"
lib=$shelf/local/lib
told 'the calls of the shared library' "$(grep -oE '\briichi_[a-z_]+\(' include/riichi_desk.h | tr -d '(' | sort -u | xargs)" \
  "$(nm -D --defined-only "$lib/libriichi_desk.so" | sed -n 's/.* T \(.*\)@@RIICHI_DESK_0$/\1/p' | sort | xargs)"
told 'its soname' libriichi_desk.so.0 "$(readelf -d "$lib/libriichi_desk.so" | sed -n 's/.*soname: \[\(.*\)\]/\1/p')"
if has pkg-config; then
  (export PKG_CONFIG_PATH=$lib/pkgconfig && cc -O1 examples/c/answer.c $(pkg-config --cflags --libs riichi_desk) -o "$shelf/shared")
  same 'the shared library by pkg-config' wanted env LD_LIBRARY_PATH="$lib" "$shelf/shared"
  told 'the version by pkg-config' "$version" "$(PKG_CONFIG_PATH=$lib/pkgconfig pkg-config --modversion riichi_desk)"
else
  skip 'the shared library by pkg-config' pkg-config
fi
if has qemu-x86_64-static; then
  cc -O1 -Iinclude examples/c/answer.c "$archive" -static -o "$shelf/static"
  same 'the static library on a processor of 2003' few-wanted qemu-x86_64-static -cpu kvm64 "$shelf/static"
else
  skip 'the static library on an old processor' qemu-user-static
fi

# the calls for many lines, in rooms that are just large enough and larger
cc -O1 -g -fsanitize=address,undefined -Iinclude tests/many_lines.c "$archive" -o "$shelf/many"
told 'many lines by one call' 'all right' "$("$shelf/many" "$shelf/long" 2>&1)"

if [ -n "$building" ]; then
  wait "$building"
  built=$?
  # (127: a tool isn't here)
  [ $built = 127 ] || told 'the packages are built' 0 $built
  tail -n 20 "$shelf/built"
fi
# what takes long runs beside the rows that don't want it: a compiler over one file of C, and the first start of wine
portable=$packages/riichi_desk_portable.c
[ ! -f "$portable" ] || cc -O1 -fPIC -Iinclude -c "$portable" -o "$shelf/portable.o" & compiling=$!
by_wine() { WINEDEBUG=-all WINEPREFIX=$shelf/wine wine "$packages/riichi_desk-windows-x86_64.exe" "$@"; }
! has wine || by_wine --version > /dev/null 2>&1 & starting=$!

# hands as arrays, and rows of texts, against lines
cc -O1 -g -fsanitize=address,undefined -Iinclude tests/fuzz_arrays.c "$archive" -o "$shelf/arrays"
told 'hands as arrays' '16 calls of each, no difference' "$("$shelf/arrays" 0 1 2>&1)"
cc -O1 -g -fsanitize=address,undefined -Iinclude tests/fuzz_lines.c "$archive" -o "$shelf/rows"
told 'texts and rows at random' '256 texts, no difference' "$("$shelf/rows" 0 1 "$shelf/few" 2>&1)"
cc -O1 -g -fsanitize=address,undefined -Iinclude tests/fuzz_games.c "$archive" -o "$shelf/games-tried"
told 'texts of games at random' '256 texts, no difference' "$("$shelf/games-tried" 0 1 "$shelf/games" 2>&1)"
cc -O1 -g -fsanitize=address,undefined -Iinclude tests/fuzz_hall.c "$archive" -o "$shelf/hall-tried"
told "messages to a table's book at random" '256 books, no difference' "$("$shelf/hall-tried" 0 1 examples/games/evening.game 2>&1)"

# the wheel, in a new environment
wheel=$(echo "$packages"/riichi_desk-*x86_64.whl)
if [ -f "$wheel" ] && /usr/bin/python3 -m venv "$shelf/venv" > /dev/null 2>&1 && "$shelf/venv/bin/pip" install -q --no-index "$wheel" > "$room/said" 2>&1; then
  python=$shelf/venv/bin/python3
  same 'the wheel, a call a line' wanted "$python" examples/python/answer.py
  same 'the wheel, a call a text' wanted "$python" -c 'import riichi_desk, sys; sys.stdout.buffer.write(riichi_desk.lines(sys.stdin.buffer.read()))'
  same 'the wheel, values' wanted "$python" tests/typed_answers.py
  told 'the wheel, keywords' 'all right' "$("$python" tests/keyword_answers.py "$shelf/lines" 2>&1)"
  told 'the wheel, arrays' 'all right' "$("$python" tests/array_answers.py 2>&1)"
  told 'the wheel, games' 'no difference' "$("$python" tests/game_answers.py 2>&1 | sed 's/.* deals, //')"
  told "the wheel, messages to a table's book" '21 messages, 0 failed' "$("$python" tests/hall_answers.py 2>&1)"
  same 'the wheel, a text of games' games-wanted "$python" -c "$by_games"
  told 'its edges' 'all right' "$("$python" tests/module_edges.py "$shelf/lines" 2>&1)"
  told 'its licences' "$(unzip -l "$wheel" | grep -c 'licenses/.*LICENSE')" "$(tar -tf "$packages/riichi_desk-$version.crate" | grep -c LICENSE)"
  if has mypy; then
    told 'its types' Success "$(mypy --strict --cache-dir="$shelf/types" packaging/python/src/riichi_desk 2>&1 | sed 's/^Success: .*/Success/')"
    told "its types in a user's program" Success \
      "$(mypy --strict --python-executable "$python" --cache-dir="$shelf/user-types" tests/typed_user.py 2>&1 | sed 's/^Success: .*/Success/')"
    told "a user's program" "7804 ('1m', '2m', '3m', '4m', '5m', '6m', '7m', '8m') {} (31100, 30500, 28700, 29700) $version" "$("$python" tests/typed_user.py 2>&1)"
  else
    skip 'the types of the wheel' mypy
  fi
else
  skip 'the wheel' 'python3-venv, python3-build or python3-hatchling'
fi

# the crate, beside one that has nothing else
crate=$packages/riichi_desk-$version.crate
if [ -f "$crate" ] && has cargo; then
  tar -C "$shelf" -xf "$crate"
  (cd "$shelf/riichi_desk-$version" && cargo build -q --release --offline --examples --target-dir "$shelf/target") > "$room/said" 2>&1
  same 'the crate, a call a line' wanted "$shelf/target/release/examples/line"
  same 'the crate, a call a text' wanted "$shelf/target/release/examples/line" text
  same 'the crate, values' wanted "$shelf/target/release/examples/values"
  same 'the crate, a text of games' games-wanted "$shelf/target/release/examples/line" game
  told 'the words of the crate' 0 "$(cd "$shelf/riichi_desk-$version" && cargo test -q --release --offline --doc --target-dir "$shelf/target" > "$room/said" 2>&1; echo $?)"
else
  skip 'the crate' cargo
fi

# the package for JavaScript
script=$packages/riichi_desk-$version.tgz
if [ -f "$script" ] && has npm node; then
  mkdir -p "$shelf/node" && (cd "$shelf/node" && npm init -y && npm install --offline "$script") > "$room/said" 2>&1
  command=$shelf/node/node_modules/.bin/riichi-desk
  same 'Node: line' wanted "$command" line
  same 'Node: a long line' long-wanted "$command" line
  same 'Node: line --json' json "$command" line --json
  same 'Node: explain' explained "$command" explain
  for form in 'line' 'line --json' 'explain'; do same "Node: $form --number" "numbered-${form##* }" "$command" $form --number; done
  told 'Node: numbers behind a line of rules' "$("$program" line --number < examples/rules-two.lines)" "$("$command" line --number < examples/rules-two.lines)"
  told 'Node: waits' 'waits 123456789m' "$("$command" waits 1112345678999m)"
  told 'Node: waits of an open hand' 'waits 12345678m' "$("$command" waits 2223456777m open=pon:111z)"
  alike Node "$command"
  told 'Node: rules' "$("$program" line --rules 2 < examples/rules.lines | sha256sum)" "$("$command" line --rules 2 < examples/rules.lines | sha256sum)"
  told 'Node: rules with changes' "$("$program" line --rules 2-ura+double-yakuman < examples/rules.lines | sha256sum)" "$("$command" line --rules 2-ura+double-yakuman < examples/rules.lines | sha256sum)"
  told 'Node: rules of a house' 'won 4 han 30 fu 7700 gain 7700 pinfu pure-straight dora 1' "$(cd "$shelf/node" && node --input-type=module -e '
    import { house, text } from "riichi_desk";
    console.log(text("win 123406789m22s34p on=2p by=ron seat=S round=E", house({ redFives: true })));')"
  told 'Node: a first line of rules' "$(cat examples/rules-two.answers)" "$("$command" line < examples/rules-two.lines)"
  cp tests/game_answers.mjs "$shelf/node"
  same 'Node: a text of games' games-wanted env -C "$shelf/node" node --input-type=module -e '
    import { readFileSync } from "node:fs";
    import { game } from "riichi_desk";
    process.stdout.write(game(readFileSync(0)));'
  cp tests/array_answers.mjs "$shelf/node"
  told 'Node: arrays, and the build that require takes' 'all right' "$(cd "$shelf/node" && node array_answers.mjs "$OLDPWD/examples/rules.lines" 2>&1)"
  told 'Node: games' 'all right' "$(cd "$shelf/node" && node game_answers.mjs 2>&1)"
  if has tsc; then
    cp tests/module_types.{ts,cts} "$shelf/node"
    told 'the types for JavaScript' '' "$(cd "$shelf/node" && tsc --strict --noEmit --target es2022 --module es2022 --moduleResolution node module_types.ts 2>&1)"
    told 'the types for require' '' "$(cd "$shelf/node" && tsc --strict --noEmit --target es2022 --module node16 --moduleResolution node16 module_types.cts 2>&1)"
  else
    skip 'the types for JavaScript' node-typescript
  fi
else
  skip 'the package for JavaScript' 'nodejs, npm or binaryen'
fi

# one file of C
if [ -f "$portable" ]; then
  wait $compiling
  cc -O1 -Iinclude packaging/anywhere/riichi_desk.c "$shelf/portable.o" -o "$shelf/portable"
  same 'one file of C: line' wanted "$shelf/portable" line
  cc -O1 -Iinclude tests/many_lines.c "$shelf/portable.o" -o "$shelf/many-portable"
  told 'one file of C: many lines' 'all right' "$("$shelf/many-portable" "$shelf/long" 2>&1)"
  cc -O1 -Iinclude tests/calls.c "$shelf/portable.o" -o "$shelf/calls-portable"
  told 'one file of C: what each call tells' 'all right' "$("$shelf/calls-portable" 2>&1)"
  cc -O1 -Iinclude tests/fuzz_arrays.c "$shelf/portable.o" -o "$shelf/arrays-portable"
  told 'one file of C: hands as arrays' '16 calls of each, no difference' "$("$shelf/arrays-portable" 0 1 2>&1)"
  cc -O1 -Iinclude tests/fuzz_lines.c "$shelf/portable.o" -o "$shelf/rows-portable"
  told 'one file of C: texts and rows at random' '256 texts, no difference' "$("$shelf/rows-portable" 0 1 "$shelf/few" 2>&1)"
  cc -O1 -Iinclude tests/fuzz_games.c "$shelf/portable.o" -o "$shelf/games-tried-portable"
  told 'one file of C: texts of games at random' '256 texts, no difference' "$("$shelf/games-tried-portable" 0 1 "$shelf/games" 2>&1)"
  cc -O1 -Iinclude tests/fuzz_hall.c "$shelf/portable.o" -o "$shelf/hall-tried-portable"
  told "one file of C: messages to a table's book at random" '256 books, no difference' "$("$shelf/hall-tried-portable" 0 1 examples/games/evening.game 2>&1)"
  cc -O1 -Iinclude tests/games.c "$shelf/portable.o" -o "$shelf/games-portable"
  told 'one file of C: games at random' 'no difference' "$("$shelf/games-portable" 7 20 2>&1 | sed 's/.* outcomes, //')"
  cc -O1 -Iinclude tests/game_lines.c "$shelf/portable.o" -o "$shelf/game-lines-portable"
  told 'one file of C: a text of games by pieces' 'all right' "$("$shelf/game-lines-portable" examples/games/evening.game examples/games/evening.answers 2>&1)"
  cc -shared "$shelf/portable.o" -o "$shelf/portable.so"
  told 'one file of C: its calls' "$(grep -oE '\briichi_[a-z_]+\(' include/riichi_desk.h | tr -d '(' | sort -u | xargs)" \
    "$(nm -D --defined-only "$shelf/portable.so" | sed -n 's/.* T \(riichi_.*\)/\1/p' | sort | xargs)"
  told 'one file of C: arrays in Python' 'all right' \
    "$(RIICHI_DESK=$shelf/portable.so PYTHONPATH=packaging/python/src /usr/bin/python3 -B tests/array_answers.py 2>&1)"
  same 'one file of C: a text of games in Python' games-wanted \
    env RIICHI_DESK="$shelf/portable.so" PYTHONPATH=packaging/python/src /usr/bin/python3 -B -c "$by_games"
  same 'one file of C: a long line' long-wanted "$shelf/portable" line
  same 'one file of C: line --json' json "$shelf/portable" line --json
  same 'one file of C: explain' explained "$shelf/portable" explain
  for form in 'line' 'line --json' 'explain'; do same "one file of C: $form --number" "numbered-${form##* }" "$shelf/portable" $form --number; done
  told 'one file of C: numbers behind a line of rules' "$("$program" line --number < examples/rules-two.lines)" "$("$shelf/portable" line --number < examples/rules-two.lines)"
  told 'one file of C: waits' 'waits 123456789m' "$("$shelf/portable" waits 1112345678999m)"
  told 'one file of C: waits of an open hand' 'waits 12345678m' "$("$shelf/portable" waits 2223456777m open=pon:111z)"
  alike 'one file of C' "$shelf/portable"
  told 'one file of C: rules' "$("$program" line --rules 2 < examples/rules.lines | sha256sum)" "$("$shelf/portable" line --rules 2 < examples/rules.lines | sha256sum)"
  told 'one file of C: rules with changes' "$("$program" line --rules 2-ura+double-yakuman < examples/rules.lines | sha256sum)" "$("$shelf/portable" line --rules 2-ura+double-yakuman < examples/rules.lines | sha256sum)"
  told 'one file of C: a rule that there is not' 2 "$("$shelf/portable" line --rules 1+red-five < examples/rules.lines > "$room/said" 2>&1; echo $?)"
  told 'one file of C: a first line of rules' "$(cat examples/rules-two.answers)" "$("$shelf/portable" line < examples/rules-two.lines)"
else
  skip 'one file of C' wabt
fi

# other systems
if [ -f "$packages/riichi_desk-linux-arm64" ] && has qemu-aarch64-static; then
  same 'ARM64: line' few-wanted qemu-aarch64-static "$packages/riichi_desk-linux-arm64" line
else
  skip 'ARM64' qemu-user-static
fi
if [ -f "$packages/riichi_desk-windows-x86_64.exe" ] && has wine; then
  wait $starting
  same 'Windows: line' wanted by_wine line
  same 'Windows: line --json' json by_wine line --json
  same 'Windows: explain' explained by_wine explain
else
  skip 'Windows' wine64
fi
[ -z "$all" ] || source tests/packages-all.sh

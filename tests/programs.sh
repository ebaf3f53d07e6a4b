# Rows of the static library for other languages, read by ./test, which gives `program`, `archive` and how tests/static-library,
# which built that, ended. Programs in C, Python and Rust answer the same lines as the command `line`, byte by byte.

made=$room/programs
mkdir -p "$made"
told 'the static library' 0 "$made_archive"
[ -f "$archive" ] || tail -n 20 "$(dirname "$room")/archive"
tests/lines > "$made/lines"
"$program" line < "$made/lines" > "$made/wanted"
told 'lines for programs' 2000 "$(wc -l < "$made/lines")"
cc -O1 -Wall -Wextra -std=c99 -pedantic -Iinclude examples/c/answer.c "$archive" -o "$made/in_c"
told 'a program in C' "$(sha256sum < "$made/wanted")" "$("$made/in_c" < "$made/lines" | sha256sum)"
cc -O1 -g -fsanitize=address,undefined -Iinclude examples/c/answer.c "$archive" -o "$made/checked"
told 'a program in C, with each access tested' "$(sha256sum < "$made/wanted")" "$("$made/checked" < "$made/lines" 2>&1 | sha256sum)"
cc -pthread -Iinclude tests/threads.c "$archive" -o "$made/threads"
told 'four threads of a program at once' "$(sha256sum < "$made/wanted")" "$("$made/threads" "$made/lines" | sha256sum)"
"$program" explain < "$made/lines" > "$made/explained"
told 'a program in C, with explanations' "$(sha256sum < "$made/explained")" "$("$made/checked" explain < "$made/lines" 2>&1 | sha256sum)"
packaging/library/install-library "$archive" include/riichi_desk.h 0.0 "$made/local"
# by_python WORDS..: Python of the distribution, with the package as it lies here and the shared library
by_python() { RIICHI_DESK=$made/local/lib/libriichi_desk.so PYTHONPATH=packaging/python/src /usr/bin/python3 -B "$@"; }
told 'a program in Python' "$(sha256sum < "$made/wanted")" "$(by_python examples/python/answer.py < "$made/lines" | sha256sum)"
told 'a program in Python, with explanations' "$(sha256sum < "$made/explained")" "$(by_python examples/python/answer.py explain < "$made/lines" | sha256sum)"
told 'the version by Python' "$("$program" --version)" "$(by_python -c 'import riichi_desk; print(riichi_desk.version())')"
told 'answers as values by Python' "$(sha256sum < "$made/wanted")" "$(by_python tests/typed_answers.py < "$made/lines" | sha256sum)"
told 'the words of the Python package' '' "$(by_python tests/module_words.py 2>&1)"
told 'the edges of the Python package' 'all right' "$(by_python tests/module_edges.py "$made/lines" 2>&1)"
told 'answers by keywords by Python' 'all right' "$(by_python tests/keyword_answers.py "$made/lines" 2>&1)"
by_python -c 'import riichi_desk, sys
for line in sys.stdin.buffer: print(riichi_desk.json(line) or "")' < "$made/lines" | grep . > "$made/json"
told 'line --json' "$(sha256sum < "$made/json")" "$("$program" line --json < "$made/lines" | sha256sum)"
# (the validator is the package python3-jsonschema)
if python3 -c 'import jsonschema' 2> /dev/null; then
  told 'answers by their JSON Schema' "$(wc -l < "$made/wanted") valid" "$(python3 -B tests/valid_answers.py docs/answer.schema.json < "$made/json")"
  rules_of_docs
  texts=(examples/{club-night,rules,rules-two}.lines "$room"/rules{,-two}.lines tests/hostile/*.lines)
  told 'line --json of the examples, the rules and hostile lines, by the JSON Schema' \
    "$(for text in "${texts[@]}"; do "$program" line < "$text"; done | wc -l) valid" \
    "$(for text in "${texts[@]}"; do "$program" line --json < "$text"; done | python3 -B tests/valid_answers.py docs/answer.schema.json)"
  told 'explain --json under the rules of a house, by the JSON Schema' "$("$program" line < examples/rules.lines | wc -l) valid" \
    "$("$program" explain --json --rules 1+red-fives-ippatsu-ura < examples/rules.lines | python3 -B tests/valid_answers.py docs/answer.schema.json)"
  # (each shape of the lines is a question too; the calls are those of tests/study.sh)
  { grep '^shape ' "$made/lines" | head -n 300; printf 'calls 234m45678p34s558s tile=%s from=left\n' 3p 6p 9p 4p 2s 5s 33p; echo 'calls 123456m12p34s111z tile=1z from=across'; echo 'shape 12x3m'; } > "$made/questions"
  for form in '' --number; do
    told "study --json $form, by the JSON Schema" "$("$program" study < "$made/questions" | wc -l) valid" "$("$program" study --json $form < "$made/questions" | python3 -B tests/valid_answers.py docs/study.schema.json)"
  done
else
  skip 'answers by their JSON Schema' python3-jsonschema
fi
# (a machine that builds the rest may have no Rust)
if command -v rustc > /dev/null; then
  rustc -O --edition 2021 -L "$(dirname "$archive")" -l static=riichi_desk_c examples/rust/answer.rs -o "$made/in_rust"
  told 'a program in Rust' "$(sha256sum < "$made/wanted")" "$("$made/in_rust" < "$made/lines" | sha256sum)"
  told 'a program in Rust, with explanations' "$(sha256sum < "$made/explained")" "$("$made/in_rust" explain < "$made/lines" | sha256sum)"
  rustc -O --edition 2021 -L "$(dirname "$archive")" -l static=riichi_desk_c bench/src/both.rs -o "$made/both"
  told 'a thousand random games by two ledgers' 'no difference' "$("$made/both" 1000 | grep -o 'no difference$')"
  rustc -O --edition 2021 -L "$(dirname "$archive")" -l static=riichi_desk_c bench/src/further.rs -o "$made/further"
  told 'second, good and calls of a thousand random hands, by their definitions' 'no difference' "$("$made/further" 1000 | grep -o 'no difference$')"
else
  skip 'a program in Rust' rustc
fi
cc -O1 -g -Wall -Wextra -std=c99 -pedantic -fsanitize=address,undefined -Iinclude tests/calls.c "$archive" -o "$made/calls"
told 'what each call tells, by values worked by hand' 'all right' "$("$made/calls" 2>&1)"
cc -O1 -g -Wall -Wextra -std=c99 -pedantic -fsanitize=address,undefined -Iinclude tests/games.c "$archive" -o "$made/games"
told 'games at random' 'no difference' "$("$made/games" 7 200 2>&1 | sed 's/.* outcomes, //')"
cc -O1 -g -Wall -Wextra -std=c99 -pedantic -fsanitize=address,undefined -Iinclude tests/game_lines.c "$archive" -o "$made/game_lines"
told 'a text of games by pieces' 'all right' "$("$made/game_lines" examples/games/evening.game examples/games/evening.answers 2>&1)"
# games_by_python: answers a text of games from standard input
games_by_python() { by_python -c 'import riichi_desk, sys; sys.stdout.buffer.write(riichi_desk.game(sys.stdin.buffer.read()).encode())'; }
told 'a text of games by Python' "$(sha256sum < examples/games/evening.answers)" "$(games_by_python < examples/games/evening.game | sha256sum)"
told "messages to a table's book by Python" '21 messages, 0 failed' "$(by_python tests/hall_answers.py 2>&1)"
told 'games by Python' 'no difference' "$(by_python tests/game_answers.py 2>&1 | sed 's/.* deals, //')"
told 'what the library asks of the C library, and of the compiler to divide numbers of 128 bits' '__udivti3 __umodti3 memcpy memmove memset' "$(nm -u "$archive" | sed -n 's/^ *U //p' | sort -u | xargs)"

# the plain ledger of bench/, by which docs/GAME.md and the worked deals were reckoned
if command -v cargo > /dev/null; then
  cargo test --quiet --release --offline --manifest-path bench/Cargo.toml --target-dir "$made/bench" > "$made/ledger" 2>&1
  told 'the texts of docs/GAME.md and the worked deals, by plain Rust' 'test result: ok' "$(grep -o '^test result: ok' "$made/ledger" | sort -u)"
  cargo build --quiet --release --offline --manifest-path bench/Cargo.toml --target-dir "$made/bench"
  "$made/bench/release/bench" games 2000 17 > "$made/games.text"
  told 'two thousand random texts of games, by plain Rust' "$("$made/bench/release/bench" ledger < "$made/games.text" | sha256sum)" \
    "$("$program" game < "$made/games.text" | sha256sum)"
  "$made/bench/release/bench" studies 400 6 > "$made/study.lines"
  told 'shapes and calls beyond the next step, by plain Rust' "$("$made/bench/release/bench" study < "$made/study.lines" | sha256sum)" \
    "$("$program" study < "$made/study.lines" | sha256sum)"
  "$made/bench/release/bench" safes 1000 5 > "$made/safe.lines"
  told 'furiten and safe tiles of a thousand random hands, by plain Rust' "$("$made/bench/release/bench" safe < "$made/safe.lines" | sha256sum)" \
    "$("$program" study < "$made/safe.lines" | sha256sum)"
  # random tournaments, by what parts equal totals: of a hundred players and eight sessions, a file each; and of twenty players with
  # a file for each table, in any order and by any number of workers
  mkdir -p "$made/tournament" "$made/tables"
  "$made/bench/release/bench" tournament 100 8 7 "$made/tournament"
  for ties in none firsts best; do
    told "a random tournament of 100 players, by plain Rust, ties $ties" "$("$made/bench/release/bench" standings "${ties/none/}" "$made"/tournament/*.game | sha256sum)" \
      "$("$program" standings --ties "$ties" "$made"/tournament/*.game | sha256sum)"
  done
  "$made/bench/release/bench" tournament 20 4 8 "$made/tables"
  cat "$made"/tables/session-*.game | awk -v folder="$made/tables" '/^game / { n += 1 } { print > (folder "/table-" n ".game") }'
  told 'a file for each table, by plain Rust' "$("$made/bench/release/bench" standings "" "$made"/tables/session-*.game | sha256sum)" \
    "$("$program" standings "$made"/tables/table-*.game | sha256sum)"
  for form in '' --json --csv --sheet; do
    for workers in 1 2 3 16; do
      told "the files in another order, by $workers workers, ${form:-in words}" "$("$program" standings $form "$made"/tables/session-*.game | sha256sum)" \
        "$(ls "$made"/tables/table-*.game | sort -R --random-source=tests/programs.sh | xargs "$program" standings $form --workers "$workers" | sha256sum)"
    done
  done
  told 'two thousand random texts of games, by Python' "$("$program" game < "$made/games.text" | sha256sum)" "$(games_by_python < "$made/games.text" | sha256sum)"
  # the games of sessions: whether each player sits once in each, whom they meet again, where they sit first, and the notes
  while read -r players sessions counted; do
    seq -f 'P%03g' "$players" > "$made/players.names"
    told "seats of $players players and $sessions sessions" "players $players sessions $sessions $counted" \
      "$(timeout 10 "$program" seats "$made/players.names" "$sessions" | "$made/bench/release/bench" seats)"
  done << 'SEATS'
16 5 games 20 pairs 0 uneven 0
20 5 games 25 pairs 0 uneven 0
32 8 games 64 pairs 0 uneven 0
64 7 games 112 pairs 0 uneven 0
100 8 games 200 pairs 0 uneven 0
24 5 games 30 pairs 0 uneven 0
4 3 games 3 pairs 6 uneven 0
8 2 games 4 pairs 4 uneven 0
12 2 games 6 pairs 3 uneven 0
400 32 games 3200 pairs 0 uneven 0
SEATS
else
  skip 'docs/GAME.md' cargo
fi

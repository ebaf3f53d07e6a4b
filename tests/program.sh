# Rows of the built program, read by ./test: it gives `program`, an empty folder `room`, and the counts `passed`,
# `failed` and `skipped`.

# row STATUS OUTPUT ERRORS WORDS..: runs the program on WORDS with the file `room/input` as its input, and compares.
# ERRORS is a text that must stand in what it says on standard error; an empty one means that it says nothing.
: > "$room/input"
row() {
  local status=$1 output=$2 errors=$3 got said
  shift 3
  got=$("$program" "$@" < "$room/input" 2> "$room/said"; echo "status $?")
  said=silent
  if [ -s "$room/said" ]; then
    said="said something else: $(head -c 300 "$room/said")"
    [ -n "$errors" ] && grep -qF -- "$errors" "$room/said" && said="said $errors"
  fi
  told "riichi_desk $*" "${output:+$output
}status $status ${errors:+said }${errors:-silent}" "$got $said"
}

# replays INPUT WANTED: the command `replay` answers the file INPUT as the file WANTED says
replays() {
  local status=0 got
  grep -q '^refused' "$2" && status=1
  "$program" replay "$1" < /dev/null > "$room/answers" 2> "$room/said"
  got=$?
  told "replay $1" "status $status: $(sha256sum < "$2")" "status $got: $(sha256sum < "$room/answers")"
}

# answers INPUT WANTED: the command `line` answers the file INPUT as the file WANTED says
answers() {
  local status=0 got
  grep -q '^refused' "$2" && status=1
  "$program" line < "$1" > "$room/answers" 2> "$room/said"
  got=$?
  told "line < $1" "status $status: $(sha256sum < "$2")" "status $got: $(sha256sum < "$room/answers")"
}

# explains INPUT WANTED: the command `explain` answers the file INPUT as the file WANTED says, once the lines that begin with
# two spaces are dropped
explains() {
  local status=0 got
  grep -q '^refused' "$2" && status=1
  "$program" explain < "$1" > "$room/answers" 2> "$room/said"
  got=$?
  told "explain < $1" "status $status: $(sha256sum < "$2")" "status $got: $(grep -v '^  ' "$room/answers" | sha256sum)"
  # with every reading: the same text, once the lines from each `other` to the next answer are dropped
  told "explain --all < $1" "status $got: $(sha256sum < "$room/answers")" \
    "$("$program" explain --all < "$1" 2> "$room/said" > "$room/every"; echo "status $?: $(awk '/^  other / { drops = 1 } /^[^ ]/ { drops = 0 } !drops' "$room/every" | sha256sum)")"
}

# what the system says of a full disk, and of a folder in place of standard input
full='riichi_desk: standard output: No space left on device (os error 28)'
folder=$'riichi_desk: standard input: Is a directory (os error 21)\n  it is a folder: name the files in it'

# the command waits
row 0 'waits 123456789m' '' waits 1112345678999m
row 0 'waits -' '' waits 123456789m1111z
row 0 'waits 19m19p19s1234567z' '' waits 19m19p19s1234567z
row 0 'waits 4z' '' waits 1133m5577p2288s4z
row 1 'refused H8' '' waits 123456789m111z
row 1 'refused N1 hand at 0' '' waits ''
row 1 'refused N2 hand at 0' '' waits -- -1m
row 1 'refused N5 hand at 0' '' waits 8z

row 0 'waits 12345678m' '' waits 2223456777m open=pon:111z
row 1 'refused H4' '' waits 1112345678999m seen=1m
row 1 'refused H4' '' waits A B

# the words of a win and of a shape
row 0 'won 1 han 30 fu 1000 gain 1000 pinfu' '' win 234m567m345p67s99s on=5s by=ron seat=S round=E
row 0 'won 4 han 30 fu 8000 gain 8000 pinfu pure-straight dora 1' '' win --rules 2 123406789m22s34p on=2p by=ron seat=S round=E
row 1 'refused H6' '' win 234m567m345p67s99s on=5s by=ron seat=S
row 0 'shanten 0 accepts 2p:4 5p:4 live 8' '' shape 123456789m1134p
row 0 'shanten 0 accepts 5p:4 live 4' '' shape 123456789m1134p seen=2222p
row 1 'refused N1 seen at 0' '' shape 123456789m1134p seen=

# faults of the command line, and help
row 2 '' 'requires a subcommand'
row 2 '' "unrecognized subcommand 'fly'" fly
row 2 '' "unexpected argument 'A' found" help-codes A
row 2 '' '<HAND>' waits
row 2 '' 'UTF-8' waits $'\xff'
row 2 '' "unexpected argument 'file' found" line file
row 2 '' '<FILE>...' score
row 2 '' "invalid value '0' for '--workers <N>'" score --workers 0 file
row 2 '' "invalid value '17' for '--workers <N>'" score --workers 17 file
row 2 '' "invalid value 'many' for '--workers <N>'" score --workers many file
row 0 'riichi_desk 0.1.0' '' --version
for command in '' win waits shape line explain study replay score game need seats standings help-yaku help-codes help-rules; do
  told "the help of riichi_desk $command says the program's own name" 'Usage: riichi_desk' "$("$program" $command --help | grep -oE '^Usage: [a-z_]+')"
  told "the help of riichi_desk $command has the exit statuses" 5 "$("$program" $command --help | sed -n '/^Exit status:$/,$p' | grep -cE '^  [0-4]  ')"
done
told 'the help names the commands' 15 "$("$program" --help | grep -cE '^  (win|waits|shape|line|explain|study|replay|score|game|need|seats|standings|help-codes|help-rules|help-yaku) ')"

for words in --help help-codes; do
  told "$words and a full disk" "riichi_desk: fault F2
$full
status 3" "$("$program" $words 2>&1 > /dev/full; echo "status $?")"
done

# the command line: no input, a page of lines with its answers, and each example of the rules
row 0 '' '' line
printf '# table three\nwaits 1112345678999m\n\nwaits 8z\r\nshape 123456789m1134p seen=111p\nwaits 123456789m1134p' > "$room/input"
row 1 $'waits 123456789m\nrefused N5 hand at 0\nrefused H9\nwaits 25p' '' line
: > "$room/input"
answers examples/club-night.lines examples/club-night.answers
answers examples/rules.lines examples/rules.answers
answers examples/rules-two.lines examples/rules-two.answers
rules_of_docs
answers "$room/rules-two.lines" "$room/rules-two.wanted"
answers "$room/rules.lines" "$room/rules.wanted"
for wanted in "$room"/house*.wanted; do
  house=${wanted##*/house} house=${house%.wanted}
  told "the hands of docs/RULES.md under --rules $house" "$(cat "$wanted")" "$("$program" line --rules "$house" < "$room/house$house.lines.told")"
  told "explain names the rules $house" "$(sed "/^refused/!s/\$/\n  rules   $house/" "$wanted")" "$("$program" explain --rules "$house" < "$room/house$house.lines.told" | grep -E '^([^ ]|  rules )')"
done

# the same lines with explanations; a profile from the command line; lines as words
explains examples/club-night.lines examples/club-night.answers
explains examples/rules.lines examples/rules.answers
explains examples/rules-two.lines examples/rules-two.answers
explains "$room/rules.lines" "$room/rules.wanted"
explains "$room/rules-two.lines" "$room/rules-two.wanted"
disputed='win 99978m444p567s22s on=9m by=ron seat=S round=E riichi=1 dora=1z'
why=$'won 1 han 50 fu 1600 gain 1600 riichi\n  reading 789m 999m 444p 567s 22s, 9m completes 789m\n  han     riichi 1
  fu      20 base, 10 concealed ron (menzen kafu), 8 concealed triplet 999m (ankou), 4 concealed triplet 444p (ankou): 42, rounded to 50
  base    50 x 2^3 = 400\n  pays    discarder 1600\n  gain    1600'
row 0 "$why" '' explain "$disputed"
row 1 "$why"$'\nrefused N5 hand at 0\n  8z\n  ^ honours are 1z to 7z' '' explain "$disputed" 'waits 8z'
row 0 "$why" '' explain $disputed
other=$'\n  other   789m 999m 444p 567s 22s, 9m completes 999m\n  han     riichi 1
  fu      20 base, 10 concealed ron (menzen kafu), 4 open triplet 999m (minkou), 4 concealed triplet 444p (ankou): 38, rounded to 40
  gain    1300'
row 0 "$why$other" '' explain --all "$disputed"
row 0 "$why$other"$'\nwaits 25p\n  2p 4 left, two-sided (ryanmen); 5p 4 left, two-sided (ryanmen)' '' explain --all "$disputed" 'waits 123456789m1134p'
row 2 '' "unexpected argument '--all' found" line --all
# a hand of eight readings, which is the most that is known
told 'explain --all of eight readings' '1 7' "$("$program" explain --all 'win 6667778888999m on=7m by=ron seat=S round=E riichi=1' | awk '/^  reading / { best++ } /^  other / { others++ } END { print best, others }')"
# the same as JSON: of the four disputes the figures of `explain --all`, and of any other line the object of `line --json`
row 2 '' "unexpected argument '--all' found" line --json --all
told 'explain --json has what explain --all says' 'the same' "$(python3 -B tests/reasons_agree.py "$program" 2>&1)"
# files in place of standard input, each with its own profile
echo "$disputed" > "$room/one"
printf 'rules 2\nwin 123406789m22s34p on=2p by=ron seat=S round=E\n' > "$room/two"
echo 'waits 8z' > "$room/input"
row 0 "$why" '' explain --file "$room/one"
row 1 $'won 1 han 50 fu 1600 gain 1600 riichi\nwon 4 han 30 fu 8000 gain 8000 pinfu pure-straight dora 1\nrefused N5 hand at 0\nwon 1 han 50 fu 1600 gain 1600 riichi' '' line --file "$room/one" "$room/two" - "$room/one"
row 3 'won 1 han 50 fu 1600 gain 1600 riichi' "riichi_desk: cannot open $room/none" line --file "$room/one" "$room/none" "$room/two"
row 3 '' "riichi_desk: $room: Is a directory" line --file "$room"
row 3 '' "riichi_desk: $room: Is a directory" score "$room/one" "$room"
row 2 '' 'cannot be used with' explain 'waits 8z' --file "$room/one"
echo "$disputed" > "$room/input"
row 0 "$why" '' explain
# hands, waits and a shape, worked by hand from the tables of the rules
told 'explain < tests/explained.lines' "$(cat tests/explained.answers)" "$("$program" explain < tests/explained.lines)"
echo 'win 123406789m22s34p on=2p by=ron seat=S round=E' > "$room/input"
row 0 'won 4 han 30 fu 8000 gain 8000 pinfu pure-straight dora 1' '' line --rules 2
row 0 'won 3 han 30 fu 3900 gain 3900 pinfu pure-straight' '' line --rules 1
row 0 $'table 0\nwon 4 han 30 fu 8000 gain 8000 pinfu pure-straight dora 1' '' score --rules 2 "$room/input"
told 'explain --rules 2' 'won 4 han 30 fu 8000 gain 8000 pinfu pure-straight dora 1' "$("$program" explain --rules 2 < "$room/input" | grep -v '^  ')"
{ echo 'rules 1'; cat "$room/input"; } > "$room/own"
cp "$room/own" "$room/input"
row 0 'won 3 han 30 fu 3900 gain 3900 pinfu pure-straight' '' line --rules 2
# rules that are neither profile are named by their words, where a line is explained and as JSON; of waits and shapes none are
printf '%s\n' 'win 123456789m22s34p on=9s by=ron seat=S round=E' 'waits 123456789m1134p' > "$room/input"
row 0 $'{"answer":"no win","rules":"1+red-fives"}\n{"answer":"waits","kinds":["2p","5p"]}' '' line --json --rules 2-raise
row 0 $'{"answer":"no win"}\n{"answer":"waits","kinds":["2p","5p"]}' '' line --json --rules 1+raise+red-fives
row 0 $'{"line":1,"answer":"no win","rules":"2-ura","why":{"waits":["2p","5p"],"shanten":{"standard":0,"seven_pairs":5,"thirteen_orphans":10}}}
{"line":2,"answer":"waits","kinds":["2p","5p"]}' '' explain --json --number --rules 2-ura
told 'explain --all under the rules of a house' '  rules   1+raise-ura' "$("$program" explain --all --rules 1-ura+raise < "$room/input" | grep '^  rules')"
told 'explain under rules that are the second profile' "$("$program" explain --rules 2 < "$room/input")" "$("$program" explain --rules 1+raise+red-fives < "$room/input")"
row 2 '' 'error: --rules has no rule `3`; 1 or 2 stands first' line --rules 3
row 2 '' 'error: --rules has no rule `2x`' line --rules 2x
row 0 'won 3 han 30 fu 3900 gain 3900 pinfu pure-straight' '' win --rules 1+red-fives-red-fives 123406789m22s34p on=2p by=ron seat=S round=E
row 2 '' '`red-fives` is near' explain --rules 1+red-five+ura
row 2 '' 'error: --rules has no rule ``' score --rules 2-ippatsu- "$room/input"
# a line that looks like a profile line and is none is told on standard error, with the profile of the other lines
ready=$'waits 123456789m'
printf '\xef\xbb\xbfrules 2\nwaits 1112345678999m\n' > "$room/input"
row 1 $'refused H1\n'"$ready" 'standard input: line 1 sets no profile' line
printf 'Rules 2\nwaits 1112345678999m' > "$room/input"
row 1 $'refused H2\n'"$ready" 'the lines are answered under profile 2' line --rules 2
printf 'rules 3\r\nwaits 1112345678999m\n' > "$room/input"
row 1 $'refused H2\n'"$ready" 'standard input: line 1 sets no profile' line
row 1 $'refused H2\n'"$ready" 'the lines are answered under the rules 1+red-fives-ura' line --rules 1-ura+red-fives
printf '# table three\n\nrules 2\nwaits 1112345678999m\nrules 2\n' > "$room/input"
row 1 $'refused H2\n'"$ready"$'\nrefused H2' 'standard input: line 3 sets no profile' line
told 'a text is told once' 1 "$("$program" line < "$room/input" 2>&1 > /dev/null | grep -c .)"
told 'each text of a score is told' 2 "$("$program" score "$room/input" "$room/input" 2>&1 > /dev/null | grep -c 'under profile 1')"
told 'an explained text is told' 1 "$("$program" explain --file "$room/input" 2>&1 > /dev/null | grep -c 'line 3 sets no profile')"
for words in '--workers 4' --number --json; do
  told "a text is told with $words" 1 "$("$program" line $words < "$room/input" 2>&1 > /dev/null | grep -c 'standard input: line 3 sets no profile')"
done
printf 'rules 2\nwaits 1112345678999m\nrules 1' > "$room/input"
row 1 "$ready"$'\nrefused H2' 'line 3 sets no profile: the lines are answered under profile 2' line
printf ' rules  2 \r\n# rules 1\nwaits 1112345678999m' > "$room/input"
row 0 "$ready" '' line
: > "$room/input"
row 0 '' '' explain
told 'explain and a full disk' "riichi_desk: fault F2: the answers can't be written
$full
status 3" "$("$program" explain "$disputed" 2>&1 > /dev/full; echo "status $?")"
told 'explain and a folder' "riichi_desk: fault F1: the input can't be read, or has no end
$folder
status 3" "$("$program" explain < "$room" 2>&1; echo "status $?")"

# the same lines as JSON: what is refused too, each job, each payment, a yakuman; a profile from the command line
printf '# table three\nwaits 123456789m1134p\n\nwaits 8z\r\nwait 1m' > "$room/input"
row 1 $'{"answer":"waits","kinds":["2p","5p"]}\n{"answer":"refused","code":"N5","text":"hand","place":0,"key":"hand","at":6,"length":2,"words":"honours are 1z to 7z"}\n{"answer":"refused","code":"H2","at":0,"length":4,"words":"the first word is win, waits or shape"}' '' line --json
cp examples/club-night.lines "$room/input"
pinfu='{"number":4,"word":"pinfu","japanese":"pinfu"}' concealed='{"number":3,"word":"fully-concealed","japanese":"menzen tsumo"}'
row 1 '{"answer":"won","yakuman":false,"han":2,"fu":20,"dora":0,"base":320,"limit":null,"payment":{"dealer":700,"each_other":400},"gain":1500,"yaku":['"$concealed,$pinfu"']}
{"answer":"won","yakuman":false,"han":3,"fu":40,"dora":0,"base":1280,"limit":null,"payment":{"discarder":5200},"gain":5200,"yaku":[{"number":27,"word":"twice-pure-double-chow","japanese":"ryanpeikou"}]}
{"answer":"won","yakuman":false,"han":4,"fu":60,"dora":1,"base":2000,"limit":"mangan","payment":{"dealer":4000,"each_other":2000},"gain":8000,"yaku":['"$concealed"',{"number":11,"word":"prevalent-wind","japanese":"yakuhai bakaze"},{"number":12,"word":"after-a-kong","japanese":"rinshan kaiho"}]}
{"answer":"no yaku"}
{"answer":"waits","kinds":["1m","2m","3m","4m","5m","6m","7m","8m"]}
{"answer":"shape","shanten":0,"discards":[{"discard":"8p","accepts":[{"kind":"2p","live":4},{"kind":"5p","live":4}],"live":8}]}
{"answer":"refused","code":"H8","key":"hand","at":6,"length":14,"words":"a hand has 13 tiles, a shape 13 or 14, three fewer for each meld; on has one tile, dora and ura at most five"}' '' line --json
printf '%s\n' 'win 123406789m22s34p on=2p by=ron seat=S round=E' 'win 19m19p19s1234567z on=1m by=ron seat=E round=E' \
  'win 234m567m345p67s99s on=5s by=tsumo seat=E round=E counters=2 sticks=1' 'win 123456789m22s34p on=9s by=ron seat=S round=E' \
  'shape 123456789m1134p' > "$room/input"
rest='{"answer":"won","yakuman":true,"han":0,"fu":0,"dora":0,"base":8000,"limit":"yakuman","payment":{"discarder":48000},"gain":48000,"yaku":[{"number":29,"word":"thirteen-orphans","japanese":"kokushi musou"}]}
{"answer":"won","yakuman":false,"han":2,"fu":20,"dora":0,"base":320,"limit":null,"payment":{"each":900},"gain":3700,"yaku":['$concealed,$pinfu']}
{"answer":"no win"}
{"answer":"shape","shanten":0,"accepts":[{"kind":"2p","live":4},{"kind":"5p","live":4}],"live":8}'
straight='"payment":{"discarder":%s},"gain":%s,"yaku":['$pinfu',{"number":16,"word":"pure-straight","japanese":"ittsu"}]}'
row 0 '{"answer":"won","yakuman":false,"han":4,"fu":30,"dora":1,"base":2000,"limit":"mangan",'"${straight//%s/8000}
$rest" '' line --json --rules 2
row 0 '{"answer":"won","yakuman":false,"han":3,"fu":30,"dora":0,"base":960,"limit":null,'"${straight//%s/3900}
$rest" '' line --json
: > "$room/input"
row 0 '' '' line --json
row 2 '' "unexpected argument '--json' found" score --json file
row 0 '' '' explain --json
told 'line --json and a full disk' "riichi_desk: fault F2
$full
status 3" "$("$program" line --json < examples/club-night.lines 2>&1 > /dev/full; echo "status $?")"
told 'line --json and a folder' "riichi_desk: fault F1
$folder
status 3" "$("$program" line --json < "$room" 2>&1; echo "status $?")"

# the numbers of lines: notes, empty lines and the line of the profile count, and each file begins with 1
printf '# table three\nwaits 123456789m1134p\n\nwaits 8z\r\nwait 1m' > "$room/input"
row 1 $'2:waits 25p\n4:refused N5 hand at 0\n5:refused H2' '' line --number
row 1 $'{"line":2,"answer":"waits","kinds":["2p","5p"]}\n{"line":4,"answer":"refused","code":"N5","text":"hand","place":0,"key":"hand","at":6,"length":2,"words":"honours are 1z to 7z"}
{"line":5,"answer":"refused","code":"H2","at":0,"length":4,"words":"the first word is win, waits or shape"}' '' line --number --json
row 1 $'2:waits 25p\n  2p 4 left, two-sided (ryanmen); 5p 4 left, two-sided (ryanmen)\n4:refused N5 hand at 0\n  8z\n  ^ honours are 1z to 7z
5:refused H2\n  wait: the first word is win, waits or shape' '' explain --number
printf 'rules 2\nwaits 123456789m1134p\n' > "$room/profiled"
row 1 $'2:waits 25p\n2:waits 25p\n4:refused N5 hand at 0\n5:refused H2\n2:waits 25p' '' line --number --file "$room/profiled" - "$room/profiled"
row 0 $'2:waits 25p\n3:waits 25p' '' line --number --file <(cat "$room/profiled" <(echo 'waits 123456789m1134p'))
told 'explain --number of lines in words' $'1:waits 4z\n2:refused N5 hand at 0' \
  "$("$program" explain --number 'waits 1133m5577p2288s4z' 'waits 8z' | grep -v '^  ')"
row 2 '' "unexpected argument '--number' found" waits --number 1112345678999m
row 2 '' "unexpected argument '--number' found" replay --number file
told 'line --number and a full disk' "riichi_desk: fault F2
$full
status 3" "$("$program" line --number < examples/club-night.lines 2>&1 > /dev/full; echo "status $?")"
# without their numbers the answers are those without --number, and the numbers are those that grep gives the records
cat examples/club-night.lines examples/rules.lines > "$room/input"
for form in 'line' 'line --json' 'explain'; do
  told "$form --number" "$("$program" $form < "$room/input" | sha256sum)" \
    "$("$program" $form --number < "$room/input" | sed 's/^{"line":[0-9]*,/{/; s/^[0-9]*://' | sha256sum)"
  told "the numbers of $form --number" "$(grep -nvE '^(#|rules |$)' "$room/input" | cut -d : -f 1)" \
    "$("$program" $form --number < "$room/input" | sed -nE 's/^(\{"line":)?([0-9]+)[,:].*/\2/p')"
done

# by several threads: the same bytes, whichever the form and however the lines end
row 2 '' "invalid value '0' for '--workers <N>'" line --workers 0
row 2 '' "invalid value '17' for '--workers <N>'" line --workers 17
row 2 '' "'--number'" line --workers 2 --number
row 2 '' "unexpected argument '--workers' found" explain --workers 2
for workers in 1 2 3 16; do
  told "line by $workers workers" "$(sha256sum < examples/club-night.answers)" "$("$program" line --workers $workers < examples/club-night.lines | sha256sum)"
  told "line --json by $workers workers" "$("$program" line --json < "$room/input" | sha256sum)" \
    "$("$program" line --json --workers $workers --file "$room/input" 2> /dev/null | sha256sum)"
  told "line --rules by $workers workers" $'won 4 han 30 fu 8000 gain 8000 pinfu pure-straight dora 1\nrefused H2\nstatus 1' \
    "$(printf '# red fives\nwin 123406789m22s34p on=2p by=ron seat=S round=E\r\nrules 2' | "$program" line --rules 2 --workers $workers 2> /dev/null; echo "status $?")"
  told "files by $workers workers" $'waits 25p\nwaits 25p\nstatus 0' "$("$program" line --workers $workers --file "$room/profiled" "$room/profiled"; echo "status $?")"
  told "no lines by $workers workers" 'status 0' "$("$program" line --workers $workers < /dev/null; echo "status $?")"
  told "a full disk and $workers workers" "riichi_desk: fault F2
$full
status 3" "$("$program" line --workers $workers < examples/club-night.lines 2>&1 > /dev/full; echo "status $?")"
  told "a folder and $workers workers" "riichi_desk: fault F1
$folder
status 3" "$("$program" line --workers $workers < "$room" 2>&1; echo "status $?")"
done

# the yaku, as docs/RULES.md has them
# the rules that a table may choose, as docs/RULES.md has them: word, first profile, second profile
told 'help-rules' "$(sed -nE 's/^\| `([a-z-]+)`[^|]* \| (on|off) \| (on|off) \| .*/\1 \2 \3/p' docs/RULES.md)" \
  "$("$program" help-rules | sed -nE 's/^  ([a-z-]+) +(on|off) +(on|off)  .*/\1 \2 \3/p')"
told 'help-yaku' "$(awk -F ' \\| ' '{ gsub(/`/, "") } /^\| (No|[0-9]+) \| [a-zW]/ {
    sub(/^\| /, "", $1); sub(/ \|$/, "", $NF); gsub(/[^ -~]/, "", $3); sub(/[ ,]+$/, "", $3)
    if (NF == 6) printf "%2s|%s|%s|%s|%s|%s\n", $1, $2, $3, $4, $5, $6; else if (NF == 4) printf "%2s|%s|%s|%s\n", $1, $2, $3, $4 }' docs/RULES.md)" \
  "$("$program" help-yaku | sed -nE 's/^  ( ?[0-9No]+)  ([^ ]+) +(.{16}) +([0-9C][a-z]*) +([0-9O-][a-z]*)  (.*)/\1|\2|\3|\4|\5|\6/p; t; s/^  ([0-9No]+)  ([^ ]+) +(.{16})  (.*)/\1|\2|\3|\4/p' | sed 's/ *|/|/g')"

# the codes in words, as the documentation has them; and what follows each refusal, where `{}` stands for the words of its code
"$program" help-codes > "$room/codes"
told 'help-codes' "$(awk '/^## Codes$/ { here = 1 } /^```/ { inside = here && !inside; if (!inside && seen) exit; next } inside { seen = 1; print }' docs/NOTATION.md)" "$(cat "$room/codes")"
while IFS='|' read -r _ code line said; do
  words=$(sed -n "s/^  $code  *//p" "$room/codes")
  got=$("$program" explain "$line")
  told "the code of $line" "refused $code" "$(sed -nE '1s/^(refused [A-Z][0-9]+).*/\1/p' <<< "$got")"
  told "the word at fault of $line" "$(printf '%b' "${said/'{}'/$words}")" "$(tail -n +2 <<< "$got" | grep -vE '^  (try: |guess: |here )')"
  words=$("$program" line --json <<< "$line" 2> "$room/said" | sed -nE 's/.*,"words":"([^"]+)"\}$/\1/p')
  told "the words of the JSON of $line" 1 "$(grep -cF -- "${words:-none}" <<< "$got")"
done < <(sed 's/^/|/' tests/refused.lines)

# what beginners type, behind `> `, and what they are shown; each line to try is answered, under both profiles, and not refused
sed -n 's/^> //p' tests/beginners.lines > "$room/input"
"$program" explain < "$room/input" > "$room/shown" 2> "$room/said"
status=$?
told 'what beginners are shown' "status 1
$(grep -v -e '^> ' -e '^# ' -e '^$' tests/beginners.lines)" "status $status
$(cat "$room/shown")"
sed -nE 's/^  (try|guess): //p' "$room/shown" > "$room/tried"
for rules in 1 2; do
  "$program" line --rules "$rules" < "$room/tried" > "$room/answers" 2> "$room/said"
  status=$?
  told "what beginners are to try, under profile $rules" "status 0, $(wc -l < "$room/tried") answers" "status $status, $(grep -vc '^refused' "$room/answers") answers"
done

# a line to try is one that the rules of the line accept: before the own first draw a win by ron where they have the blessing of man
blessed='win 234m567m345p67s99s on=5s by=Ron seat=S round=E flags=first'
for by in '1 tsumo' '2-ura tsumo' '1+blessing-of-man ron' '2+blessing-of-man ron'; do
  read_as="
  here by=Ron is read as by=tsumo."
  [ "${by#* }" = tsumo ] || read_as=
  row 1 "refused H4
  by=Ron: a win is by ron or tsumo$read_as
  try: ${blessed/Ron/${by#* }}" '' explain --rules "${by% *}" "$blessed"
done

# someone types: the answer to a line comes before the next line is sent
coproc desk { "$program" line; }
to_desk=${desk[1]} from_desk=${desk[0]} typist=$desk_PID
echo 'waits 1112345678999m' >&"$to_desk"
read -r -t 20 typed <&"$from_desk"
told 'an answer before the next line' 'waits 123456789m' "${typed:-nothing}"
echo 'waits 8z' >&"$to_desk"
read -r -t 20 typed <&"$from_desk"
told 'the answer to the next line' 'refused N5 hand at 0' "${typed:-nothing}"
eval "exec $to_desk>&-"
wait "$typist" 2> /dev/null

# one Ctrl-D at a terminal ends the lines: nothing is read behind the end
type_end='import os, pty, signal, sys; signal.alarm(20); pid, screen = pty.fork(); pid or os.execv(sys.argv[1], sys.argv[1:])
os.write(screen, b"waits 8z\n\4"); print("status", os.waitstatus_to_exitcode(os.waitpid(pid, 0)[1]))'
told 'one Ctrl-D ends the lines' 'status 1' "$(python3 -c "$type_end" "$program" line 2>&1)"

# one line of ten million bytes, then one more
{ head -c 10000000 /dev/zero | tr '\0' 'm'; printf '\nwaits 8z\n'; } > "$room/long"
told 'a line of ten million bytes' $'refused H1\nrefused N5 hand at 0' "$("$program" line < "$room/long")"

# who reads the answers goes away, and a full disk
yes 'waits 1112345678999m' | head -n 100000 > "$room/many"
{ "$program" line < "$room/many" 2> "$room/said"; echo "status $?" >> "$room/said"; } | head -n 1 > /dev/null
told 'the reader of the answers goes away' 'status 0' "$(cat "$room/said")"
{ "$program" score "$room/many" 2> "$room/said"; echo "status $?" >> "$room/said"; } | head -n 1 > /dev/null
told 'the reader of a score goes away' 'status 0' "$(cat "$room/said")"
told 'a hand and a full disk' "riichi_desk: fault F2
$full
status 3" "$("$program" waits 1112345678999m 2>&1 > /dev/full; echo "status $?")"
told 'lines from a folder' "riichi_desk: fault F1
$folder
status 3" "$("$program" line < "$room" 2>&1; echo "status $?")"
told 'a full disk' "riichi_desk: fault F2
$full
status 3" "$("$program" line < "$room/many" 2>&1 > /dev/full; echo "status $?")"

# a script: two tables, each answer and each refusal; a table too many; no file; a full disk
replays examples/replay.lines examples/replay.answers
printf 'open east\nsubmit east waits 1112345678999m\n' > "$room/script"
row 0 $'table 0\nticket 0' '' replay "$room/script"
for number in $(seq 0 63); do echo "open t$number"; done > "$room/script"
echo 'open t64' >> "$room/script"
{ for number in $(seq 0 63); do echo "table $number"; done; echo 'refused P4'; } > "$room/wanted"
replays "$room/script" "$room/wanted"
: > "$room/script"
row 0 '' '' replay "$room/script"
row 3 '' "riichi_desk: cannot open $room/none" replay "$room/none"
row 3 '' 'riichi_desk: fault F1' replay "$room"
row 2 '' '<FILE>' replay
row 2 '' "unexpected argument 'B' found" replay A B
told 'a script and a full disk' "riichi_desk: fault F2
$full
status 3" "$("$program" replay examples/replay.lines 2>&1 > /dev/full; echo "status $?")"
# the command score: two tables, the profile of one, files that aren't there, too many files, a full disk
printf 'waits 1112345678999m\nwaits 8z\n' > "$room/first"
: > "$room/second"
printf 'rules 2\nwin 123406789m22s34p on=2p by=ron seat=S round=E\n' > "$room/third"
two=$'table 0\nwaits 123456789m\nrefused N5 hand at 0\ntable 1'
row 1 "$two" '' score "$room/first" "$room/second"
row 1 "$two" '' score --workers 1 "$room/first" "$room/second"
row 1 "$two" '' score --workers 16 "$room/first" "$room/second"
row 0 $'table 0\ntable 1\nwon 4 han 30 fu 8000 gain 8000 pinfu pure-straight dora 1' '' score "$room/second" "$room/third"
row 3 '' "riichi_desk: cannot open $room/none" score "$room/first" "$room/none" "$room/neither"
row 3 '' 'riichi_desk: fault F1' score "$room/first" "$room"
# with names and numbers: notes, empty lines and the line of the profile count; a name with a space, and one that isn't ASCII
printf 'rules 2\n\n# east\nwaits 8z\r\nwaits 123456789m1134p' > "$room/fourth"
row 1 "table 0 $room/first"$'\n1:waits 123456789m\n2:refused N5 hand at 0\n'"table 1 $room/second"$'\n'"table 2 $room/fourth"$'\n4:refused N5 hand at 0\n5:waits 25p' '' \
  score --number "$room/first" "$room/second" "$room/fourth"
for workers in 1 16; do
  told "score --number by $workers workers" "$("$program" score --number "$room/first" "$room/fourth")" "$("$program" score --number --workers $workers "$room/first" "$room/fourth")"
done
mkdir "$room/east wind" && cp "$room/second" "$room/east wind/東.txt"
row 0 "table 0 $room/east wind/???.txt" '' score --number "$room/east wind/東.txt"
row 3 '' "riichi_desk: cannot open $room/none" score --number "$room/first" "$room/none"
many=()
for ((i = 0; i < 64; i++)); do many+=("$room/second"); done
row 0 "$(for ((i = 0; i < 64; i++)); do echo "table $i"; done)" '' score "${many[@]}"
row 2 '' 'riichi_desk: fault B1' score "${many[@]}" "$room/none"
row 0 "$(for ((i = 0; i < 63; i++)); do echo "table $i"; done)" '' score "${many[@]:1}"
# a hand too many in one file, and just as many as it may have; no memory for the hands; no memory for a thread's stack
yes 'waits 1112345678999m' | head -n 1000001 > "$room/many"
row 2 '' 'riichi_desk: fault B1' score "$room/many"
row 2 '' "  $room/many: \`score\` takes 1000000 hands of a file at most; cut it in two, or run \`line --file\`, which takes any number" score "$room/second" "$room/many"
row 2 '' '  65 files: `score` takes 64 at most, and 1000000 hands of each; run it twice, or `line --file`' score "${many[@]}" "$room/none"
head -n 1000000 "$room/many" > "$room/most"
told 'a score of 1,000,000 hands' "$({ echo 'table 0'; yes 'waits 123456789m' | head -n 1000000; } | sha256sum)" "$("$program" score "$room/most" 2> "$room/said" | sha256sum)"
rm "$room/most"
told 'a score without memory' $'riichi_desk: fault F3\n  there is no memory\n  `score` keeps all answers until the last is made; `line --file` writes them as they are made\nstatus 4' "$(ulimit -v 60000; "$program" score "$room/many" 2>&1; echo "status $?")"
told 'a score without a thread' "$("$program" score "$room/first")"$'\nstatus 1' "$(ulimit -v 30000; "$program" score --workers 4 "$room/first" 2>&1; echo "status $?")"
told 'a full disk at the end of a score' "riichi_desk: fault F2
$full
status 3" "$("$program" score "$room/first" 2>&1 > /dev/full; echo "status $?")"
# how far the answers are stands on a terminal from the first second on, and nowhere else. Each run reads a pipe that gives a line
# at once and the others 1.5 seconds later.
screen='import os, pty, signal, sys; signal.alarm(60); pid, screen = pty.fork()
if pid == 0:
    os.dup2(os.open(sys.argv[1], os.O_WRONLY | os.O_CREAT), 1)
    os.execv(sys.argv[2], sys.argv[2:])
try:
    while piece := os.read(screen, 65536): os.write(1, piece)
except OSError: pass
print("status", os.waitstatus_to_exitcode(os.waitpid(pid, 0)[1]))'
slow=()
# slowly NAME ANSWERS WORDS..: runs the program on a terminal, with its answers in the file ANSWERS; what the terminal gets goes
# into room/NAME.screen
slowly() {
  local name=$1 answers=$2
  shift 2
  mkfifo "$room/$name"
  { echo 'waits 1112345678999m'; sleep 1.5; head -n 100000 "$room/many"; echo 'rules 2'; } > "$room/$name" &
  python3 -c "$screen" "$answers" "$program" "$@" > "$room/$name.screen" 2>&1 &
  slow+=($!)
}
slowly lines "$room/lines.answers" line --file "$room/lines"
slowly crew "$room/crew.answers" line --workers 2 --file "$room/crew"
slowly quiet "$room/quiet.answers" line --quiet --file "$room/quiet"
slowly typed /dev/tty line --file "$room/typed"
slowly fault "$room/fault.answers" line --file "$room/fault" "$room/none"
slowly score "$room/score.answers" score --workers 1 "$room/score"
slowly score-quiet /dev/null score --quiet "$room/score-quiet"
mkfifo "$room/file"
{ echo 'waits 1112345678999m'; sleep 1.5; head -n 100000 "$room/many"; } > "$room/file" &
"$program" score "$room/file" 2> "$room/said" > "$room/file.answers"
told 'a slow score without a terminal' 'silent 100002' "$([ -s "$room/said" ] || echo silent) $(grep -c . "$room/file.answers")"
wait "${slow[@]}"
# at last the terminal has what it would have without: each line is wiped before something else is written
slip='line 100002 sets no profile: the lines are answered under profile 1; `rules 1` or `rules 2` sets one, alone in the first line'
wiped() { sed -E $'s/.*\r\x1b\\[K//; s/\r$//' "$room/$1.screen"; }
told 'lines from a pipe show how many they are' 'some' "$(grep -qE $'\r[0-9]+ lines, [0-9]+ lines a second\x1b\\[K' "$room/lines.screen" && echo some)"
told 'and no share of what they are' 0 "$(grep -c ' %, ' "$room/lines.screen")"
told 'the terminal behind lines' "riichi_desk: $room/lines: $slip"$'\nstatus 1' "$(wiped lines)"
told 'the answers are the same' "$(sha256sum < "$room/quiet.answers")" "$(sha256sum < "$room/lines.answers")"
told 'lines by two threads show how many they are' 'some' "$(grep -qE $'\r[0-9]+ lines, [0-9]+ lines a second\x1b\\[K' "$room/crew.screen" && echo some)"
told 'the terminal behind them' "riichi_desk: $room/crew: $slip"$'\nstatus 1' "$(wiped crew)"
told 'their answers are the same' "$(sha256sum < "$room/quiet.answers")" "$(sha256sum < "$room/crew.answers")"
told 'lines with --quiet' "riichi_desk: $room/quiet: $slip"$'\nstatus 1' "$(tr -d '\r' < "$room/quiet.screen")"
told 'lines whose answers come to the terminal' 0 "$(grep -c 'lines a second' "$room/typed.screen")"
missing="riichi_desk: cannot open $room/none
riichi_desk: $room/none: No such file or directory (os error 2)
  look at the name, and at the folder that the command runs in; a name with a space stands in quotes
status 3"
told 'a fault behind lines' "riichi_desk: $room/fault: $slip"$'\n'"$missing" "$(wiped fault)"
for words in 'line --file' 'explain --file' score game 'need Anna' standings replay; do
  told "$words without its file" "$missing" "$("$program" $words "$room/none" 2>&1; echo "status $?")"
done
# a command for one line says on a terminal what there is to say beside the answer, which stays as it is
beside() { : > "$room/answers"; python3 -c "$screen" "$room/answers" "$program" "$@" | tr -d '\r'; cat "$room/answers"; }
"$program" explain win 234m567m345p67s99s on=5s by=ron seat=s round=E > "$room/beside"
told 'a refusal on a terminal' "$(tail -n +2 "$room/beside")
status 1
$(head -n 1 "$room/beside")" "$(beside win 234m567m345p67s99s on=5s by=ron seat=s round=E)"
told 'an answer on a terminal' $'  why: riichi_desk explain win 234m567m345p67s99s on=5s by=ron seat=S round=E\nstatus 0\nwon 1 han 30 fu 1000 gain 1000 pinfu' \
  "$(beside win 234m567m345p67s99s on=5s by=ron seat=S round=E)"
told 'an answer under other rules' '  why: riichi_desk explain --rules 2-ura win 234m567m345p67s99s on=5s by=ron seat=S round=E' \
  "$(beside win --rules 2-ura 234m567m345p67s99s on=5s by=ron seat=S round=E | head -n 1)"
told 'waits on a terminal' $'  why: riichi_desk explain waits 1112345678999m\nstatus 0\nwaits 123456789m' "$(beside waits 1112345678999m)"
told 'waits of a wrong hand on a terminal' "$("$program" explain waits 123456789m111z | tail -n +2)" "$(beside waits 123456789m111z | grep '^  ')"
told 'a shape on a terminal' '  why: riichi_desk explain shape 123456789m1134p' "$(beside shape 123456789m1134p | head -n 1)"
# how a text was saved is named, whichever command reads it
for words in line 'line --workers 2' explain game 'need Anna -' 'standings -' 'seats - 1'; do
  told "a byte order mark: $words" 1 "$(printf '\xef\xbb\xbfrules 2\n' | "$program" $words 2>&1 | grep -c 'riichi_desk: standard input: a byte order mark stands before the first line')"
  told "UTF-16: $words" 1 "$(printf '\xff\xfer\0u\0l\0e\0s\0 \0002\0\n\0' | "$program" $words 2>&1 | grep -c 'riichi_desk: standard input: the text is UTF-16')"
done
printf '\xfe\xff\0w' > "$room/upper"
told 'UTF-16 the other way round' 1 "$("$program" score "$room/upper" 2>&1 | grep -c "riichi_desk: $room/upper: the text is UTF-16")"
# two winners of one discard that are both paid the counters and sticks
winners='line 3: this win and the one before it are by ron on the same tile, with the same counters and sticks, and both are paid them'
one='win 123456789m11p23s on=1s by=ron seat=S round=E counters=2 sticks=1'
two_winners() { printf '%s\n# the other winner\n%s\n' "$one" "$1" > "$room/winners"; "$program" score "$room/winners" 2>&1 > /dev/null | grep -c "riichi_desk: $room/winners: $winners"; }
told 'two winners' 1 "$(two_winners "${one/seat=S/seat=W}")"
for other in "$one" "${one/seat=S/seat=W counters=0}" "${one/seat=S round=E counters=2 sticks=1/seat=W round=E counters=2}" "${one/on=1s by=ron seat=S/on=4s by=ron seat=W}" \
  "${one/by=ron seat=S/by=tsumo seat=W}" "${one/seat=S round=E/seat=W round=S}" $'waits 1112345678999m\n'"${one/seat=S/seat=W}"; do
  told "no two winners: ${other//$'\n'/, }" 0 "$(two_winners "$other")"
done
printf 'rules 2\n%s\n%s\n' "$one" "${one/seat=S/seat=W}" > "$room/winners"
told 'two winners behind a line of rules' 1 "$("$program" score "$room/winners" 2>&1 > /dev/null | grep -c "riichi_desk: $room/winners: $winners")"
printf 'rules 2\n%s\n%s\n' "${one/ counters=2 sticks=1/}" "${one/seat=S round=E counters=2 sticks=1/seat=W round=E}" > "$room/winners"
told 'two winners without counters and sticks' '' "$("$program" score "$room/winners" 2>&1 > /dev/null)"
told 'a score of a pipe shows how many lines it has read' 'some' "$(grep -qE $'\r[0-9]+ lines, [0-9]+ lines a second\x1b\[K' "$room/score.screen" && echo some)"
told 'the terminal behind a score' "riichi_desk: $room/score: $slip"$'\nstatus 1' "$(wiped score)"
told 'a score with --quiet' 0 "$(grep -c 'lines a second' "$room/score-quiet.screen")"
row 2 '' "unexpected argument '--quiet' found" explain --quiet
# each worker is a thread, of which the first is that of the program, where the text is worth it
cc -shared -fPIC -o "$room/count.so" tests/count.c -ldl
for ((i = 0; i < 20; i++)); do cat examples/rules.lines; done > "$room/worth"
for workers in 2 4; do
  THREADS_COUNT=$room/count LD_PRELOAD=$room/count.so "$program" score --workers $workers "$room/worth" > /dev/null
  told "the threads of $workers workers" $((workers - 1)) "$(cat "$room/count")"
done
# each table of a score is answered as `line` answers its file, whatever the workers; one of them has 57,400 lines
for ((i = 0; i < 350; i++)); do cat examples/rules.lines; done > "$room/long"
{
  echo 'table 0'
  cat examples/club-night.answers
  echo 'table 1'
  for ((i = 0; i < 350; i++)); do cat examples/rules.answers; done
  echo 'table 2'
  cat examples/rules-two.answers
} > "$room/wanted"
# without names and numbers a score is the same, and behind the name of each file stand the lines of `line --number`
told 'score --number without them' "$(sha256sum < "$room/wanted")" \
  "$("$program" score --number examples/club-night.lines "$room/long" examples/rules-two.lines 2> "$room/said" | sed -E 's/^[0-9]+://; s/^(table [0-9]+) .*/\1/' | sha256sum)"
told 'score --number and line --number' "$({ echo "table 0 $room/long"; "$program" line --number --file "$room/long"; } 2> "$room/said" | sha256sum)" \
  "$("$program" score --number "$room/long" 2> "$room/said" | sha256sum)"
told 'long lines by 4 and 16 workers' "$("$program" line < "$room/long" 2> /dev/null | sha256sum; "$program" line < "$room/long" 2> /dev/null | sha256sum)" \
  "$("$program" line --workers 4 < "$room/long" 2> /dev/null | sha256sum; "$program" line --workers 16 --file "$room/long" 2> /dev/null | sha256sum)"
for workers in 1 4 16; do
  "$program" score --workers $workers examples/club-night.lines "$room/long" examples/rules-two.lines > "$room/answers" 2> "$room/said"
  told "score of the examples by $workers workers" "$(sha256sum < "$room/wanted")" "$(sha256sum < "$room/answers")"
done

# texts of games: those of docs/GAME.md and of examples/, and the worked deals
if command -v python3 > /dev/null; then
  for told_by in games_told games_as_values; do
    "tests/$told_by.py" "$program" > "$room/games"
    grep -v '^[0-9]* passed' "$room/games"
    read -r more _ fewer _ <<< "$(tail -n 1 "$room/games")"
    passed=$((passed + more)) failed=$((failed + fewer))
  done
else
  skip 'the texts of docs/GAME.md' python3
fi
printf 'game Anna Bo Cyd Dee\nron Bo from Cyd 1.30\n' > "$room/good.game"
printf 'game Anna Bo Cyd Dee\nron Bo from Bo 1.30\n' > "$room/wrong.game"
printf 'game Anna Bo Cyd Dee\nend\n' > "$room/over.game"
begun='game Anna Bo Cyd Dee start 30000'
first='east 1 counters 0 sticks 0 changes 0 +1000 -1000 0 points 30000 31000 29000 30000'
stands='stands east 2 counters 0 sticks 0 points 30000 31000 29000 30000'
held='stands east 1 counters 0 sticks 0 points 30000 30000 30000 30000'
row 0 "$begun
$first
$stands" '' game "$room/good.game"
row 1 "$begun
refused G5
$held" '' game "$room/wrong.game"
# several files, of which one has a refused line; one that isn't there ends it
row 1 "$begun
refused G5
$held
$begun
$first
$stands" '' game "$room/wrong.game" "$room/good.game"
row 3 "$begun
$first
$stands" 'riichi_desk: cannot open nowhere.game' game "$room/good.game" nowhere.game
: > "$room/input"
row 0 '' '' game
cp "$room/good.game" "$room/input"
row 0 "$begun
$first
$stands" '' game
row 0 "$begun
$first
$stands" '' game -
row 2 '' "error: --rules has no rule \`red\`" game --rules 1+red "$room/good.game"
# with reasons, also behind the numbers of lines
row 0 "$begun
$first
  Bo's hand: 1 han 30 fu
  Cyd pays Bo 1000: ron, 240 base points
$stands" '' game --explain "$room/good.game"
row 0 "1:$begun
2:$first
  Bo's hand: 1 han 30 fu
  Cyd pays Bo 1000: ron, 240 base points
$stands" '' game --number --explain "$room/good.game"
row 1 "$begun
refused G5
  a name stands twice, or a player can't be what it says: a winner is neither the discarder nor liable
  write: ron Bo from DISCARDER 1.30
$held" '' game --explain "$room/wrong.game"
# what beginners type in a game, behind `> `, and what they are shown; each line to try is accepted
sed -n 's/^> \(.*\)/game Anna Bo Cyd Dee\n\1/p' tests/beginners.games > "$room/mistyped"
"$program" game --explain < "$room/mistyped" > "$room/shown" 2> "$room/said"
status=$?
told 'what beginners are shown in a game' "status 1
$(grep -v -e '^> ' -e '^# ' -e '^$' tests/beginners.games)" "status $status
$(grep -v -e '^game ' -e '^stands ' "$room/shown")"
told 'without hints the answers are the same' "$("$program" game < "$room/mistyped")" "$(grep -v '^  ' "$room/shown")"
sed -nE 's/^  (try|guess): (.*)/game Anna Bo Cyd Dee\n\2/p' "$room/shown" > "$room/tried"
told 'what beginners are to try in a game' 0 "$("$program" game - < "$room/tried" | grep -c '^refused')"
row 0 "$begun
  over: end was said
over
final 1 Anna points 30000 bonus 0.0 penalty 0 total 0.0
final 1 Bo points 30000 bonus 0.0 penalty 0 total 0.0
final 1 Cyd points 30000 bonus 0.0 penalty 0 total 0.0
final 1 Dee points 30000 bonus 0.0 penalty 0 total 0.0
  places 1 2 3 4 shared by Anna Bo Cyd Dee: +15000 +5000 -5000 -15000 in 4 parts
  Anna: (30000 - 30000) + bonus 0 - penalty 0 = 0
  Bo: (30000 - 30000) + bonus 0 - penalty 0 = 0
  Cyd: (30000 - 30000) + bonus 0 - penalty 0 = 0
  Dee: (30000 - 30000) + bonus 0 - penalty 0 = 0" '' game --explain "$room/over.game"
# as objects of JSON, also with the numbers of lines
begun_object='"answer":"game","names":["Anna","Bo","Cyd","Dee"],"start":30000}'
first_object='"answer":"deal","outcome":"ron","round":"east","dealer":0,"counters":0,"sticks":0,"changes":[0,1000,-1000,0],"points":[30000,31000,29000,30000],"moves":[{"from":2,"to":1,"points":1000,"why":"ron","base":240}]}'
stands_object='{"answer":"stands","round":"east","dealer":1,"counters":0,"sticks":0,"points":[30000,31000,29000,30000]}'
held_object='{"answer":"stands","round":"east","dealer":0,"counters":0,"sticks":0,"points":[30000,30000,30000,30000]}'
row 0 "{$begun_object
{$first_object
$stands_object" '' game --json "$room/good.game"
row 0 "{\"line\":1,$begun_object
{\"line\":2,$first_object
$stands_object" '' game --number --json "$room/good.game"
row 1 "{$begun_object
{\"answer\":\"refused\",\"code\":\"G5\"}
$held_object" '' game --json "$room/wrong.game"
row 2 '' 'cannot be used with' game --json --explain "$room/good.game"
# read as record lines, such a text is answered as one, and said to be one of games
note='the first line begins a game of four players; `riichi_desk game` reads such a text'
row 1 $'refused H2\nrefused H2' "standard input: $note" line
row 1 $'table 0\nrefused H2\nrefused H2' "good.game: $note" score "$room/good.game"
told 'a text of games is said to be one once' 1 "$("$program" line --file "$room/good.game" 2>&1 > /dev/null | grep -c "$note")"
printf 'games Anna\n' > "$room/input"
told 'another word is no game' 0 "$("$program" line < "$room/input" 2>&1 > /dev/null | grep -c "$note")"
# texts with all their answers
. tests/answers.sh
# questions of a player or a trainer
. tests/study.sh
# the standings of a tournament
. tests/standings.sh
told 'the words of need' 'Usage: riichi_desk need [OPTIONS] <NAME> [PLACE] <FILE>' "$("$program" need --help | grep '^Usage')"
# what a player needs, and why there is nothing
row 0 'need Cyd place 2
from Anna strictly 1300 1.40 tie 1000 1.30
from Bo strictly 1300 1.40 tie 1000 1.30
from Dee strictly 1300 1.40 tie 1000 1.30
tsumo strictly 300/500 1.30 tie 300/500 1.30' '' need Cyd 2 "$room/good.game"
row 2 '' "error: a place is 1, 2, 3 or 4, and not \`5\`" need Cyd 5 "$room/good.game"
row 2 '' "\`Eve\` is no player of the last game" need Eve "$room/good.game"
row 2 '' "\`Anna,Anna\` are not players of the last game, each once" need Cyd "$room/good.game" --riichi Anna,Anna
row 2 '' 'the last game is over' need Cyd "$room/over.game"
row 2 '' 'a line of the last game is refused, or there is no game' need Cyd "$room/wrong.game"
row 2 '' 'a line of the last game is refused, or there is no game' need Cyd /dev/null
# who sits where: what is refused, and games that are read again
names() { seq -f 'P%03g' "$1"; }
printf 'Anna\nBo\n# late\nCyd # from afar\n\nDee\r\n' > "$room/input"
row 0 'game Dee Bo Anna Cyd session=1 at=1 table=league
# no two meet twice
# seats Anna 0 0 1 0
# seats Bo 0 1 0 0
# seats Cyd 0 0 0 1
# seats Dee 1 0 0 0' '' seats - 1 --seed 1 --words table=league
names 6 > "$room/input"
row 2 '' 'riichi_desk: -: each table has four players, and there are 6 names' seats - 3
: > "$room/input"
row 2 '' 'riichi_desk: -: each table has four players, and there are 0 names' seats - 3
names 404 > "$room/input"
row 2 '' 'riichi_desk: -: there are more than 400 names' seats - 3
head -c 3000000 /dev/zero | tr '\0' '\n' > "$room/input"
row 2 '' 'riichi_desk: -: there are more than 400 names' seats - 3
printf 'Anna\nBo\nCyd Dee\n' > "$room/input"
row 2 '' 'riichi_desk: -: line 3 is no name' seats - 3
printf 'Anna\nBo=\n' > "$room/input"
row 2 '' 'riichi_desk: -: line 2 is no name' seats - 3
printf 'Anna\nBo\nAnna\nDee\n' > "$room/input"
row 2 '' 'riichi_desk: -: the name of line 3 stands on a line before it' seats - 3
names 8 > "$room/input"
row 2 '' 'error: --words says no rules of a table: `table=pub`' seats - 2 --words table=pub
row 2 '' 'error: --words says no rules of a table: `Eve`' seats - 2 --words Eve
row 2 '' "invalid value '0' for '<SESSIONS>'" seats - 0
row 2 '' "invalid value '33' for '<SESSIONS>'" seats - 33
row 2 '' "invalid value 'x' for '--seed <N>'" seats - 2 --seed x
row 3 '' "riichi_desk: cannot open $room/none" seats "$room/none" 2
told 'the same games by the same seed' "$("$program" seats - 2 --seed 9 < "$room/input" | sha256sum)" "$("$program" seats - 2 --seed 9 < "$room/input" | sha256sum)"
told 'other games by another seed' 2 "$(for seed in 1 2; do "$program" seats - 2 --seed $seed < "$room/input" | sha256sum; done | sort -u | wc -l)"
told 'games of sessions are read as games' '4 stands' "$("$program" seats - 2 < "$room/input" | "$program" game | grep -o '^stands' | sort | uniq -c | xargs)"
: > "$room/input"
. tests/sheets.sh

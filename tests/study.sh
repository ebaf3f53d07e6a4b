# Rows of the command `study`, read by tests/program.sh: answers to questions of shapes, of calls, of safe tiles, of chances and of worths, and what is refused.

near=234m45678p34s558s far=123m4467p23557s1z wide=45567m1236788p46s
row 0 'shanten 1 accepts 3p:4 6p:3 9p:4 2s:4 5s:2 8s:3 live 20 second 165 good 20' '' study shape $near
row 0 'shanten 0 accepts 2p:4 5p:4 live 8' '' study shape 123456789m1134p
# an answer is that of `line` with the figures, and each best discard has its own, in the order that is wanted
told 'study and line' "$("$program" shape $wide)" "$("$program" study shape $wide | sed 's/ second [0-9]* good [0-9]*//g')"
# discards QUESTION..: each discard of a shape's answer on a line, its figures without what is accepted
discards() {
  "$program" study "$@" | sed 's/ discard /\n&/g' | sed -n 's/^ \(discard [^ ]*\) accepts .* live/\1 live/p'
}
# figures ONE OTHER QUESTION..: the lines of two of them
figures() {
  local first=$1 second=$2
  shift 2
  discards "$@" | grep -E "^discard ($first|$second) "
}
told 'second and good of 8p and 4s' $'discard 8p live 29 second 135 good 10\ndiscard 4s live 16 second 105 good 16' "$(figures 8p 4s shape $wide)"
told 'the same by good' $'discard 4s live 16 second 105 good 16\ndiscard 8p live 29 second 135 good 10' "$(figures 8p 4s shape $wide order=good)"
told 'the same by second' $'discard 8p live 29 second 135 good 10\ndiscard 4s live 16 second 105 good 16' "$(figures 8p 4s shape order=second $wide)"
told 'by live copies' $'discard 5s live 37 second 463 good 37\ndiscard 7m live 27 second 476 good 27' "$(figures 5s 7m shape 44577m23p3356678s order=live)"
told 'by second' $'discard 7m live 27 second 476 good 27\ndiscard 5s live 37 second 463 good 37' "$(figures 5s 7m shape 44577m23p3356678s order=second)"
told 'by good' $'discard 2m live 17 second 120 good 17\ndiscard 6s live 28 second 144 good 12' "$(figures 6s 2m shape 23678m23p1236789s order=good)"
told 'a good wait is the narrower one' 'discard 2s live 20 good 20, discard 8s live 33 good 10' \
  "$(figures 2s 8s shape 45678m345p2467s88s order=good | sed 's/ second [0-9]*//' | paste -s -d , | sed 's/,/, /g')"
told 'three steps from ready' ' live 16 second 160 good 16' "$("$program" study shape 1357m245p2346s77z | grep -o ' live 16 .*')"

# calls: each that brings nearer, for every run, one after another
row 0 'calls chi:345p shanten 0 discard 8s accepts 2s:4 5s:2 live 6 discard 5s accepts 8s:3 live 3' '' study calls $near tile=3p from=left
row 0 'calls chi:456p shanten 0 discard 8s accepts 2s:4 5s:2 live 6 discard 5s accepts 8s:3 live 3 chi:678p shanten 0 discard 8s accepts 2s:4 5s:2 live 6 discard 5s accepts 8s:3 live 3' '' \
  study calls $near tile=6p from=left
row 0 'calls chi:789p shanten 0 discard 8s accepts 2s:4 5s:2 live 6 discard 5s accepts 8s:3 live 3' '' study calls from=left tile=9p $near
row 0 'calls chi:234s shanten 0 discard 8s accepts 3p:4 6p:3 9p:4 live 11' '' study calls $near tile=2s from=left
row 0 'calls chi:345s shanten 0 discard 8s accepts 3p:4 6p:3 9p:4 live 11' '' study calls $near tile=5s from=left
row 0 'calls pon:444p shanten 1 discard 7s accepts 5p:4 8p:4 1s:4 4s:4 live 16 discard 1z accepts 5p:4 8p:4 1s:4 4s:4 live 16' '' study calls $far tile=4p from=across
# a run is called from the left alone; a pon of 5s and a chi of 4p bring nothing, nor does a pair that the hand needs
for question in "$near tile=3p from=right" "$near tile=5s from=across" "$near tile=4p from=left" '1357m246p468s557z tile=5z from=left' '123456789m1134p tile=2p from=left'; do
  row 0 'calls none' '' study calls $question
done
# a kong brings nothing nearer, and may lose what a hand accepts
told 'a kong is told behind the calls' 'calls none kan:1111z shanten' "$("$program" study calls 123456m12p34s111z tile=1z from=across | cut -d ' ' -f 1-4)"

# in words, lines below each answer
row 0 'shanten 1 accepts 3p:4 6p:3 9p:4 2s:4 5s:2 8s:3 live 20 second 165 good 20
  20 live tiles bring the hand nearer; 165 draws of two tiles, one after the other, bring it two nearer; 20 of the 20 leave five live tiles or more' '' study --explain shape $near
row 0 'shanten 0 accepts 2p:4 5p:4 live 8
  8 live tiles win' '' study --explain shape 123456789m1134p
told 'discards in words' '  after 4s: 16 live tiles bring the hand nearer; 105 draws of two tiles, one after the other, bring it two nearer; 16 of the 16 leave five live tiles or more
  after 8p: 29 live tiles bring the hand nearer; 135 draws of two tiles, one after the other, bring it two nearer; 10 of the 29 leave five live tiles or more' \
  "$("$program" study --explain shape order=good $wide | grep -E '^  after (4s|8p): ')"
told 'a line in words for each discard' "$(discards shape $wide order=good | cut -d ' ' -f 2)" "$("$program" study --explain shape $wide order=good | sed -n 's/^  after \(..\): .*/\1/p')"
row 0 'calls chi:345p shanten 0 discard 8s accepts 2s:4 5s:2 live 6 discard 5s accepts 8s:3 live 3
  chi:345p: then throw 8s (6 live) or 5s (3 live)' '' study --explain calls $near tile=3p from=left
told 'four discards in words' '  chi:567p: then throw 1z (16 live), 5s (12 live), 7s (12 live) or 2s (8 live)' "$("$program" study --explain calls $far tile=5p from=left | tail -n 1)"
told 'one discard in words' '  chi:234s: then throw 8s (11 live)' "$("$program" study --explain calls $near tile=2s from=left | tail -n 1)"
row 0 'calls none
  no call brings the hand nearer' '' study --explain calls $near tile=3p from=right
told 'a kong in words' '  no call brings the hand nearer
  kan:1111z: brings the hand no nearer' "$("$program" study --explain calls 123456m12p34s111z tile=1z from=across | tail -n 2)"
row 1 'refused H4' '' study --explain shape $near order=best

# as JSON, an object a line
row 0 '{"answer":"shape","shanten":1,"second":165,"good":20,"accepts":[{"kind":"3p","live":4},{"kind":"6p","live":3},{"kind":"9p","live":4},{"kind":"2s","live":4},{"kind":"5s","live":2},{"kind":"8s","live":3}],"live":20}' '' study --json shape $near
row 0 '{"answer":"shape","shanten":0,"accepts":[{"kind":"2p","live":4},{"kind":"5p","live":4}],"live":8}' '' study --json shape 123456789m1134p
told 'discards as objects' "$(discards shape $wide order=good | sed 's/discard \(..\) live [0-9]* second \([0-9]*\) good \([0-9]*\)/"discard":"\1","second":\2,"good":\3,/')" \
  "$("$program" study --json shape $wide order=good | grep -oE '"discard":"..",("second":[0-9]*,"good":[0-9]*,)?')"
told 'what stands before them' '{"answer":"shape","shanten":1,"order":"good","discards":[{' "$("$program" study --json shape $wide order=good | grep -o '^[^[]*\[{')"
row 0 '{"answer":"calls","shanten":1,"calls":[{"meld":"chi:345p","discards":[{"discard":"8s","live":6},{"discard":"5s","live":3}]}],"kong":null}' '' study --json calls $near tile=3p from=left
row 0 '{"answer":"calls","shanten":1,"calls":[{"meld":"chi:456p","discards":[{"discard":"8s","live":6},{"discard":"5s","live":3}]},{"meld":"chi:678p","discards":[{"discard":"8s","live":6},{"discard":"5s","live":3}]}],"kong":null}' '' \
  study --json calls $near tile=6p from=left
row 0 '{"answer":"calls","shanten":1,"calls":[],"kong":null}' '' study --json calls $near tile=3p from=right
told 'a kong as an object' '"calls":[],"kong":{"meld":"kan:1111z","shanten":' "$("$program" study --json calls 123456m12p34s111z tile=1z from=across | grep -o '"calls":.*kan:1111z","shanten":')"
row 1 '{"answer":"refused","code":"H4"}' '' study --json shape $near order=best
row 1 '{"answer":"refused","code":"N2","text":"hand","place":2}' '' study --json 'shape 12x3m'
row 2 '' 'cannot be used with' study --json --explain shape $near

# furiten and safe tiles: what can't be won on, the two-sided waits on the other kinds, and the own hand's furiten
honours=11122233344z
# 1p and 9p were thrown: 23p waits for 1p and 4p, 78p for 6p and 9p, so both are gone by suji; 56p and 45p stay. The hand waits for
# 5p alone, and has thrown one.
row 0 'safe none discard 4p 23p:suji 56p:open discard 6p 45p:open 78p:suji furiten 5p' '' study safe ${honours}46p thrown=1p9p own=5p
# thrown, or passed since the riichi, and held: 1z and 4p; 6p's waits don't use 4p as the other kind (45p waits for 3p, 78p for 9p)
row 0 'safe 4p 1z discard 6p 45p:open 78p:open furiten none' '' study safe ${honours}46p thrown=1z since=4p
# at the edges: 12p and 89p are no two-sided waits, nor is a pair over two suits; this hand isn't ready
row 0 'safe none discard 1p 23p:open discard 7p 56p:open' '' study safe ${honours}17p
# 8p is waited for by 67p (with 5p), 9p by 78p (with 6p); the hand waits for 7p by an edge run
row 0 'safe none discard 8p 67p:suji discard 9p 78p:suji furiten 7p' '' study safe ${honours}89p thrown=5p since=6p own=7p
# honours have no two-sided waits, and fourteen tiles have no furiten
row 0 'safe 1z 4z' '' study safe 11122233344455z thrown=1z since=4z own=5z
# both thrown and a wall is suji: 1p was thrown, and all four 2p are seen
row 0 'safe none discard 4p 23p:suji 56p:open discard 6p 45p:open 78p:open furiten none' '' study safe ${honours}46p thrown=1p seen=2222p
# a wall by tiles of every list: four 5p, so that neither 56p nor 45p is held; three are no wall
row 0 'safe none discard 4p 23p:open 56p:wall discard 6p 45p:wall 78p:open furiten 5p' '' study safe ${honours}46p own=5p thrown=5p since=5p seen=5p
row 0 'safe none discard 4p 23p:open 56p:open discard 6p 45p:open 78p:open furiten none' '' study safe ${honours}46p thrown=5p since=5p seen=5p
# one end of the own two-sided wait was thrown: furiten, also for 1p
row 0 'safe none discard 2p 34p:open discard 3p 45p:open furiten 4p' '' study safe ${honours}23p own=4p
# melds are seen too: three 5p there and one elsewhere; the hand still waits for 5p, of which it hasn't all four itself
row 0 'safe none discard 4p 23p:open 56p:wall discard 6p 45p:wall 78p:open furiten none' '' study safe 46p44z open=pon:555p,pon:222z,pon:333z seen=5p
# with a kong of 5p it waits for nothing
row 0 'safe none discard 4p 23p:open 56p:wall discard 6p 45p:wall 78p:open' '' study safe 46p44z open=kan:5555p,pon:222z,pon:333z
row 0 'safe none discard 4p 23p:suji 56p:open discard 6p 45p:open 78p:suji furiten 5p
  4p: who waits with 23p waits for 1p too, and wins on neither (suji)
  4p: who waits with 56p waits for 7p too (open)
  6p: who waits with 45p waits for 3p too (open)
  6p: who waits with 78p waits for 9p too, and wins on neither (suji)
  furiten, no win by ron: the hand has thrown what it waits for: 5p' '' study --explain safe ${honours}46p thrown=1p9p own=5p
row 0 '{"answer":"safe","safe":[],"waits":[{"kind":"4p","below":"suji","above":"open"},{"kind":"6p","below":"open","above":"suji"}],"furiten":["5p"]}' '' study --json safe ${honours}46p thrown=1p9p own=5p
row 0 '{"answer":"safe","safe":["1z","4z"],"waits":[],"furiten":null}' '' study --json safe 11122233344455z thrown=1z since=4z own=5z
row 1 'refused H4' '' study safe ${honours}46p own=5x
row 1 'refused H4' '' study safe ${honours}46p since=55555p
row 1 'refused H4' '' study safe ${honours}46p tile=5p
row 1 'refused H5' '' study safe ${honours}46p own=5p own=6p thrown=x
row 1 'refused H8' '' study safe ${honours}4p own=x
row 1 'refused H9' '' study safe ${honours}46p thrown=1z since=1z
row 1 'refused N5 hand at 0' '' study safe 8z own=x

# ten more, each by every choice of blocks and every draw (a program in plain Rust that keeps to the definitions)
row 0 'shanten 1 accepts 8m:3 5s:3 7s:3 live 9 second 27 good 0' '' study shape 2244668m1133p57s
row 0 'shanten 2 accepts 1m:3 9m:3 1p:3 9p:3 1s:3 9s:4 1z:3 2z:3 3z:3 4z:3 5z:3 6z:3 7z:4 live 41 second 584 good 41' '' study shape 19m19p1s123456z55m
row 0 'shanten 1 accepts 5p:3 8p:2 2s:2 5s:2 live 9 second 40 good 4' '' study shape 345m67p2255s1m open=pon:111z seen=588p
row 0 'shanten 2 accepts 1m:4 2m:3 3m:3 4m:3 5m:3 6m:4 7m:3 3p:2 4s:3 5s:3 6s:3 live 34 second 498 good 34' '' study shape 2357m46s3p open=chi:123p,ankan:7777z seen=4m5s
row 0 'shanten 1 discard 1m accepts 3p:4 4p:4 5p:3 6p:3 7p:3 8p:3 9p:4 1s:4 2s:3 3s:2 4s:4 live 37 second 260 good 30 discard 2s accepts 1m:2 2m:3 3m:3 4m:3 7m:4 3p:4 4p:4 5p:3 6p:3 7p:3 8p:3 9p:4 3s:2 live 41 second 238 good 18 discard 5p accepts 1m:2 2m:3 3m:3 4m:3 7m:4 1s:4 2s:3 3s:2 4s:4 live 28 second 200 good 19 discard 8p accepts 1m:2 2m:3 3m:3 4m:3 7m:4 1s:4 2s:3 3s:2 4s:4 live 28 second 200 good 19 discard 3s accepts 1m:2 4m:3 7m:4 5p:3 8p:3 1s:4 4s:4 live 23 second 192 good 23' '' study shape 1123456m5678p233s order=second
row 0 'shanten 0 discard 4m accepts 2p:4 5p:4 live 8 discard 7m accepts 2p:4 5p:4 live 8' '' study shape 4455667m34p55s open=pon:999s seen=366p
row 0 'calls chi:345m shanten 0 discard 4s accepts 5s:4 live 4 discard 6s accepts 3m:1 4s:2 live 3 pon:333m shanten 0 discard 6s accepts 3m:1 6m:4 live 5' '' study calls 3345m678p446s tile=3m from=left open=pon:222z
parted=24m55567p3349s77z
row 0 'calls chi:678p shanten 1 discard 9s accepts 3m:2 2s:4 3s:2 5s:4 7z:1 live 13 discard 3s accepts 3m:2 2s:4 5s:4 live 10 discard 4s accepts 3m:2 3s:2 7z:1 live 5' '' study calls $parted tile=8p from=left seen=33m5p7z
row 0 'calls pon:777z shanten 1 discard 9s accepts 3m:2 8p:4 2s:4 3s:2 5s:4 live 16 discard 3s accepts 3m:2 2s:4 5s:4 live 10 discard 4s accepts 3m:2 8p:4 3s:2 live 8' '' study calls $parted tile=7z from=right seen=33m5p7z
row 0 'calls none' '' study calls 1199m44p2356s155z tile=4s from=left

# chances: of all ordered draws of so many tiles, in lowest terms and to four digits (fractions by brute force over every draw and discard)
row 0 'shanten 0 turns 2 unseen 123 ready 1/1 1.0000 most 1/1 1.0000 win 316/2501 0.1263 most 316/2501 0.1263' '' study chances 123456789m1134p turns=2
row 0 'shanten 0 turns 1 unseen 123 ready 1/1 1.0000 most 1/1 1.0000 win 8/123 0.0650 most 8/123 0.0650' '' study chances turns=1 123456789m1134p
# reached QUESTION..: what is reached, without the upper ends
reached() { "$program" study chances "$@" | sed 's| most [0-9/]* [0-9.]*||g'; }
told 'one from ready' 'shanten 1 turns 3 unseen 123 ready 125770/302621 0.4156 win 1685/55022 0.0306' "$(reached $near turns=3)"
told 'one from ready, by 18' 'shanten 1 turns 18 unseen 123 ready 12190925419173643/12584789509475073 0.9687 win 3019940306028300997/5341671110885374167 0.5654' "$(reached $near turns=18)"
told 'two from ready' 'shanten 2 turns 2 unseen 123 ready 64/2501 0.0256 win 0/1 0.0000' "$(reached $far turns=2)"
told 'two from ready, by 18' 'shanten 2 turns 18 unseen 123 ready 3332954253898894213/4014547853522548287 0.8302 win 19305913277764549633/60218217802838224305 0.3206' "$(reached turns=18 $far)"
told 'two from ready, with fewer tiles that help' 'shanten 2 turns 3 unseen 123 ready 9056/302621 0.0299 win 128/302621 0.0004' "$(reached turns=3 1357m245p2346s77z)"
# after each best discard of fourteen tiles, in the order of the shape's line. The better one turns with the turns.
# wins QUESTION..: of two discards how often they win
wins() { "$program" study chances "$@" | sed 's/ discard /\n/g' | sed -nE 's|^(6s\|2m) .* win ([0-9/]+ [0-9.]+) most [0-9/]+ ([0-9.]+)$|\1 \2 \3|p'; }
told 'two discards by 6 turns' '6s 49583714/481204295 0.1030, 2m 27689599/288722577 0.0959' "$(wins 23678m23p1236789s turns=6 | cut -d ' ' -f 1-3 | paste -s -d , | sed 's/,/, /')"
told 'two discards by 18 turns' '6s 0.4462 0.4745, 2m 0.4984 0.4984' "$(wins 23678m23p1236789s turns=18 | cut -d ' ' -f 1,3,4 | paste -s -d , | sed 's/,/, /')"
told 'discards as of a shape' "$("$program" shape 44577m23p3356678s | grep -o 'discard ..')" "$("$program" study chances 44577m23p3356678s turns=5 | grep -o 'discard ..')"
# beyond three-shanten, and where fewer tiles are unseen than are drawn, nothing is counted
row 0 'shanten 6 turns 3 unseen 123 chances none' '' study chances 147m258p369s1234z turns=3
row 0 'shanten 6 turns 3 unseen 123 chances none
  chances are counted to three-shanten, and for no more draws than there are tiles' '' study --explain chances 147m258p369s1234z turns=3
# in words, and as objects
row 0 'shanten 0 turns 2 unseen 123 ready 1/1 1.0000 most 1/1 1.0000 win 316/2501 0.1263 most 316/2501 0.1263
  ready in 1.0000 of all draws, 1.0000 at most; won in 0.1263 of all draws, 0.1263 at most' '' study --explain chances 123456789m1134p turns=2
# the upper end of 6s and 9s, 0.4745, is below what each of the others reaches
told 'discards in words' '  after 6s: won in 0.4462 of all draws, 0.4745 at most
  after 2m: won in 0.4984 of all draws, 0.4984 at most, surely oftener than after 6s 9s' \
  "$("$program" study --explain chances 23678m23p1236789s turns=18 | sed -nE 's/^  after (6s|2m): ready in [0-9.]+ of all draws, [0-9.]+ at most; /  after \1: /p')"
told 'by 6 turns it is not sure' '' "$("$program" study --explain chances 23678m23p1236789s turns=6 | grep -o 'after 2m.*surely.*')"
told 'those that it beats, as objects' '"2m" "surely_over":["6s","9s"]' \
  "$("$program" study --json chances 23678m23p1236789s turns=18 | grep -oE '"discard":"2m"|"surely_over":\[[^]]*\]' | grep -A 1 2m | sed 's/"discard"://' | paste -s -d ' ')"
row 0 '{"answer":"chances","shanten":0,"turns":2,"unseen":123,"counted":true,"ready":{"part":"1","whole":"1","chance":1.0000},"ready_at_most":{"part":"1","whole":"1","chance":1.0000},"win":{"part":"316","whole":"2501","chance":0.1263},"win_at_most":{"part":"316","whole":"2501","chance":0.1263},"by_turn":[{"ready":1.0000,"win":0.0650},{"ready":1.0000,"win":0.1263}]}' '' \
  study --json chances 123456789m1134p turns=2
# by each number of turns the decimals that the questions of these turns tell
told 'each number of turns as by itself' "$(for turns in {1..6}; do "$program" study chances 234m45678p34s558s turns=$turns; done | sed -E 's/.* ready [0-9/]+ ([0-9.]+) .* win [0-9/]+ ([0-9.]+) .*/\1 \2/')" \
  "$("$program" study --json chances 234m45678p34s558s turns=6 | grep -oE '\{"ready":[0-9.]+,"win":[0-9.]+\}' | sed -E 's/.*:([0-9.]+),.*:([0-9.]+)\}/\1 \2/')"
told 'after each discard too' '6s 17 0.1030, 2m 17 0.0959' "$("$program" study --json chances 23678m23p1236789s turns=17 | python3 -c 'import json, sys
told = {it["discard"]: it["by_turn"] for it in json.load(sys.stdin)["discards"]}
print(*("{} {} {:.4f}".format(it, len(told[it]), told[it][5]["win"]) for it in ("6s", "2m")), sep=", ")')"
told 'discards of chances as objects' "$("$program" study chances 23678m23p1236789s turns=6 | sed 's/ discard /\n/g' | sed -nE 's|^(..) .* win ([0-9]+)/([0-9]+) ([0-9.]+) .*|"discard":"\1" "win":{"part":"\2","whole":"\3","chance":\4}|p')" \
  "$("$program" study --json chances 23678m23p1236789s turns=6 | grep -oE '"discard":"..",|"win":\{[^}]*\}' | paste -d ' ' - - | sed 's/, / /')"
row 0 '{"answer":"chances","shanten":6,"turns":3,"unseen":123,"counted":false}' '' study --json chances 147m258p369s1234z turns=3
row 1 'refused H6' '' study chances 123456789m1134p
row 1 'refused H5' '' study chances 123456789m1134p turns=2 turns=3
for value in 0 19 2x 100 ''; do
  row 1 'refused H4' '' study chances 123456789m1134p turns=$value
done
row 1 'refused H4' '' study chances 123456789m1134p turns=2 order=good
row 1 'refused H8' '' study chances 123456789m turns=2

# worth: 8 of 123 tiles win, each a mangan by riichi, fully concealed hand, pinfu and a pure straight (8000; as the dealer 12000)
straight=123456789m1134p
row 0 'shanten 0 turns 1 unseen 123 worth 520+40/123 520.3252' '' study worth $straight turns=1 seat=S round=E
row 0 'shanten 0 turns 1 unseen 123 worth 780+20/41 780.4878' '' study worth seat=E $straight round=E turns=1
# by two draws it wins in 316 of 2501, and gains as much
row 0 'shanten 0 turns 2 unseen 123 worth 1010+1990/2501 1010.7957' '' study worth $straight turns=2 seat=W round=S
# the indicator is seen, and 2p is a dora: 4 of 122 tiles gain 12000, 4 gain 8000
row 0 'shanten 0 turns 1 unseen 122 worth 655+45/61 655.7377' '' study worth $straight turns=1 seat=S round=E dora=1p
told 'an indicator in seen is one more tile' 'shanten 0 turns 1 unseen 121 worth 661+19/121 661.1570' "$("$program" study worth $straight turns=1 seat=S round=E dora=1p seen=1z)"
row 0 'shanten 0 turns 1 unseen 123 worth 520+40/123 520.3252' '' study worth $straight turns=1 seat=S round=E rules=2-ura
# an open hand without a yaku: eight tiles win, and bring nothing; with a triplet of white dragons 8 of 123 bring 1100 (1 han, 30 fu)
row 0 'shanten 0 turns 1 unseen 123 worth 0+0/1 0.0000' '' study worth 234m56p99s turns=1 seat=S round=E open=chi:567s,chi:789m
row 0 'shanten 0 turns 1 unseen 123 worth 71+67/123 71.5447' '' study worth 234m56p99s turns=1 seat=S round=E open=pon:555z,chi:789m
# of fourteen tiles after each best discard: no other tile than 7z may go
row 0 'shanten 0 turns 1 unseen 122 discard 7z worth 524+36/61 524.5902
  after 7z: worth 524.5902 points by these draws, on the average, the most' '' study --explain worth 123456789m1134p7z turns=1 seat=S round=E
told 'discards of a worth as of a shape' "$("$program" shape 44577m23p3356678s | grep -o 'discard ..')" "$("$program" study worth 44577m23p3356678s turns=4 seat=N round=E dora=4z | grep -o 'discard ..')"
told 'those that are worth the most' '2m 3m 2p 3p' "$("$program" study --explain worth 23678m23p1236789s turns=6 seat=E round=E dora=5s | sed -n 's/^  after \(..\): .*, the most$/\1/p' | paste -s -d ' ')"
row 0 'shanten 0 turns 1 unseen 123 worth 520+40/123 520.3252
  worth 520.3252 points by these draws, on the average' '' study --explain worth $straight turns=1 seat=S round=E
row 0 'shanten 6 turns 3 unseen 123 worth none
  chances are counted to three-shanten, and for no more draws than there are tiles' '' study --explain worth 147m258p369s1234z turns=3 seat=S round=E
row 0 '{"answer":"worth","shanten":0,"turns":1,"unseen":123,"counted":true,"points":520,"part":"40","whole":"123","worth":520.3252}' '' study --json worth $straight turns=1 seat=S round=E
row 0 '{"answer":"worth","shanten":0,"turns":1,"unseen":122,"counted":true,"discards":[{"discard":"7z","points":524,"part":"36","whole":"61","worth":524.5902}]}' '' \
  study --json worth 123456789m1134p7z turns=1 seat=S round=E
row 0 '{"answer":"worth","shanten":6,"turns":3,"unseen":123,"counted":false}' '' study --json worth 147m258p369s1234z turns=3 seat=S round=E
for words in 'seat=S round=E' 'turns=1 round=E' 'turns=1 seat=S'; do
  row 1 'refused H6' '' study worth $straight $words
done
for words in 'turns=1 seat=S seat=S round=E' 'turns=1 turns=1 seat=S round=E' 'turns=1 seat=S round=E dora=1z dora=1z' 'turns=1 seat=S round=E rules=1 rules=1'; do
  row 1 'refused H5' '' study worth $straight $words
done
for words in 'turns=19 seat=S round=E' 'turns=1 seat=1 round=E' 'turns=1 seat=S round=' 'turns=1 seat=S round=E dora=x' 'turns=1 seat=S round=E rules=3' 'turns=1 seat=S round=E rules=1+red' 'turns=1 seat=S round=E order=good'; do
  row 1 'refused H4' '' study worth $straight $words
done
row 1 'refused H8' '' study worth $straight turns=1 seat=S round=E dora=123456s
row 1 'refused H8' '' study worth 123456789m turns=x
row 1 'refused H9' '' study worth $straight turns=1 seat=S round=E dora=111p
row 1 'refused H9' '' study worth $straight turns=1 seat=S round=E dora=11z seen=111z
row 1 'refused H4' '' study chances $straight turns=1 seat=S
if command -v python3 > /dev/null; then
  told 'worths beside the definition, over every ordered draw' '200 hands, 0 wrong' "$(tests/worths_by_draws.py "$program")"
else
  skip 'worths over every ordered draw' python3
fi

# what is refused: words that are no question's, values that say nothing, words that are missing, and a fifth tile
for question in 'win 123m' 'waits 1112345678999m' "order=good"; do
  row 1 'refused H2' '' study "$question"
done
row 1 'refused H3' '' study 'shape'
row 1 'refused N2 hand at 2' '' study 'shape 12x3m'
row 1 'refused H4' '' study shape $near order=best
row 1 'refused H4' '' study shape $near tile=3p
row 1 'refused H4' '' study calls $near tile=33p from=left
row 1 'refused H4' '' study calls $near tile=3p from=me
row 1 'refused H5' '' study shape $near order=good order=good
row 1 'refused H6' '' study calls $near tile=3p
row 1 'refused H6' '' study calls $near from=left
row 1 'refused H8' '' study calls 234m45678p34s5589s tile=3p from=left
row 1 'refused H9' '' study calls $near tile=3p from=left seen=3333p
row 1 'refused N6 seen at 4' '' study calls $near tile=3p from=left seen=33333p

# the example has seven questions of all kinds
told 'the example' $'0\n7' "$("$program" study --file examples/trainer.study > "$room/answered"; echo $?; grep -vc '^refused' "$room/answered")"
# texts: notes and blank lines have no answers, and a first line of rules is none of them
printf 'rules 2\n# of the evening\n\nshape 123456789m1134p\r\ncalls %s tile=3p from=right\nshape 8z\n' $near > "$room/input"
row 1 $'shanten 0 accepts 2p:4 5p:4 live 8\ncalls none\nrefused N5 hand at 0' '' study
row 1 $'4:shanten 0 accepts 2p:4 5p:4 live 8\n5:calls none\n6:refused N5 hand at 0' '' study --number --file -
row 1 $'{"line":4,"answer":"shape","shanten":0,"accepts":[{"kind":"2p","live":4},{"kind":"5p","live":4}],"live":8}\n{"line":5,"answer":"calls","shanten":1,"calls":[],"kong":null}\n{"line":6,"answer":"refused","code":"N5","text":"hand","place":0}' '' \
  study --json --number --file -
row 1 $'4:shanten 0 accepts 2p:4 5p:4 live 8\n  8 live tiles win\n5:calls none\n  no call brings the hand nearer\n6:refused N5 hand at 0' '' study --explain --number
printf 'shape 123456789m1134p\nrules 2' > "$room/two"
row 1 $'1:shanten 0 accepts 2p:4 5p:4 live 8\n2:refused H2\n1:shanten 0 accepts 2p:4 5p:4 live 8\n2:refused H2' '' study --number --file "$room/two" "$room/two"
row 0 $'shanten 0 accepts 2p:4 5p:4 live 8\ncalls none' '' study 'shape 123456789m1134p' "calls $near tile=3p from=right"
row 2 '' 'cannot be used with' study 'shape 8z' --file "$room/two"
row 3 '' 'nowhere' study --file nowhere
# by several threads: the same bytes, whichever the form, of a text with notes, blank lines, refused lines, rules first and no end last
row 2 '' "invalid value '0' for '--workers <N>'" study --workers 0
row 2 '' "invalid value '17' for '--workers <N>'" study --workers 17
row 2 '' "'--number'" study --workers 2 --number
awk -v near=$near -v wide=$wide 'BEGIN {
  print "rules 2"
  for (n = 0; n < 4000; n++) {
    seen = sprintf("seen=%dm%dp%ds", n % 9 + 1, int(n / 9) % 9 + 1, int(n / 81) % 9 + 1)
    if (n % 10 == 3) print "# " n
    else if (n % 10 == 5) print n % 20 == 5 ? "" : "rules 2"
    else if (n % 10 == 7) print "shape 12x" n "m"
    else if (n % 10 == 2) printf "calls %s tile=%dp from=left %s\r\n", near, n % 9 + 1, seen
    else if (n % 100 == 1) print "shape", wide, "order=good", seen
    else print n % 10 == 4 ? "safe" : "shape", near, seen
  }
  printf "shape 8z"
}' > "$room/many"
told 'so many questions' 4002 "$(awk 'END { print NR }' "$room/many")"
# studies WORDS..: what `study` writes, as a checksum, and its status
studies() {
  { "$program" study "$@" 2>&1; echo "status $?"; } | sha256sum
}
for workers in 1 2 3 16; do
  for form in '' --explain --json; do
    told "study $form by $workers workers" "$(studies $form --file "$room/many" "$room/two")" "$(studies $form --workers $workers --file "$room/many" "$room/two")"
  done
  told "a text of questions by $workers workers" "$(studies < "$room/many")" "$(studies --workers $workers < "$room/many")"
  told "no questions by $workers workers" "$(studies < /dev/null)" "$(studies --workers $workers < /dev/null)"
  told "a folder of questions and $workers workers" "$(studies < "$room")" "$(studies --workers $workers < "$room")"
  told "questions, a full disk and $workers workers" "$("$program" study < "$room/many" 2>&1 > /dev/full; echo "status $?")" \
    "$("$program" study --workers $workers < "$room/many" 2>&1 > /dev/full; echo "status $?")"
done
row 0 'shanten 0 accepts 2p:4 5p:4 live 8' '' study --workers 2 shape 123456789m1134p
: > "$room/input"
row 0 '' '' study
told 'study and a full disk' "riichi_desk: fault F2: the answers can't be written
$full
status 3" "$("$program" study shape $near 2>&1 > /dev/full; echo "status $?")"

# Rows of the command `standings`, read by tests/program.sh: the words of each fault, ties, forms, and that the order of files changes
# nothing.

first=examples/games/first-session.game second=examples/games/second-session.game
tournament='place 1 Fay total +27.2 games 2 sessions +17.9 +9.3
place 2 Anna total +17.7 games 2 sessions -2.0 +19.7
place 3 Bo total +8.0 games 2 sessions +29.0 -21.0
place 4 Eli total -1.0 games 2 sessions +7.0 -8.0
place 4 Hal total -1.0 games 2 sessions -6.0 +5.0
place 6 Cyd total -4.3 games 2 sessions -25.0 +20.7
place 7 Dee total -8.3 games 2 sessions -2.0 -6.3
place 8 Gus total -40.3 games 2 sessions -18.9 -21.4'
row 0 "$tournament" '' standings "$first" "$second"
row 0 "$tournament" '' standings "$second" "$first"
cat "$second" "$first" > "$room/input"
row 0 "$tournament" '' standings -
: > "$room/input"
row 0 "${tournament/place 4 Hal/place 5 Hal}" '' standings --ties best "$first" "$second"
row 0 "$tournament" '' standings --ties firsts "$first" "$second"
row 0 '{"place":1,"name":"Fay","total":27200,"games":2,"firsts":1,"best":17900,"sessions":[17900,9300]}
{"place":2,"name":"Anna","total":17700,"games":2,"firsts":1,"best":19700,"sessions":[-2000,19700]}
{"place":3,"name":"Bo","total":8000,"games":2,"firsts":1,"best":29000,"sessions":[29000,-21000]}
{"place":4,"name":"Eli","total":-1000,"games":2,"firsts":0,"best":7000,"sessions":[7000,-8000]}
{"place":4,"name":"Hal","total":-1000,"games":2,"firsts":0,"best":5000,"sessions":[-6000,5000]}
{"place":6,"name":"Cyd","total":-4300,"games":2,"firsts":1,"best":20700,"sessions":[-25000,20700]}
{"place":7,"name":"Dee","total":-8300,"games":2,"firsts":0,"best":-2000,"sessions":[-2000,-6300]}
{"place":8,"name":"Gus","total":-40300,"games":2,"firsts":0,"best":-18900,"sessions":[-18900,-21400]}' '' standings --json "$first" "$second"

row 0 'place  name     total  games       1       2
    1  Fay      +27.2      2   +17.9    +9.3
    2  Anna     +17.7      2    -2.0   +19.7
    3  Bo        +8.0      2   +29.0   -21.0
    4  Eli       -1.0      2    +7.0    -8.0
    4  Hal       -1.0      2    -6.0    +5.0
    6  Cyd       -4.3      2   -25.0   +20.7
    7  Dee       -8.3      2    -2.0    -6.3
    8  Gus      -40.3      2   -18.9   -21.4' '' standings --sheet "$first" "$second"
# side by side, and one after the other
for workers in 1 2 16; do
  row 0 "$tournament" '' standings --workers "$workers" "$first" "$second"
  row 2 '' "$second: game 1, line 2: the table has had a game in that session" standings --workers "$workers" "$first" "$second" "$second" "$first"
done
row 2 '' "invalid value '0' for '--workers <N>'" standings --workers 0 "$first"
row 2 '' "invalid value '17' for '--workers <N>'" standings --workers 17 "$first"
# of several files at fault it is the first that is told, and one that can't be read before all
printf 'game A B C D\ndraw\n' > "$room/unfinished"
printf '# nothing\n' > "$room/nothing"
for workers in 1 3; do
  row 2 '' "$room/unfinished: game 1, line 1: the game isn't over" standings --workers "$workers" "$first" "$room/unfinished" "$room/nothing"
  row 2 '' "$room/nothing: there is no game" standings --workers "$workers" "$room/nothing" "$room/unfinished"
  row 3 '' 'cannot open nowhere.game' standings --workers "$workers" "$room/nothing" nowhere.game
done
# names by the columns that they take: Zoë has five bytes, and 麻雀 six and four columns
printf 'game Zoë 麻雀 Bo Chrysanthema\nend\n' > "$room/input"
row 0 'place  name             total  games       1
    1  Bo                 0.0      1     0.0
    1  Chrysanthema       0.0      1     0.0
    1  Zoë                0.0      1     0.0
    1  麻雀               0.0      1     0.0' '' standings --sheet -
# seven sessions, of which six have room in a line
for session in 1 2 3 4 5 6 7; do printf 'game 麻雀 Bo Cyd Anna session=%s\nron 麻雀 from Bo 1.30\nend\n' $session; done > "$room/input"
row 0 'place  name     total  games       1       2       3       4       5       6
                                   7
    1  麻雀    +115.5      7   +16.5   +16.5   +16.5   +16.5   +16.5   +16.5
                               +16.5
    2  Anna       0.0      7     0.0     0.0     0.0     0.0     0.0     0.0
                                 0.0
    2  Cyd        0.0      7     0.0     0.0     0.0     0.0     0.0     0.0
                                 0.0
    4  Bo      -115.5      7   -16.5   -16.5   -16.5   -16.5   -16.5   -16.5
                               -16.5' '' standings --sheet -
: > "$room/input"

# a session by the standings so far
eight=examples/games/eight.names
row 0 'game Bo Fay Eli Anna session=2 at=1
game Dee Hal Gus Cyd session=2 at=2' '' seats "$eight" 1 --standings "$first"
row 0 'game Fay Anna Bo Eli session=3 at=1 table=club
game Hal Cyd Dee Gus session=3 at=2 table=club' '' seats "$eight" 1 --words table=club --standings "$second" "$first"
row 0 'game Fay Anna Bo Eli session=3 at=1
game Hal Cyd Dee Gus session=3 at=2' '' seats "$eight" 1 --ties best --standings "$first" "$second"
# a player who has had no game comes last, and one who isn't in the list doesn't sit
printf 'Ida\nAnna\nBo\nCyd\n' > "$room/input"
row 0 'game Bo Anna Cyd Ida session=2 at=1' '' seats - 1 --standings "$first"
: > "$room/input"
row 2 '' 'error: with --standings one session is seated, and SESSIONS is 1' seats "$eight" 2 --standings "$first"
printf 'game Anna Bo Cyd Dee\nend\n' > "$room/unsaid"
row 2 '' "the games so far don't say \`session=\`" seats "$eight" 1 --standings "$room/unsaid"
row 2 '' "$room/unfinished: game 1, line 1: the game isn't over" seats "$eight" 1 --standings "$room/unfinished"

# wrong ERRORS TEXT: the games of a text make no standings, and this is said
wrong() {
  printf '%b' "$2" > "$room/input"
  row 2 '' "riichi_desk: $1" standings -
}
# each fault by its words
wrong '-: there is no game' ''
wrong '-: there is no game' '# a note\n\n'
wrong '-: game 1, line 1: the game isn'"'"'t over' 'game A B C D\ndraw\n'
wrong '-: game 2, line 3: the game isn'"'"'t over' 'game A B C D\nend\ngame A B C D\ndraw\n'
wrong '-: game 1, line 3: the line is refused' 'game A B C D\ndraw\nron A from A 1.30\ndraw\nend\n'
wrong '-: game 2, line 3: the line is refused' 'game A B C D\nend\ngame A\nend\n'
wrong '-: game 0, line 1: the line is refused' 'draw\ngame A B C D\nend\n'
wrong '-: game 2, line 3: `B` has had a game in that session' 'game A B C D session=1\nend\ngame E F G B session=1\nend\n'
wrong '-: game 2, line 3: the table has had a game in that session' 'game A B C D session=1 at=1\nend\ngame E F G H session=1 at=1\nend\n'
wrong '-: game 2, line 3: some games say `session=`, and others don'"'"'t' 'game A B C D session=1\nend\ngame A B C D\nend\n'
wrong '-: game 2, line 3: `uma` isn'"'"'t as in the first game' 'game A B C D\nend\ngame A B C D uma=20,10,-10,-20\nend\n'
wrong '-: game 2, line 3: `rules` isn'"'"'t as in the first game' 'game A B C D\nend\ngame A B C D rules=2\nend\n'
wrong 'session 2 has fewer games than the one before it' 'game A B C D session=1\nend\ngame E F G H session=1\nend\ngame A B C D session=2\nend\n'
wrong 'session 2 has fewer games than the one before it' 'game A B C D session=1\nend\ngame A B C D session=3\nend\n'
# a refused line that is taken back, and games that say no session
printf 'game Anna Bo Cyd Dee\nron Bo from Bo 1.30\nundo\nron Bo from Cyd 1.30\nend\ngame Bo Anna Eli Fay\nend\n' > "$room/input"
row 0 'place 1 Bo total +16.0 games 2 sessions +16.0 0.0
place 2 Anna total 0.0 games 2 sessions 0.0 0.0
place 2 Dee total 0.0 games 1 sessions 0.0 -
place 2 Eli total 0.0 games 1 sessions 0.0 -
place 2 Fay total 0.0 games 1 sessions 0.0 -
place 6 Cyd total -16.0 games 1 sessions -16.0 -' '' standings -
# names that may be one player's
printf 'game Anna Bo Cyd Dee\nend\ngame anna Bob Cy Doe\nend\n' > "$room/input"
for alike in '`Anna` and `anna`' '`Bo` and `Bob`' '`Cyd` and `Cy`' '`Dee` and `Doe`'; do
  told "names alike: $alike" "riichi_desk: $alike may be one player" "$("$program" standings - < "$room/input" 2>&1 > /dev/null | grep -F -- "$alike")"
done
told 'only these are alike' 4 "$("$program" standings - < "$room/input" 2>&1 > /dev/null | wc -l)"
printf 'game P1 P2 P3 P4\nend\n' > "$room/input"
told 'a digit is no letter' '' "$("$program" standings - < "$room/input" 2>&1 > /dev/null)"
: > "$room/input"
row 3 '' 'riichi_desk: cannot open nowhere.game' standings "$first" nowhere.game
row 2 '' "invalid value 'most' for '--ties <WORD>'" standings --ties most "$first"
row 2 '' 'required arguments' standings

# Rows of `game --sheet`, read by tests/program.sh behind its own of games: a game that goes on, one that is over, refused lines, names
# by their width, and that a sheet has 80 columns and the numbers of the words.

: > "$room/input"
heads='deal                                    Anna          Bo         Cyd         Dee
start                                  30000       30000       30000       30000'
goes_on="$heads
E1       ron Bo                            0       +1000       -1000           0
         from Cyd                      30000       31000       29000       30000
E2       stands                        30000       31000       29000       30000
"
is_held="$heads
refused G5
E1       stands                        30000       30000       30000       30000
"
row 0 "$goes_on" '' game --sheet "$room/good.game"
row 1 "$is_held" '' game --sheet "$room/wrong.game"
# behind each game stands an empty row, also where the next one is of another file
row 1 "$is_held
$goes_on" '' game --sheet "$room/wrong.game" "$room/good.game"
sign=________________________________________
row 0 "$heads
end                                    30000       30000       30000       30000
bonus                                    0.0         0.0         0.0         0.0
penalty                                    0           0           0           0
total                                    0.0         0.0         0.0         0.0
place                                      1           1           1           1

Anna                                    $sign

Bo                                      $sign

Cyd                                     $sign

Dee                                     $sign
" '' game --sheet "$room/over.game"
# names by the columns that they take: Zoë has five bytes, and each sign of 麻雀 two columns; what is wider is cut
printf 'game Zoë 麻雀 Bo Chrysanthema session=2 at=13\nron Z from 麻 1.30\nundo\n' > "$room/input"
row 0 'deal     session 2                       Zoë        麻雀          Bo Chrysanthe…
start    table 13                      30000       30000       30000       30000
E1       ron Zoë                       +1500       -1500           0           0
         from 麻雀                     31500       28500       30000       30000
E1       stands                        30000       30000       30000       30000
E1       stands                        30000       30000       30000       30000
' '' game --sheet
: > "$room/input"
for other in --json --explain --number; do
  row 2 '' 'cannot be used with' game --sheet "$other" "$room/good.game"
done
# the one that docs/GAME.md shows
shown=$(awk '/^### As a sheet/ { here = 1 } /^```/ { inside = here && !inside; if (!inside && seen) exit; next } inside { seen = 1; print }' docs/GAME.md)
told 'the sheet of docs/GAME.md' "$shown" "$("$program" game --sheet examples/games/evening.game | head -n "$(wc -l <<< "$shown")")"
# of each deal the changes and the points are those of the words, and each row has 80 columns
for text in examples/games/*.game; do
  told "the deals of $text as a sheet" "$("$program" game "$text" | awk '/ changes / { print $8, $9, $10, $11; print $13, $14, $15, $16 }')" \
    "$("$program" game --sheet "$text" | awk '/^[ESWN]/ { changes = $0 } /^ / && changes { print changes; print; changes = "" }' | awk '{ print $(NF - 3), $(NF - 2), $(NF - 1), $NF }')"
  told "the columns of $text as a sheet" '' "$("$program" game --sheet "$text" | awk 'length && length != 80')"
done

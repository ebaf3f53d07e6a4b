# Texts with all their answers, read by tests/program.sh. A page has the lines of a text, and behind `=> ` the lines that the program
# answers; its folder in tests/answers/ is the command with its options, as game-json-number.

# text_of PAGE..: the lines of the text; answers_of PAGE..: those of the answers
text_of() { grep -hav '^=>' "$@"; }
answers_of() { sed -n 's/^=> \{0,1\}//p' "$@"; }
for page in tests/answers/*/*.page; do
  IFS=- read -r command options <<< "$(basename "$(dirname "$page")")"
  words=("$command")
  for option in ${options//-/ }; do words+=("--$option"); done
  [ "$command" != game ] || words+=(-)
  told "$page" "$(answers_of "$page")" "$(text_of "$page" | "$program" "${words[@]}")"
done
# those that begin with a game, one behind another
begun=()
for page in tests/answers/game/*.page; do
  case $(head -n 1 "$page") in game*) begun+=("$page") ;; esac
done
told 'the games of all pages in one text' "$(answers_of "${begun[@]}")" "$(text_of "${begun[@]}" | "$program" game -)"

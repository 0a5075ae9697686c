# Reads the cases of this folder, which are in the files of its subcommands, NAME.cases. A case looks like this, and ends with an
# empty line:
#
#     # 13-a-moment-that-goes-back
#     upc run, status 0: a moment before that of the last judged cell is refused
#     < card 2 2 2 16
#     > ready
#
# First comes its name, then the subcommand, the exit status and what the case shows. Lines `<` are those of the input, and lines `>`
# those of the expected text; how they are mixed is for the reader alone. In a line `<\` or `>\` what follows the blank is as for
# `printf %b`, and without a line feed of its own: `<\ ja next\r\n`. A case without lines `<` has its input from long-inputs.sh, and
# one without lines `>` its text. The word `beginnings` in place of a status means that each prefix of the input has the answers of
# its whole lines, and at most one more line. A name that begins with a number is the worked example of that number.

# read_cases FROM TO: puts the input and the text of each case of the folder FROM into TO, as NAME.input and NAME.text, and prints a
# line for each: its name, its subcommand (- for none), its status and what it shows. Of a line that isn't in the form it prints
# `wrong` and the place.
read_cases() {
  local file line number name is_headed subcommand head='^upc( [a-z]+)?, (status ([01])|beginnings): (.+)$'
  for file in "$1"/*.cases; do
    number=0
    name=
    is_headed=
    while IFS= read -r line; do
      number=$((number + 1))
      if [[ -z $line && -n $name && -z $is_headed ]]; then
        printf 'wrong %s:%s\n' "${file##*/}" "$number"
        name=
      elif [ -z "$line" ]; then
        name=
        is_headed=
      elif [[ -z $name && $line =~ ^#\ ([a-z0-9][a-z0-9.-]*)$ ]]; then
        name=${BASH_REMATCH[1]}
      elif [[ -n $name && -z $is_headed && $line =~ $head ]]; then
        is_headed=1
        subcommand=${BASH_REMATCH[1]# }
        printf '%s %s %s %s\n' "$name" "${subcommand:--}" "${BASH_REMATCH[3]:-beginnings}" "${BASH_REMATCH[4]}"
      elif [ -n "$is_headed" ] && put_line "$line" "$2/$name"; then
        :
      else
        printf 'wrong %s:%s\n' "${file##*/}" "$number"
      fi
    done <"$file"
  done
}

# put_line LINE CASE: adds a line of the input or of the text to CASE.input or CASE.text.
put_line() {
  case $1 in
  '<\'*) printf '%b' "${1:3}" >>"$2.input" ;;
  '>\'*) printf '%b' "${1:3}" >>"$2.text" ;;
  '<' | '< '*) printf '%s\n' "${1:2}" >>"$2.input" ;;
  '>' | '> '*) printf '%s\n' "${1:2}" >>"$2.text" ;;
  *) return 1 ;;
  esac
}

# The common part of the scripts of this folder: the path of the repository, and the counts of results. A script sources it,
# calls `pass`, `fail` or `check` for each result, and ends with `finish`.
root="$(cd "$(dirname "${BASH_SOURCE[0]}")/.." && pwd)"
passed=0
failed=0

# Counts a success.
pass() {
  passed=$((passed + 1))
}

# fail WORDS..: counts a failure, and prints it.
fail() {
  echo "otherwise: $*"
  failed=$((failed + 1))
}

# check STATUS WORDS..: counts by the status of a command.
check() {
  if [ "$1" = 0 ]; then
    pass
  else
    fail "${@:2}"
  fi
}

# add COMMAND..: adds what a command counted, whose last line is 'N passed, M failed'; one without it has failed.
add() {
  local output
  output=$("$@")
  if [[ ${output##*$'\n'} =~ ^([0-9]+)\ passed,\ ([0-9]+)\ failed$ ]]; then
    passed=$((passed + BASH_REMATCH[1]))
    failed=$((failed + BASH_REMATCH[2]))
    printf '%s\n' "$output" | head -n -1
  else
    fail "$*"
  fi
}

# needs PACKAGE WHAT..: is this package of tools/packages there? Without it WHAT is left out. A line says so, and bin/test repeats it.
needs() {
  "$root/tools/needs" "$@"
}

# Prints the counts. The status is 0 if nothing failed.
finish() {
  echo "$passed passed, $failed failed"
  [ "$failed" = 0 ]
}

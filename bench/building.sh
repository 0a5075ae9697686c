# What the scripts of this folder share: how they build a program of NAME.rt.in. They set `bench`, `root`, `out` and `room`.

# is_older FILE PATH..: the file isn't there, or a file at or below a path is newer.
is_older() {
  [ ! -e "$1" ] || [ -n "$(command -p find "${@:2}" -type f -newer "$1" -print -quit)" ]
}

# build_program NAME "CRATES" LIBRARIES..: the program of NAME.rt.in, with its modules NAME.MODULE.rt.in and
# the module `borrowed` of another program, if that is set (as policing.cells), over these crates of the
# repository. It is built in a folder outside the repository, over copies of the crates and of what the
# prover keeps of them, since the gate takes no crate but those of crates.txt.
build_program() {
  local name="$1" crates="$2" crate part file sources=() modules=()
  for crate in $crates; do
    for part in src specs proofs; do
      [ ! -d "$root/crates/$crate/$part" ] || sources+=("$root/crates/$crate/$part")
    done
  done
  for file in "$bench/$name".*.rt.in ${borrowed:+"$bench/$borrowed.rt.in"}; do
    [ ! -e "$file" ] || modules+=("$file")
  done
  is_older "$out/$name" "$bench/$name.rt.in" "${modules[@]}" "${sources[@]}" || return 0
  echo "bench: proving and building the program $name" >&2
  mkdir -p "$room/$name/crates/$name/src"
  for crate in $crates; do cp -a "$root/crates/$crate" "$room/$name/crates/"; done
  cp "$bench/$name.rt.in" "$room/$name/crates/$name/src/main.rt"
  for file in "${modules[@]}"; do
    part="$(basename "$file" .in)"
    cp "$file" "$room/$name/crates/$name/src/${part#*.}"
  done
  cp "$root/HANDLES" "$room/$name/"
  grep -E "^(${crates// /|})[ :]" "$root/crates.txt" >"$room/$name/crates.txt"
  echo "$name: $crates ${*:3}" >>"$room/$name/crates.txt"
  if ! (cd "$room/$name/crates/$name" && rt run) </dev/null >"$out/$name.log" 2>&1; then
    tail -n 20 "$out/$name.log" >&2
    exit 3
  fi
  cp "$room/$name/crates/$name/out/$name" "$out/$name"
}

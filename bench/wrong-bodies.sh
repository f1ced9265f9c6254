#!/usr/bin/env bash
# Tries, on a copy, the wrong bodies that the gate passes over (crates/NAME/must-fail/*.edit.md), and prints those that no
# clause refuses. Run it whenever a contract of a crate changes. It uses what `rt ci` has proved on this machine.
# Usage: wrong-bodies.sh [CRATE..]    all crates where none is named
set -eu
top=$(cd "$(dirname "$0")/.." && pwd)
copy=$(mktemp -d "${TMPDIR:-/tmp}/wrong-bodies-XXXXXX")
trap 'rm -rf "$copy"' EXIT
(cd "$top" && tar -c --exclude=out crates crates.txt HANDLES) | tar -x -C "$copy"
cd "$copy"
crates=("$@")
if [ ${#crates[@]} = 0 ]; then
  for folder in crates/*/must-fail; do crates+=("$(basename "$(dirname "$folder")")"); done
fi
find crates -name '*.edit' -delete
tried=()
for crate in "${crates[@]}"; do
  found=0
  for edit in crates/"$crate"/must-fail/*.edit.md; do
    if [ -e "$edit" ]; then mv "$edit" "${edit%.md}"; found=1; fi
  done
  [ $found = 0 ] || tried+=("$crate")
done
if [ ${#tried[@]} = 0 ]; then echo "no wrong bodies are kept apart there"; exit 0; fi
rt ci "${tried[@]}" > told 2>&1 || true
grep -E 'NOT REFUSED|BAD EDIT|NOT TRIED|only because a proof file|NOT PROVED' told || true
echo "tried: $(grep -cE '^(rt: )?must-fail .*: ' told), refused: $(grep -c 'refused, as it must be' told), of ${tried[*]}"

#!/bin/sh
# Reads all relation fields of a Packages file, counts its lines with `wc -l`, and prints the ratio of the two times.
# Usage: read-relations.sh [FILE]    without a file one of 63,440 stanzas is made
# Run `rt run -- sort-versions < stdin` in crates/dist_bench once before: it builds the program.
set -e
here=$(cd "$(dirname "$0")" && pwd)
program=$here/../crates/dist_bench/out/dist_bench
work=$(mktemp -d)
trap 'rm -rf "$work"' EXIT
if [ -n "$1" ]; then cp "$1" "$work/packages"; else python3 "$here/make-packages.py" 63440 >"$work/packages"; fi
python3 - "$program" "$work/packages" <<'PYTHON'
import os, subprocess, sys, time

program, path = sys.argv[1:]

def seconds(words):
    times = []
    for _ in range(5):
        with open(path, "rb") as source:
            begin = time.monotonic()
            answer = subprocess.run(words, stdin=source, stdout=subprocess.PIPE, check=True)
            times.append(time.monotonic() - begin)
    return min(times), answer.stdout.decode().strip()

floor, _ = seconds(["wc", "-l"])
lines, _ = seconds([program, "count-lines"])
ours, found = seconds([program, "read-relations"])
print(f"{os.path.getsize(path)} bytes, {found}: {ours:.3f} s, wc -l {floor:.3f} s, ratio {ours / floor:.1f};"
      f" this program's own line count {lines:.3f} s, ratio {ours / lines:.1f}")
PYTHON

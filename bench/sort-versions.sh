#!/bin/sh
# Sorts versions by the order of versions, and the same lines by `sort -V`, and prints the ratio of the two times.
# Usage: sort-versions.sh [FILE]    a file of versions, one a line; without one 100,000 are made
# Run `rt run -- sort-versions < stdin` in crates/dist_bench once before: it builds the program.
set -e
here=$(cd "$(dirname "$0")" && pwd)
program=$here/../crates/dist_bench/out/dist_bench
work=$(mktemp -d)
trap 'rm -rf "$work"' EXIT
if [ -n "$1" ]; then cp "$1" "$work/versions"; else python3 "$here/make-versions.py" 100000 >"$work/versions"; fi
python3 - "$program" "$work/versions" <<'PYTHON'
import os, subprocess, sys, time

program, path = sys.argv[1:]
lines = sum(1 for _ in open(path, "rb"))

def seconds(words):
    times = []
    for _ in range(5):
        with open(path, "rb") as source, open(os.devnull, "wb") as sink:
            begin = time.monotonic()
            subprocess.run(words, stdin=source, stdout=sink, check=True, env={**os.environ, "LC_ALL": "C"})
            times.append(time.monotonic() - begin)
    return min(times)

floor = seconds(["sort", "-V", "--parallel=1"])
ours = seconds([program, "sort-versions"])
print(f"{lines} versions: {ours:.3f} s, sort -V {floor:.3f} s, ratio {ours / floor:.2f}")
PYTHON

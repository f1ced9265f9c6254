#!/bin/sh
# Makes the clauses of the present, and the classes of later versions, of a Packages file, and prints the ratio of each to
# reading the file.
# Usage: present.sh [PACKAGES]    without PACKAGES one of 63,440 stanzas is made
# Run `rt run -- sort-versions < stdin` in crates/dist_bench once before: it builds the program.
set -e
here=$(cd "$(dirname "$0")" && pwd)
program=${BENCH:-$here/../crates/dist_bench/out/dist_bench}
work=$(mktemp -d)
trap 'rm -rf "$work"' EXIT
if [ -n "$1" ]; then cp "$1" "$work/packages"; else python3 "$here/make-packages.py" 63440 >"$work/packages"; fi
python3 - "$program" "$work/packages" <<'PYTHON'
import os, subprocess, sys, time

program, path = sys.argv[1:]

def seconds(job):
    times = []
    for _ in range(5):
        with open(path, "rb") as source:
            begin = time.monotonic()
            answer = subprocess.run([program, job], stdin=source, stdout=subprocess.PIPE, check=True)
            times.append(time.monotonic() - begin)
    return min(times), answer.stdout.decode().strip()

reading, found = seconds("count-packages")
print(f"{os.path.getsize(path)} bytes, {found}: read in {reading:.3f} s")
for job in ("count-clauses", "count-classes", "count-future-variables", "count-future-clauses"):
    ours, found = seconds(job)
    print(f"{found}: {ours - reading:.3f} s beyond reading, ratio to reading {(ours - reading) / reading:.2f}")
PYTHON

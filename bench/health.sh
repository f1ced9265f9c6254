#!/bin/sh
# Times `health` on a Packages file, on a quarter and on a half of it, and prints the ratios to a count of the file's
# lines, and the most memory that was taken.
# Usage: health.sh [PACKAGES [LIST]]    without PACKAGES one of 63,440 stanzas is made; without LIST the list is empty
# Build the program first: cd crates/distfuture && rt try -- health data/packages.txt data/list.txt (not proved), or rt run
set -eu
top=$(cd "$(dirname "$0")/.." && pwd)
folder=$(mktemp -d)
trap 'rm -rf "$folder"' EXIT
if [ $# -ge 1 ]; then cp "$1" "$folder/packages"; else python3 "$top/bench/make-packages.py" 63440 >"$folder/packages"; fi
if [ $# -ge 2 ]; then cp "$2" "$folder/list"; else : >"$folder/list"; fi
python3 - "${DISTFUTURE:-$top/crates/distfuture/out/distfuture}" "$folder" <<'PYTHON'
import os, subprocess, sys, time

program, folder = sys.argv[1], sys.argv[2]


def best(words, runs):
    times = []
    for _ in range(runs):
        start = time.perf_counter()
        subprocess.run(words, stdout=subprocess.DEVNULL, stderr=subprocess.DEVNULL)
        times.append(time.perf_counter() - start)
    return min(times)


whole = open(f"{folder}/packages", "rb").read()
stanzas = whole.split(b"\n\n")
for part in (4, 2, 1):
    path = f"{folder}/part"
    with open(path, "wb") as file:
        file.write(b"\n\n".join(stanzas[: len(stanzas) // part]) + b"\n")
    listed = f"{folder}/list" if part == 1 else "/dev/null"
    health = best([program, "health", path, listed], 5)
    lines = best(["wc", "-l", path], 5)
    print(f"1/{part} of the file, {os.path.getsize(path)} bytes: health {health:.3f} s, wc -l {lines:.3f} s, ratio {health / lines:.1f}")
# A small process of its own runs the program, so that its children's memory is the program's.
measure = """import resource, subprocess, sys
answer = subprocess.run(sys.argv[1:], capture_output=True, text=True)
print("status", answer.returncode, answer.stdout.strip(), answer.stderr.strip())
print(f"at most {resource.getrusage(resource.RUSAGE_CHILDREN).ru_maxrss / 1000:.0f} MB")"""
subprocess.run([sys.executable, "-c", measure, program, "health", path, f"{folder}/list"])
PYTHON

#!/bin/sh
# Times `strong` on a closed part of a Packages file and `check` on its certificate, and prints the ratio of the two, and how
# many lines of each letter the certificate has: questions (q), derived lines (d), installations (m), refutations (f).
# Usage: strong.sh [PACKAGES [NAME [COUNT]]]    without PACKAGES one is made; NAME is the package that the part begins with
# Build the program first: cd crates/distfuture && rt try -- health data/packages.txt data/list.txt (not proved), or rt run
set -eu
top=$(cd "$(dirname "$0")/.." && pwd)
folder=$(mktemp -d)
trap 'rm -rf "$folder"' EXIT
program=${DISTFUTURE:-$top/crates/distfuture/out/distfuture}
if [ $# -ge 1 ]; then
    python3 "$top/bench/closed-part.py" "$1" "${2:-gnome}" "${3:-1000}" >"$folder/packages"
else
    python3 "$top/bench/make-packages.py" 1000 >"$folder/packages"
fi
python3 - "$program" "$folder" <<'PYTHON'
import collections, os, subprocess, sys, time

program, folder = sys.argv[1], sys.argv[2]
packages, cert = f"{folder}/packages", f"{folder}/cert"


def timed(words):
    start = time.perf_counter()
    answer = subprocess.run(words, capture_output=True)
    return time.perf_counter() - start, answer


def report(name, answer):
    print(f"{name}: status {answer.returncode} {answer.stderr.decode().strip()}")


swept, strong = timed([program, "strong", packages, cert])
report("strong", strong)
checked, check = timed([program, "check", packages, cert])
report("check", check)
stanzas = open(packages, "rb").read().count(b"\nPackage:") + 1
letters = collections.Counter(line[:1] for line in open(cert, "rb"))
lines = ", ".join(f"{count} {letter.decode()}" for letter, count in sorted(letters.items()))
print(f"{stanzas} stanzas, a certificate of {os.path.getsize(cert)} bytes with the lines {lines}")
print("same report" if strong.stdout == check.stdout else "the reports differ")
print(f"strong {swept:.2f} s, check {checked:.2f} s, ratio of check to strong {checked / swept:.2f}")
PYTHON

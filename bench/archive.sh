#!/bin/sh
# Runs the three questions over a whole Packages file, and `check` on each certificate, and prints for each the time as a
# multiple of the time that `health` takes on the same file with an empty list, with its goal, and the memory. For a quarter and a
# half of the file (closed parts) and the whole it prints the time over stanzas, listed pairs and bytes of the certificate: it is
# to grow no faster than the answer.
# Usage: archive.sh PACKAGES [NAME [PART..]]    NAME is the package that the parts begin with; a PART is 4, 2 or 1 (the whole)
# Build the program first: cd crates/distfuture && rt run -- health data/packages.txt data/list.txt
set -eu
top=$(cd "$(dirname "$0")/.." && pwd)
folder=$(mktemp -d)
trap 'rm -rf "$folder"' EXIT
program=${DISTFUTURE:-$top/crates/distfuture/out/distfuture}
packages=$1
name=${2:-gnome}
if [ $# -ge 3 ]; then
    shift 2
else
    set -- 4 2 1
fi
for part in "$@"; do
    count=$(($(grep -c '^Package: ' "$packages") / part))
    if [ "$part" = 1 ]; then
        cp "$packages" "$folder/packages"
    else
        python3 "$top/bench/closed-part.py" "$packages" "$name" "$count" fill >"$folder/packages"
    fi
    python3 - "$program" "$folder" <<'PYTHON'
import os, subprocess, sys, time

program, folder = sys.argv[1], sys.argv[2]
packages, cert = f"{folder}/packages", f"{folder}/cert"
open(f"{folder}/list", "w").close()
# The most of each job, in times of `health` and in megabytes, on a whole archive.
GOALS = {"strong": (36, 700, 15, 600), "strong --essential": (66, 1000, 30, 600), "outdated": (7, 250, 5, 250), "challenged": (22, 350, 6, 250)}


# The seconds of a run, its most memory in megabytes, and the bytes of what it prints.
def run(words, out):
    start = time.perf_counter()
    child = os.fork()
    if not child:
        os.dup2(os.open(out, os.O_WRONLY | os.O_CREAT | os.O_TRUNC), 1)
        os.execv(program, [program, *words])
    _, status, used = os.wait4(child, 0)
    code = os.waitstatus_to_exitcode(status)
    if code > 1:
        sys.exit(f"{' '.join(words)}: status {code}")
    return time.perf_counter() - start, used.ru_maxrss / 1000, os.path.getsize(out)


# How many packages and pairs a report lists.
def listed(report):
    with open(report, "rb") as file:
        return sum(line.lstrip().startswith(b"- ") for line in file)


stanzas = open(packages, "rb").read().count(b"\nPackage: ") + 1
floor = min(run(["health", packages, f"{folder}/list"], f"{folder}/out")[0] for _ in range(5))
print(f"{stanzas} stanzas: `health` takes {floor:.2f} s", flush=True)
for kind, (most, most_memory, most_check, most_check_memory) in GOALS.items():
    words = kind.split()
    seconds, memory, report = run([words[0], packages, cert, *words[1:]], f"{folder}/report")
    certificate, pairs = os.path.getsize(cert), listed(f"{folder}/report")
    again, check_memory, _ = run(["check", packages, cert], f"{folder}/checked")
    same = open(f"{folder}/report", "rb").read() == open(f"{folder}/checked", "rb").read()
    size = stanzas + pairs + certificate
    print(f"{kind}: {seconds:.2f} s, {seconds / floor:.1f} times (goal {most}), {memory:.0f} MB (goal {most_memory});"
          f" check {again:.2f} s, {again / floor:.1f} times (goal {most_check}), {check_memory:.0f} MB (goal {most_check_memory})")
    print(f"    certificate {certificate / 1e6:.1f} MB, report {report / 1e6:.1f} MB, {pairs} entries,"
          f" {'the same' if same else 'ANOTHER'} report from the check; {1e9 * seconds / size:.0f} ns for each stanza, entry and byte", flush=True)
PYTHON
done

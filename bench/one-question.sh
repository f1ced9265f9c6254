#!/bin/sh
# Explains each package of a Packages file that can't be installed, or repairs it, checks the file, and prints the times as
# multiples of what `health` takes on the same file, with the worst and the most memory last.
# Usage: one-question.sh explain|repair PACKAGES [REPORT]    REPORT: what `strong PACKAGES CERT` printed; it is made if it is not given
set -eu
top=$(cd "$(dirname "$0")/.." && pwd)
folder=$(mktemp -d)
trap 'rm -rf "$folder"' EXIT
python3 - "${DISTFUTURE:-$top/crates/distfuture/out/distfuture}" "$folder" "$@" <<'PYTHON'
import json, os, subprocess, sys

program, folder, command, packages, *report = sys.argv[1:]


def run(out, *words):
    """The seconds of the processor, the most memory in megabytes, and the status."""
    with open(out, "w") as file:
        child = subprocess.Popen([program, *words], stdout=file, stderr=file)
        _, status, used = os.wait4(child.pid, 0)
    return used.ru_utime + used.ru_stime, used.ru_maxrss / 1000, os.waitstatus_to_exitcode(status)


def printed(out):
    with open(out, encoding="utf-8") as file:
        return file.read()


cert, first, second = f"{folder}/cert", f"{folder}/first", f"{folder}/second"
if not report:
    report = [f"{folder}/report"]
    run(report[0], "strong", packages, cert)
names = []
# The report has up to some hundred megabytes, and what this process holds would count for the programs that it starts.
with open(report[0], encoding="utf-8") as lines:
    for line in lines:
        if line.startswith("strong:"):
            break
        if line.startswith("  - "):
            names.append(json.loads(line[4:]))
health = min(run(first, "health", packages, "/dev/null")[0] for _ in range(5))
print(f"health takes {health:.2f} s; {len(names)} packages can't be installed")
slowest, largest = {}, {}
for name in names:
    runs = {command: run(first, command, packages, cert, "--package", name), f"check-{command}": run(second, f"check-{command}", packages, cert)}
    told, checked = printed(first), printed(second)
    statuses = [status for _, _, status in runs.values()]
    figures = ", ".join(f"{word} {seconds / health:.1f} times health and {memory:.0f} MB" for word, (seconds, memory, _) in runs.items())
    is_same = told == checked and statuses[0] == statuses[1]
    print(f"{name}: status {statuses[0]}, {figures}, {os.path.getsize(cert)} bytes{'' if is_same else '  THE CHECK DIFFERS'}", flush=True)
    if told.count("\n") <= 12:
        print("".join(f"    {line}\n" for line in told.splitlines()), end="", flush=True)
    for word, (seconds, memory, _) in runs.items():
        slowest[word] = max(slowest.get(word, (0, "")), (seconds / health, name))
        largest[word] = max(largest.get(word, 0), memory)
for word, (times, name) in slowest.items():
    print(f"{word}: at most {times:.1f} times health ({name}), at most {largest[word]:.0f} MB")
PYTHON

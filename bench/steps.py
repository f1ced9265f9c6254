#!/usr/bin/env python3
"""Holds an archive against itself with its updates merged, by `steps`, and follows the journal of what is printed.

Usage: steps.py PACKAGES UPDATES..    such as the lists of bookworm and of bookworm-updates, uncompressed

LATER is PACKAGES with the stanzas of UPDATES behind it, each name and version once. First all updates are merged, then
those of each source alone, since one source that is no step hides all others. For each it prints the line that says so, or
how many steps there are, and whether `follow` reaches as many packages by them. Times are multiples of the time to count
the lines of PACKAGES.
"""

import os
import subprocess
import sys
import tempfile
import time

TOP = os.path.dirname(os.path.dirname(os.path.abspath(__file__)))
PROGRAM = os.environ.get("DISTFUTURE", f"{TOP}/crates/distfuture/out/distfuture")


def stanzas_of(path):
    """The stanzas of a list, each with its name, its version and its source."""
    with open(path, encoding="utf-8") as file:
        for text in file.read().split("\n\n"):
            fields = dict(line.split(": ", 1) for line in text.splitlines() if ": " in line and line[0] not in " \t")
            if "Package" in fields:
                source = fields.get("Source", fields["Package"]).split(" ")[0]
                yield fields["Package"], fields["Version"], source, text.strip("\n")


def run(words):
    start = time.perf_counter()
    done = subprocess.run([PROGRAM, *words], capture_output=True, check=False)
    return done.returncode, done.stdout.decode(), done.stderr.decode(), time.perf_counter() - start


def journal_of(plan, later):
    """The journal of a printed plan, with the stanzas of the packages that come."""
    lines = []
    for line in plan.splitlines():
        word, rest = line.split(" ", 1)
        if word == "upload":
            front, _, names = rest.partition(": ")
            name, _, version = front.rpartition(" at ")
            lines.append(f"= upload {name.split('=')[0]} {version}\n")
            lines.extend(later[name][1] + "\n\n" for name in names.split(", ") if name)
        elif word == "removal":
            lines.append(f"= removal {rest}\n")
        else:
            lines.append(f"= new\n{later[rest.split('=')[0]][1]}\n\n")
    return "".join(lines)


def newest(texts):
    """Of each name the stanza of the newest version, by dpkg."""
    found = {}
    for name, version, _, text in texts:
        if name not in found or subprocess.run(["dpkg", "--compare-versions", version, "gt", found[name][0]], check=False).returncode == 0:
            found[name] = (version, text)
    return found


def compare(told, folder, packages, base, updates, floor):
    known = {(name, version) for name, version, _, _ in base}
    more = [it for it in updates if (it[0], it[1]) not in known]
    later = f"{folder}/later"
    with open(later, "w", encoding="utf-8") as file:
        file.write("\n\n".join(it[3] for it in base + more) + "\n")
    status, out, err, seconds = run(["steps", packages, later])
    line = out.splitlines()[0] if status == 12 else err.strip() or f"{len(out.splitlines())} steps"
    print(f"{told}: {len(more)} stanzas, status {status}, {line}, {seconds / floor:.0f} floors")
    if status != 0:
        return
    journal, cert = f"{folder}/journal", f"{folder}/cert"
    with open(journal, "w", encoding="utf-8") as file:
        file.write(journal_of(out, newest(base + more)))
    if not os.path.exists(cert):
        run(["outdated", packages, cert])
    status, out, err, seconds = run(["follow", packages, cert, journal])
    print(f"    follow: status {status}, {', '.join(out.splitlines()[:2]) or err.strip()}, {seconds / floor:.0f} floors")


def main():
    packages, updates = sys.argv[1], sys.argv[2:]
    start = time.perf_counter()
    with open(packages, "rb") as file:
        sum(1 for _ in file)
    floor = time.perf_counter() - start
    base = list(stanzas_of(packages))
    new = [it for path in updates for it in stanzas_of(path)]
    with tempfile.TemporaryDirectory() as folder:
        compare("all updates", folder, packages, base, new, floor)
        for source in sorted({it[2] for it in new}):
            compare(source, folder, packages, base, [it for it in new if it[2] == source], floor)


if __name__ == "__main__":
    main()

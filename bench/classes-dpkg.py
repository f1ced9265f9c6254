#!/usr/bin/env python3
"""Times `classes`, loads its report as YAML, and holds what it invents against dpkg.

Usage: classes-dpkg.py PACKAGES [COUNT]     COUNT pairs of versions are compared, and as many classes; 3000 where absent

The report of the file is read by PyYAML with all keys and values as text. `dpkg --compare-versions` must say of the examples
of some of its classes that they are above, below or equal as the class says. Then pairs of versions of the file, one below
the other, are made to ends of a class of their own: the version in between must be so by dpkg too. Build the program first,
with rt run in crates/distfuture; another one is taken from the variable DISTFUTURE.
"""
import os
import random
import subprocess
import sys
import tempfile
import time

import yaml

program = os.environ.get("DISTFUTURE", os.path.join(os.path.dirname(__file__), "../crates/distfuture/out/distfuture"))
count = int(sys.argv[2]) if len(sys.argv) > 2 else 3000
OPERATORS = {">>": "gt", "<<": "lt", "=": "eq"}


def classes_of(path):
    run = subprocess.run([program, "classes", path], capture_output=True, text=True, check=True)
    return yaml.load(run.stdout, Loader=getattr(yaml, "CBaseLoader", yaml.BaseLoader)), len(run.stdout)


def compare(first, operator, second):
    # dpkg warns of versions that begin with no digit, and compares them all the same.
    return subprocess.run(["dpkg", "--compare-versions", first, operator, second], stderr=subprocess.DEVNULL).returncode == 0


def is_right(one):
    bounds = [] if one["class"] == "any" else one["class"].split(", ")
    return all(compare(one["example"], OPERATORS[operator], version) for operator, version in (b.split(" ", 1) for b in bounds))


def seconds(words):
    start = time.perf_counter()
    subprocess.run(words, stdout=subprocess.DEVNULL, check=True)
    return time.perf_counter() - start


path = sys.argv[1]
took = min(seconds([program, "classes", path]) for _ in range(3))
lines = min(seconds(["wc", "-l", path]) for _ in range(3))
report, size = classes_of(path)
classes = [one for part in report["clusters"] + report["names"] for one in part["classes"]]
print(f"classes {took:.2f} s, {took / lines:.0f} times wc -l; {size} bytes of YAML")
print(f"{report['packages']} packages, {len(report['clusters'])} clusters, {len(report['names'])} names, {len(classes)} classes")

# Most classes are those above a top; the others come first.
classes.sort(key=lambda one: one["class"].startswith(">>") and "," not in one["class"])
wrong = [one for one in classes[:count] if not is_right(one)]
print(f"{len(classes[:count])} classes compared with dpkg, {len(wrong)} wrong")

random.seed(1)
versions = sorted({line[9:].strip() for line in open(path, encoding="utf-8", errors="surrogateescape") if line.startswith("Version: ")})
pairs = []
while len(pairs) < count:
    low, high = random.sample(versions, 2)
    pairs.append((low, high) if compare(low, "lt", high) else (high, low))
with tempfile.NamedTemporaryFile("w", suffix=".packages") as file:
    for number, (low, high) in enumerate(pairs):
        file.write(f"Package: x{number:06}\nVersion: {low}\n\nPackage: y{number:06}\nVersion: 1\nDepends: x{number:06} (<< {high})\n\n")
    file.flush()
    made, _ = classes_of(file.name)
between = 0
for cluster in made["clusters"]:
    first = cluster["classes"][0]
    if "," not in first["class"]:
        continue
    between += 1
    if not is_right(first):
        wrong.append(first)
print(f"{between} of {len(pairs)} pairs have a version in between, which dpkg was asked of; the others are equal to dpkg")
for one in wrong:
    print("wrong:", one)
sys.exit(1 if wrong else 0)

#!/usr/bin/env python3
"""Counts the lines that are too long: over 120 columns in specs/, which people read, and over 160 in proofs/, documents, scripts
and tools. Prints each, and ends with a fault where there is one. Run it before a commit.
Usage: columns.py"""
import os
import sys
from typing import Iterator

TOP = os.path.normpath(os.path.join(os.path.dirname(os.path.abspath(__file__)), ".."))
MOST = {"specs": 120, "proofs": 160}
PAGES = 160
WRITTEN = (".md", ".py", ".sh", ".html", ".css", ".js", "")


def below(folder: str) -> Iterator[str]:
    for place, _, files in sorted(os.walk(f"{TOP}/{folder}")):
        yield from (f"{place}/{name}" for name in sorted(files))


def judged() -> Iterator[tuple[str, int]]:
    """Each file, and how many columns its lines may have."""
    for crate in sorted(os.listdir(f"{TOP}/crates")):
        for part, most in MOST.items():
            yield from ((path, most) for path in below(f"crates/{crate}/{part}"))
    pages = [f"{TOP}/{name}" for name in os.listdir(TOP) if name.endswith(".md")]
    for path in [*sorted(pages), *below("docs"), *below("bench"), *below("tools")]:
        if os.path.splitext(path)[1] in WRITTEN and "/tests/data/" not in path:
            yield path, PAGES


found = 0
for path, most in judged():
    with open(path, encoding="utf-8") as lines:
        for number, line in enumerate(lines, 1):
            if len(line.rstrip("\n")) > most:
                print(f"{os.path.relpath(path, TOP)}:{number}: {len(line) - 1} columns")
                found += 1
print(f"{found} lines are too long")
sys.exit(found > 0)

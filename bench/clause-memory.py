#!/usr/bin/env python3
"""Prints what a clause set at its two limits takes: bytes a literal and a clause, against the words that it needs.

Usage: bench/clause-memory.py [PROGRAM]; first build the program with `rt run` in crates/dist_bench."""
import subprocess
import sys

PROGRAM = sys.argv[1] if len(sys.argv) > 1 else "crates/dist_bench/out/dist_bench"
CLAUSES = 16_000_000
LITERALS = 4 * CLAUSES
NEEDED = 4 * LITERALS + 4 * CLAUSES


def peak(count):
    """The greatest memory of a run that fills a set with this many clauses, in bytes."""
    script = (
        "import resource, subprocess, sys\n"
        f"subprocess.run([{PROGRAM!r}, 'fill-clauses'], input={str(count)!r}, text=True, check=True, stdout=subprocess.DEVNULL)\n"
        "print(resource.getrusage(resource.RUSAGE_CHILDREN).ru_maxrss * 1024)\n"
    )
    return int(subprocess.run([sys.executable, "-c", script], check=True, capture_output=True, text=True).stdout)


taken = peak(CLAUSES)
print(f"{CLAUSES} clauses with {LITERALS} literals take {taken / 1e6:.0f} MB")
print(f"{taken * 4 / 5 / LITERALS:.2f} bytes a literal and {taken / 5 / CLAUSES:.2f} a clause, of 4 each that are needed")
print(f"ratio to the words needed: {taken / NEEDED:.2f}")

#!/usr/bin/env python3
"""Compares the upper bounds of `repair` with the least numbers, at small numbers of `--limit`, on random archives that are hard to settle.

Usage: bounds.py PROGRAM [ARCHIVES [SEED]]

In each archive a package wants one of each of some groups, of which fewer may stand together than it wants (pigeons in holes), and besides some packages
at later versions, in items of several alternatives. How many must move is what the groups lack, and the fewest packages that meet all these items, by
enumeration. It prints at each limit how often the least number is told, and how far the upper bounds are above it, together.
"""
import itertools
import sys

import small_archives as small


def archive(draw):
    """A Packages file, and how many clusters must move for its package p."""
    holes, wanted = draw.randint(2, 4), draw.randint(3, 6)
    letters, movers = "abcd"[:holes], [f"m{k}" for k in range(draw.randint(3, 7))]
    items = [draw.sample(movers, draw.randint(2, 3)) for _ in range(draw.randint(2, 7))]
    stanzas = [f"Package: {mover}\nVersion: 1\n" for mover in movers]
    for letter in letters:
        for k in range(wanted):
            behind = ", ".join(f"{letter}{j}" for j in range(k + 1, wanted))
            stanzas.append(f"Package: {letter}{k}\nVersion: 1\n" + (f"Conflicts: {behind}\n" if behind else ""))
    wishes = [" | ".join(f"{letter}{k}" for letter in letters) for k in range(wanted)]
    wishes += [" | ".join(f"{mover} (= 2)" for mover in item) for item in items]
    stanzas.append(f"Package: p\nVersion: 1\nDepends: {', '.join(wishes)}\n")
    few = next(size for size in range(len(movers) + 1)
               if any(all(set(item) & set(some) for item in items) for some in itertools.combinations(movers, size)))
    return "\n".join(stanzas).encode(), max(0, wanted - holes) + few


def main():
    program, archives, seed = sys.argv[1], int((sys.argv + ["100"])[2]), int((sys.argv + ["100", "1"][len(sys.argv) - 2:])[3])
    runner = small.Runner(program)
    for limit in (1, 10, 100):
        met = gap = 0
        for number in range(archives):
            data, least = archive(small.Draw(f"{seed} {number}"))
            runner.put("packages", data)
            answer = runner.run("repair", "/packages", "/cert", "--package", "p=1", "--limit", str(limit), "--most", "16", writes="cert")
            lines = answer[1].splitlines()
            known = [int(line.split()[-1]) for line in lines if line.startswith(("least ", "at most "))]
            lower = [int(line.split()[-1]) for line in lines if line.startswith(("least ", "at least "))]
            if len(known) != 1 or len(lower) != 1 or not lower[0] <= least <= known[0]:
                print(f"{data.decode()}\n{answer}\nleast {least}")
                sys.exit(1)
            met, gap = met + lines[1].startswith("least "), gap + known[0] - least
        print(f"limit {limit}: {met} of {archives} settled, upper bounds less least numbers {gap}", flush=True)
    runner.close()


if __name__ == "__main__":
    main()

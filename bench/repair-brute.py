#!/usr/bin/env python3
"""Holds `repair` and `check-repair` against the definitions, by enumeration over small random archives, and on files edited at random.

Usage: repair-brute.py PROGRAM [ARCHIVES [SEED]]

Of each newest package of an archive, at several numbers of `--limit` and `--most`: how many clusters must move for it is what the futures say that
move each set of clusters to each of the places among the versions that atoms name; so are the bounds, and that it is outdated; and the clusters that
are told, moved to the versions that are told, are enough. `check-repair` prints the same of the file, and what it prints of an edited file that it
accepts is true. tools/recheck says the same of each edited file. It prints how many answers of each form agreed, and how far upper bounds are above the
least numbers; at the first answer that does not agree it prints the files and ends with 1.
"""
import collections
import importlib.util
import math
import os
import re
import sys

import small_archives as small
from small_archives import sc

spec = importlib.util.spec_from_file_location("explain_brute", os.path.join(small.HERE, "explain-brute.py"))
explain_brute = importlib.util.module_from_spec(spec)
spec.loader.exec_module(explain_brute)
Differs, edited = explain_brute.Differs, explain_brute.edited


class Moves(small.Later):
    """Of each package, all sets of moved clusters, as pairs of cluster and place, with which it can be installed."""

    def walk(self):
        """Where there are few ways to move, each of them is tried."""
        self.ways = [set() for _ in self.packages]
        self.is_small = math.prod(1 + len(its) for its in self.places) <= 2000
        if self.is_small:
            super().walk()

    def of_set(self, s, need, free, offers, fresh):
        self.ever |= s
        new = [{0} | {meets & need for hits, meets in its if not hits & s} for its in fresh]
        reached = {}
        for mask in self.join(new):
            reached.setdefault(mask, set()).add(frozenset())
        for c in free:
            more = {}
            for mask, ways in reached.items():
                for place in [None, *offers[c]]:
                    after = mask if place is None else mask | self.met(s, offers[c][place]) & need
                    more.setdefault(after, set()).update(ways if place is None else {way | {(c, place)} for way in ways})
            reached = more
        for mask, ways in reached.items():
            if mask == need:
                for k in small.bits(s):
                    self.ways[k] |= ways

    def least(self, k):
        return min(map(len, self.ways[k]), default=None)

    def place_of_text(self, text):
        below = sum(sc.BY_VERSION(named) < sc.BY_VERSION(text) for named in self.named)
        return 2 * below + any(sc.same_version(named, text) for named in self.named)

    def label_of(self, c):
        return small.label(self.packages[self.clusters[c][0] - 1])


def number(line, told):
    found = re.fullmatch(rf"{told} (\d+)", line)
    return int(found[1]) if found else None


def moves_of(moves, lines):
    """The pairs of cluster and place that lines tell, or None."""
    labels, pairs = [moves.label_of(c) for c in range(len(moves.clusters))], []
    for line in lines:
        found = re.fullmatch(r"move (\S+) to (\S+)", line)
        if not found or found[1] not in labels:
            return None
        pairs.append((labels.index(found[1]), moves.place_of_text(found[2].encode())))
    return pairs if sorted(pairs) == pairs and len({c for c, _ in pairs}) == len(pairs) else None


def untrue(moves, k, lines, most):
    """What is wrong with the lines that are printed of a package behind its own, or None. most: what was asked for, or None."""
    least = moves.least(k)
    if lines == ["outdated"]:
        return None if least is None else f"{least} are enough"
    if not lines:
        return "another form"
    exact = number(lines[0], "least")
    if exact is not None:
        pairs = moves_of(moves, lines[1:])
        return None if least == exact and pairs is not None and len(pairs) == exact and frozenset(pairs) in moves.ways[k] else f"the least number is {least}"
    lower = number(lines[0], "at least")
    if lower is None:
        return "another form"
    is_undecided = lines[1:2] == ["undecided"]
    rest = lines[1 + is_undecided:]
    if least is not None and least < lower:
        return f"the least number is {least}"
    if not rest:
        return None if is_undecided else "another form"
    upper, pairs = number(rest[0], "at most"), moves_of(moves, rest[1:])
    if upper is None or pairs is None or len(pairs) != upper or upper <= lower or frozenset(pairs) not in moves.ways[k]:
        return "the moves are not enough, or not so many"
    return "it stops too early" if most is not None and not is_undecided and lower != most + 1 else None


def one(runner, draw, tried):
    while True:
        data, packages, arch = small.readable_archive(draw, 5)
        newest = sc.newest(packages)
        moves = Moves(newest, arch, False)
        if newest and moves.is_small:
            break
    runner.put("packages", data)
    for k, p in enumerate(newest):
        limit, most = draw.choice([None, None, 1, 1, 2, 3, 7]), draw.choice([None, None, 0, 0, 1, 2, 64])
        words = ["repair", "/packages", "/cert", "--package", small.label(p)]
        words += ([] if limit is None else ["--limit", str(limit)]) + ([] if most is None else ["--most", str(most)])
        answer = runner.run(*words, writes="cert")
        cert = runner.get("cert")
        told = f"{words}\n{data.decode('latin-1')}\n---- file\n{cert.decode('latin-1')}\n---- answer\n{answer}"
        lines = answer[1].splitlines()
        if answer[0] not in (0, 1) or answer[2] or lines[:1] != [f"package {small.label(p)}"] or answer[0] != ("undecided" in lines):
            raise Differs(told)
        wrong = untrue(moves, k, lines[1:], 8 if most is None else most)
        if wrong or ("undecided" in lines and limit is None and len(newest) < 4):
            raise Differs(f"{told}\n{wrong}")
        runner.put("cert", cert)
        again = runner.run("check-repair", "/packages", "/cert")
        if again != answer:
            raise Differs(f"{told}\ncheck-repair: {again}")
        tried[" ".join(word for word in lines[1].split() if not word.isdigit())] += 1
        tried["moves"] += sum(line.startswith("move") for line in lines)
        tried["undecided"] += answer[0]
        upper = next((number(line, "at most") for line in lines if line.startswith("at most")), None)
        if upper is not None:
            tried["upper bounds less the least number"] += upper - moves.least(k)
        for _ in range(4):
            other = edited(draw, cert)
            runner.put("cert", other)
            verdict = runner.run("check-repair", "/packages", "/cert")
            tried["edited files"] += 1
            mine = sc.check_read(packages, arch, other, kinds=("repair",))[:3]
            if mine != verdict:
                raise Differs(f"{told}\n---- edited\n{other.decode('latin-1')}\n{verdict}\nrecheck: {mine}")
            if verdict[0] in (0, 1):
                lines = verdict[1].splitlines()
                named = next((j for j, q in enumerate(newest) if lines[0] == f"package {small.label(q)}"), None)
                wrong = "another form" if named is None or verdict[0] != ("undecided" in lines) else untrue(moves, named, lines[1:], None)
                if wrong:
                    raise Differs(f"{told}\n---- edited\n{other.decode('latin-1')}\n{verdict}\n{wrong}")
                tried["edited files that are accepted"] += 1
            elif verdict[0] != 4 or verdict[1]:
                raise Differs(f"{told}\n---- edited\n{other.decode('latin-1')}\n{verdict}")


def main():
    program, archives, seed = sys.argv[1], int((sys.argv + ["", "300"])[2] or 300), int((sys.argv + ["", "", "1"])[3] or 1)
    runner, tried = small.Runner(program), collections.Counter()
    try:
        for count in range(archives):
            one(runner, small.Draw(f"{seed} {count}"), tried)
    except Differs as differs:
        print(differs)
        sys.exit(1)
    finally:
        runner.close()
    print(", ".join(f"{name} {count}" for name, count in tried.items()))


if __name__ == "__main__":
    main()

#!/usr/bin/env python3
"""Compares how many relations `explain` tells of each broken package of a whole archive with the least of ten tries by other orders.

Usage: causes.py PROGRAM PACKAGES [SAMPLE [TRIES [SEED]]]

SAMPLE: so many of the broken packages, at random; 0, or none given: all. A try goes by the clauses of the present as tools/recheck makes them: what
follows from the package is found in a random order, up to the first relation that is failed; the relations that its refutation names are left out one
after another, in a random order. It prints of each package of which more relations are told than the least of the tries has how many, and the sums.
It ends with 1 where a package is told more than one relation above that.
"""
import os
import random
import subprocess
import sys
import tempfile

import second as sc


class Relations:
    """The clauses of the present, and where each literal stands."""

    def __init__(self, path):
        with open(path, "rb") as file:
            self.packages, architecture = sc.read_packages(file.read())
        self.clauses = sc.Subject(self.packages, architecture, "strong", False).clauses
        self.having = {}
        for number, clause in enumerate(self.clauses):
            for literal in clause:
                self.having.setdefault(literal, []).append(number)
        self.alone = [number for number, clause in enumerate(self.clauses) if len(clause) == 1]
        self.numbers = {f"{p.name.decode()}={p.text.decode()}": k for k, p in enumerate(self.packages, 1)}

    def some_refutation(self, package, draw):
        """The relations by which a package can't be installed, found in a random order; none where they don't give one another."""
        left, reason, failed = {}, {}, None
        waiting = [(package, None)] + [(self.clauses[number][0], number) for number in self.alone]
        while failed is None and waiting:
            at = draw.randrange(len(waiting))
            waiting[at], waiting[-1] = waiting[-1], waiting[at]
            literal, why = waiting.pop()
            if -literal in reason:
                failed = reason[-literal] if why is None else why
            elif literal not in reason:
                reason[literal] = why
                for number in self.having.get(-literal, ()):
                    left[number] = left.get(number, len(self.clauses[number])) - 1
                    if left[number] == 0:
                        failed = number
                    elif left[number] == 1 and not any(other in reason for other in self.clauses[number]):
                        waiting.append((next(other for other in self.clauses[number] if -other not in reason), number))
        return None if failed is None else self.behind(failed, reason)

    def behind(self, failed, reason):
        named, asked = {failed}, [failed]
        while asked:
            for literal in self.clauses[asked.pop()]:
                why = reason.get(-literal)
                if why is not None and why not in named:
                    named.add(why)
                    asked.append(why)
        return named

    def refutes(self, package, numbers):
        """Whether no list of packages that has this one fails none of these relations."""
        return not self.has_model([self.clauses[number] for number in numbers], {package})

    def has_model(self, clauses, true):
        while True:
            left = [[literal for literal in clause if -literal not in true] for clause in clauses if not any(literal in true for literal in clause)]
            if not all(left):
                return False
            alone = {clause[0] for clause in left if len(clause) == 1}
            if not alone:
                break
            if any(-literal in alone for literal in alone):
                return False
            true, clauses = true | alone, left
        return not left or any(self.has_model(left, true | {literal}) for literal in (left[0][0], -left[0][0]))

    def least_of(self, package, tries, draw):
        least = None
        for _ in range(tries):
            named = self.some_refutation(package, draw)
            if named is None:
                continue
            order = sorted(named)
            draw.shuffle(order)
            for number in order:
                if self.refutes(package, named - {number}):
                    named = named - {number}
            least = len(named) if least is None else min(least, len(named))
        return least


def lines_of(program, *words):
    done = subprocess.run([program, *words], stdout=subprocess.PIPE, check=False)
    return done.stdout.decode().splitlines()


def broken_of(program, path, folder):
    """Those of the report of strong."""
    broken = []
    for line in lines_of(program, "strong", path, os.path.join(folder, "cert"))[4:]:
        if not line.startswith("  - "):
            break
        broken.append(line[5:-1])
    return broken


def main():
    program, path = os.path.abspath(sys.argv[1]), sys.argv[2]
    sample, tries, seed = (int(word) for word in (sys.argv[3:] + ["0", "10", "1"][len(sys.argv) - 3:])[:3])
    draw, relations = random.Random(seed), Relations(path)
    told_all = least_all = count = worst = without = 0
    with tempfile.TemporaryDirectory() as folder:
        broken = broken_of(program, path, folder)
        for label in draw.sample(broken, sample) if 0 < sample < len(broken) else broken:
            lines = lines_of(program, "explain", path, os.path.join(folder, "cert"), "--package", label)
            told, least = len(lines) - 2, relations.least_of(relations.numbers[label], tries, draw)
            if least is None:
                without += 1
                continue
            if told > least:
                print(f"{label}: {told}, {least}", flush=True)
            told_all, least_all, count, worst = told_all + told, least_all + least, count + 1, max(worst, told - least)
    print(f"{count} of {len(broken)} broken packages: {told_all} relations told, {least_all} the least of {tries} tries; at most {worst} more of one; "
          f"{without} without a refutation by relations that give one another")
    sys.exit(worst > 1)


if __name__ == "__main__":
    main()

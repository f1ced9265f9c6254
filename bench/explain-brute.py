#!/usr/bin/env python3
"""Holds `explain` and `check-explain` against the definitions, by enumeration over small random archives, and on files edited at random.

Usage: explain-brute.py PROGRAM [ARCHIVES [SEED]]

Of each package of an archive, at several numbers of `--limit`: `installable` is true; the relations listed explain the package, over all sets of
packages that have it; and each one that is not marked is needed. With a limit above 3 to the power of packages and relations, there is no mark.
`check-explain` prints the same of the file, and what it prints of an edited file that it accepts is true. tools/recheck says the same of each edited
file. It prints how many answers of each form agreed, how many relations were told, and how many are the fewest that explain the same packages; at the
first answer that does not agree it prints the files and ends with 1.
"""
import collections
import sys

import small_archives as small
from small_archives import sc


class Differs(Exception):
    pass


class Relations:
    """The relations of an archive in their order, and which of them each set of its packages fails, as bits."""

    def __init__(self, packages, arch):
        self.packages, self.count = packages, len(packages)
        self.lines, self.tests = [], []
        one = lambda met: sum(1 << k for k, q in enumerate(packages) if met(q))
        for k, p in enumerate(packages):
            for item in p.items:
                meets = one(lambda q: any(sc.matches(atom, q, arch) for atom in item))
                if not meets >> k & 1:
                    self.lines.append(f"needs {small.label(p)}: {small.item_text(item)}")
                    self.tests.append(lambda s, k=k, meets=meets: bool(s >> k & 1) and not s & meets)
        for k, p in enumerate(packages):
            for j in range(k + 1, self.count):
                q = packages[j]
                if p.name == q.name or sc.in_conflict(p, q, arch):
                    self.lines.append(f"apart {small.label(p)} {small.label(q)}")
                    self.tests.append(lambda s, both=1 << k | 1 << j: s & both == both)
        self.failed = [sum(1 << r for r, test in enumerate(self.tests) if test(s)) for s in range(1 << self.count)]

    def places(self, texts):
        """The places of printed relations: they rise, and each is there."""
        at, places = 0, []
        for text in texts:
            while at < len(self.lines) and self.lines[at] != text:
                at += 1
            if at == len(self.lines):
                raise Differs(f"no relation, or not in its place: {text}")
            places.append(at)
            at += 1
        return places

    def least(self, k, most):
        """The fewest relations that explain package k, where so many do."""
        masks = {self.failed[s] for s in range(1 << self.count) if s >> k & 1}
        masks = sorted((mask for mask in masks if not any(other != mask and other & mask == other for other in masks)), key=int.bit_count)
        return next(size for size in range(1, most + 1) if self.meets_all(masks, 0, size))

    def meets_all(self, masks, chosen, size):
        """Whether so many relations, and those that are chosen, meet all masks."""
        mask = next((mask for mask in masks if not mask & chosen), 0)
        return not mask or size > 0 and any(self.meets_all(masks, chosen | 1 << r, size - 1) for r in small.bits(mask))

    def untrue(self, k, lines, is_exact):
        """What is wrong with the lines that are printed of package k behind its own, or None."""
        having = [self.failed[s] for s in range(1 << self.count) if s >> k & 1]
        if lines == ["installable"]:
            return None if 0 in having else "it is not installable"
        if lines == ["undecided"]:
            return "it is undecided" if is_exact else None
        if lines[:1] != ["broken"]:
            return "another form"
        marked = [line.startswith("perhaps ") for line in lines[1:]]
        places = self.places([line[8:] if mark else line for line, mark in zip(lines[1:], marked)])
        mine = sum(1 << place for place in places)
        if not all(failed & mine for failed in having):
            return "they do not explain it"
        for place, mark in zip(places, marked):
            if not mark and not any(failed & mine == 1 << place for failed in having):
                return f"{self.lines[place]} is not needed"
        return "a relation is undecided" if is_exact and any(marked) else None


def status_of(lines):
    return int(lines == ["undecided"] or any(line.startswith("perhaps ") for line in lines))


def edited(draw, data):
    """A file with a few edits: of bytes, of words, of lines."""
    for _ in range(1 + draw.count(3, 1, 1)):
        lines = data.split(b"\n")
        at = draw.randrange(len(lines))
        words = lines[at].split(b" ")
        form = draw.randrange(6)
        if form == 0 and data:
            place = draw.randrange(len(data))
            data = data[:place] + bytes([draw.choice(b"0123456789-qdfmue \n")]) + data[place + draw.randrange(2):]
            continue
        if form == 1:
            words[draw.randrange(len(words))] = b"%d" % draw.randint(-12, 24)
        elif form == 2:
            words.insert(draw.randrange(len(words) + 1), b"%d" % draw.randint(-12, 24))
        elif form == 3:
            del words[draw.randrange(len(words))]
        if form <= 3:
            lines[at] = b" ".join(words)
        elif form == 4:
            lines.insert(draw.randrange(len(lines)), draw.choice(lines))
        else:
            del lines[at]
        data = b"\n".join(lines)
    return data


def one(runner, draw, tried):
    packages = range(15)
    while len(packages) > 14:
        data, packages, arch = small.readable_archive(draw, 6)
    relations = Relations(packages, arch)
    runner.put("packages", data)
    for k, p in enumerate(packages):
        limit = draw.choice([None, None, 1, 1, 2, 3, 7] if len(packages) < 8 else [None, 1, 2, 3, 4, 6, 9])
        words = ["explain", "/packages", "/cert", "--package", small.label(p)] + ([] if limit is None else ["--limit", str(limit)])
        answer = runner.run(*words, writes="cert")
        cert = runner.get("cert")
        told = f"{words}\n{data.decode('latin-1')}\n---- file\n{cert.decode('latin-1')}\n---- answer\n{answer}"
        lines = answer[1].splitlines()
        if answer[0] not in (0, 1) or answer[2] or lines[:1] != [f"package {small.label(p)}"] or answer[0] != status_of(lines[1:]):
            raise Differs(told)
        wrong = relations.untrue(k, lines[1:], 3 ** (len(packages) + len(relations.lines)) < (limit or 10000))
        if wrong:
            raise Differs(f"{told}\n{wrong}")
        runner.put("cert", cert)
        again = runner.run("check-explain", "/packages", "/cert")
        if again != answer:
            raise Differs(f"{told}\ncheck-explain: {again}")
        tried[lines[1]] += 1
        tried["relations"] += len(lines) - 2
        if lines[1] == "broken" and not answer[0]:
            tried["relations told without a mark"] += len(lines) - 2
            tried["the fewest"] += relations.least(k, len(lines) - 2)
        tried["answers with a mark"] += answer[0]
        for _ in range(4):
            other = edited(draw, cert)
            runner.put("cert", other)
            verdict = runner.run("check-explain", "/packages", "/cert")
            tried["edited files"] += 1
            mine = sc.check_read(packages, arch, other, kinds=("explain",))[:3]
            if mine != verdict:
                raise Differs(f"{told}\n---- edited\n{other.decode('latin-1')}\n{verdict}\nrecheck: {mine}")
            if verdict[0] in (0, 1):
                lines = verdict[1].splitlines()
                named = next((j for j, q in enumerate(packages) if lines[0] == f"package {small.label(q)}"), None)
                wrong = "another form" if named is None or verdict[0] != status_of(lines[1:]) else relations.untrue(named, lines[1:], False)
                if wrong:
                    raise Differs(f"{told}\n---- edited\n{other.decode('latin-1')}\n{verdict}\n{wrong}")
                tried["edited files that are accepted"] += 1
            elif verdict[0] != 4 or verdict[1]:
                raise Differs(f"{told}\n---- edited\n{other.decode('latin-1')}\n{verdict}")


def main():
    program, archives, seed = sys.argv[1], int((sys.argv + ["", "300"])[2] or 300), int((sys.argv + ["", "", "1"])[3] or 1)
    runner, tried = small.Runner(program), collections.Counter()
    try:
        for number in range(archives):
            one(runner, small.Draw(f"{seed} {number}"), tried)
    except Differs as differs:
        print(differs)
        sys.exit(1)
    finally:
        runner.close()
    print(", ".join(f"{name} {count}" for name, count in tried.items()))


if __name__ == "__main__":
    main()

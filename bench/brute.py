#!/usr/bin/env python3
"""Holds every command against the definitions, by enumeration over small random archives of many shapes, at both modes.

Usage: brute.py PROGRAM [ARCHIVES [SEED [SECONDS]]]    it ends after so many archives or seconds

Of `strong`, `outdated` and `challenged`, at several numbers of `--limit`: each listed claim is true, each one that is neither listed nor
undecided is false, `check` prints the same, and tools/recheck accepts the certificate with the same report. `classes`, `health` of random
lists and `try` print what its reading and the enumeration say. It prints how many runs of each command agreed; at the first
that does not it prints the files and ends with 1.
"""
import collections
import sys
import time

import small_archives as small
from small_archives import sc

KINDS = ("strong", "outdated", "challenged")


class Differs(Exception):
    pass


def expect(told, got, wanted):
    if got != wanted:
        raise Differs(f"{told}\ngot {got}\nwanted {wanted}")


# ---- the three questions, and `check`

def words_of(draw, words, limit, essential):
    """The words of a command, with its options anywhere."""
    options = [draw.choice([["--limit", str(limit)], [f"--limit={limit}"], ["--limit", f"0{limit}"]])] if limit is not None else []
    options += [["--essential"]] * essential
    for option in options:
        at = draw.randint(0, len(words)) if draw.often(0.3) else len(words)
        at += at > 0 and words[at - 1] == "--limit"
        words[at:at] = option
    if not any(word.startswith("--") for word in words) and draw.often(0.1):
        words.insert(draw.randint(1, len(words)), "--")
    return words


def sweep(runner, draw, data, truth, subjects, tried):
    packages, arch = truth.packages, truth.arch
    for essential in (False, True):
        for kind in KINDS:
            limit = draw.choice([None, None, 1, 1, 2, 3, 7])
            name = "packages" if draw.often(0.02) else "cert"
            words = words_of(draw, [kind, "/packages", "/" + name], limit, essential)
            runner.put("packages", data)
            answer = runner.run(*words, writes=name)
            told = " ".join(words)
            if answer[0] not in (0, 1):
                raise Differs(f"{told}: {answer}")
            cert = runner.get(name)
            runner.put("packages", data)
            runner.put("cert", cert)
            *mine, accepted = sc.check_read(packages, arch, cert, subjects)
            told += "\n" + cert.decode("latin-1")
            expect(f"{told}\nrecheck", tuple(mine), answer)
            expect(f"{told}\nuntrue claims", truth.untrue(accepted[0], accepted[2]), None)
            expect(f"{told}\nits first line", cert.split(b" ")[2:5], [kind.encode(), (b"plain", b"essential")[essential], b"%d" % (limit or 10000)])
            expect(f"{told}\ncheck", runner.run("check", "/packages", "/cert"), answer)
            tried[kind + (" --essential" if essential else "") + ", each with its check"] += 2
            tried["runs with a mark"] += answer[0] == 1
            tried["claims that list something"] += sum(bool(first) or letter in "xo" for letter, first, _ in accepted[2])


# ---- health

def health(runner, draw, packages, arch, tried):
    for _ in range(3):
        data = small.list_of(draw, packages)
        runner.put("list", data)
        expect(f"health of {data}", runner.run("health", "/packages", "/list"), small.health_answer(packages, arch, data))
        tried["health"] += 1


# ---- the enumeration itself

def plainly(truth, tried):
    """Of few packages, whether trying each future by itself comes to the same."""
    newest = sc.newest(truth.packages)
    for essential in (False, True):
        later = truth.of("outdated", essential)
        if len(newest) > 4 or len(later.named) > 3 or sum(len(p.provides) for p in newest) > 2:
            return
        other = small.LaterOneByOne(newest, truth.arch, essential)
        at = lambda its: [its.breaks(c, place) for c, places in enumerate(its.places) for place in places]
        expect("the enumeration of futures", (later.today, later.ever, at(later)), (other.today, other.ever, at(other)))
        tried["futures one by one"] += 1


# ---- try

def generated(size, seed):
    """The file of `try`, by docs/DEFINITIONS.md."""
    state = seed

    def number(below):
        nonlocal state
        state = (state * 1664525 + 1013904223) % 2**32
        return (state >> 16) % below

    stanzas = []
    for i in range(size):
        lines = [f"Package: g{i}", f"Version: 1.{number(3)}", "Architecture: all", f"Source: s{i // 2}"]
        if i:
            items = []
            for _ in range(number(3)):
                alternatives = []
                for _ in range(1 + number(2)):
                    name = f"g{number(i)}"
                    alternatives.append(name + ["", "", " (>= 1)", " (<< 2)"][number(4)])
                items.append(" | ".join(alternatives))
            lines += ["Depends: " + ", ".join(items)] * bool(items)
            if number(8) == 0:
                lines.append(f"Conflicts: g{number(i)}")
        stanzas.append("\n".join(lines) + "\n\n")
    return "".join(stanzas).encode()


def trial(runner, draw, tried):
    size, seed = draw.randint(1, 7), draw.choice([draw.randrange(50), draw.randrange(2**32)])
    packages, arch = sc.read_packages(generated(size, seed))
    truth = small.Truth(packages, arch)
    present, later = truth.of("strong", False), truth.of("outdated", False)
    common = [present.always_with(p) for p in range(size)]
    triples = sum(later.breaks(c, later.places_of(c, cls)[0]).bit_count() for c, classes in enumerate(sc.classes_of(packages, arch)) for cls in classes)
    lines = [f"size {size}", f"strong {sum(mask.bit_count() - 1 for mask in common if mask is not None)}", f"uninstallable {common.count(None)}",
             f"outdated {size - later.ever.bit_count()}", f"challenged {triples}", "undecided 0", "accepted 3"]
    answer = runner.run("try", "--size", str(size), "--seed", str(seed))
    expect(f"try --size {size} --seed {seed}", answer, (0, "".join(line + "\n" for line in lines), ""))
    tried["try"] += 1


# ---- all

def main(program, archives="500", seed="1", seconds="1e9"):
    draw, end = small.Draw(int(seed)), time.monotonic() + float(seconds)
    runner, tried = small.Runner(program), collections.Counter()
    status = 0
    while tried["archives"] < int(archives) and time.monotonic() < end:
        data, packages, arch = small.readable_archive(draw)
        runner.put("packages", data)
        truth = small.Truth(packages, arch)
        try:
            sweep(runner, draw, data, truth, {}, tried)
            expect("classes", runner.run("classes", "/packages"), (0, sc.classes_report(packages, arch), ""))
            tried["classes"] += 1
            health(runner, draw, packages, arch, tried)
            if draw.often(0.1):
                plainly(truth, tried)
            if draw.often(0.3):
                trial(runner, draw, tried)
        except (Differs, AssertionError) as difference:
            print(f"archive {tried['archives']} of seed {seed}:\n{data.decode('latin-1')}\n{difference}")
            status = 1
            break
        tried["archives"] += 1
    print(f"seed {seed}: {runner.runs} runs of the program")
    for told, count in sorted(tried.items()):
        print(f"  {told}: {count}")
    runner.close()
    return status


sys.exit(main(*sys.argv[1:]))

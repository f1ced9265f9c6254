#!/usr/bin/env python3
"""Times the program on files made to be slow, at half a size and at the whole of it. It prints for each the seconds of the processor, the growth,
and the memory against the bytes of the files, and ends with a fault where doubling the size costs more than 2.6 times as much,
or the memory is more than twelve times the files. What takes under a tenth of a second is not judged.
Rows that begin with the name of a command are on files at the stated limits. Their memory is told, and not judged. Where the answer itself, or
the certificate, grows with a power of the size, so may the time. A certificate of more than 16 GB ends a run with a write fault.
Usage: hostile.py PROGRAM [BENCH [WORD..]]    the program and dist_bench, as `rt run` leaves them, or - for none; the rows whose name has a WORD;
with $SHARE of the sizes, if it is set"""
import os
import random
import subprocess
import sys
import tempfile

MOST_GROWTH, MOST_MEMORY, LEAST_SECONDS = 2.6, 12, 0.1
LONG = "lib" + "x" * 61
# What a stanza says of its package besides, as in any archive.
TOLD = "Description: " + "x" * 400 + "\n"


def stanza(name, version="1", more=""):
    return f"Package: {name}\nVersion: {version}\n{more}\n"


def shuffled(items):
    items = list(items)
    random.Random(1).shuffle(items)
    return items


def header(mode="plain", numbers="1 1 1"):
    return f"distfuture-certificate 1 strong {mode} 10000 {numbers}\n"


# ---- what is run on a file: the words, and the other file

# An empty set: reading alone.
def read(packages):
    return ["health", "packages", "list"], packages, ""


# All packages of some names: the set is judged.
def judged(packages, members):
    return ["health", "packages", "list"], packages, members


# A package with these fields: it is explained.
def explained(fields):
    return ["explain", "packages", "cert", "--package", "p=1"], stanza("p", more=fields + "\n"), ""


# A certificate whose first line is refused, once the clauses were made.
def clauses(packages, mode="plain"):
    return ["check", "packages", "list"], packages, header(mode)


def checked(packages, certificate):
    return ["check", "packages", "list"], packages, certificate


def classes(packages):
    return ["classes", "packages"], packages, ""


# All packages are asked for what they need.
def strong(packages, *options):
    return ["strong", "packages", "cert", *options], packages, ""


# All packages are asked for what they challenge.
def challenged(packages):
    return ["challenged", "packages", "cert"], packages, ""


# The clauses of futures, which dist_bench makes.
def futures(packages):
    return ["bench", "count-future-clauses", "packages"], packages, ""


# A journal over a file, with a certificate of `outdated`, which is small.
def followed(packages, uploads):
    """uploads: pairs of a name and the fields that its stanza has besides."""
    journal = "".join(f"= upload {name} {k + 2}\n{stanza(name, k + 2, more)}" for k, (name, more) in enumerate(uploads))
    return ["follow", "packages", "cert", "list"], packages, journal, ["outdated", "packages", "cert"]


# ---- the files

def asked_by_many(n):
    """Packages that ask for one version each of a name that as many provide, each at another version, which is not its own."""
    asks = "".join(stanza(f"p{k:06}", more=f"Depends: a (= {k + 2})\n") for k in range(n // 2))
    offers = "".join(stanza(f"q{k:06}", more=f"Provides: a (= {k + 2})\n") for k in range(n // 2))
    return asks + offers, "".join(f"{letter}{k:06} 1\n" for letter in "pq" for k in range(n // 2))


def rejecting_many(n):
    """Packages that conflict with one version each of a name that as many provide, each at a version between theirs."""
    rejects = "".join(stanza(f"p{k:06}", more=f"Conflicts: a (= {k + 2}.5)\n") for k in range(n // 2))
    offers = "".join(stanza(f"q{k:06}", more=f"Provides: a (= {k + 2})\n") for k in range(n // 2))
    return rejects + offers, "".join(f"{letter}{k:06} 1\n" for letter in "pq" for k in range(n // 2))


def one_rejecting_many(n):
    """A package in conflict with versions of a name that as many others provide, each at a version between them."""
    rejects = ", ".join(f"a (= {k + 2}.5)" for k in range(n // 2))
    return stanza("p", more=f"Conflicts: {rejects}\n") + "".join(stanza(f"q{k:06}", more=f"Provides: a (= {k + 2})\n") for k in range(n // 2))


def many_rejecting_one(n):
    """A package that provides versions of a name, and as many others in conflict with one version each between them."""
    entries = ", ".join(f"a (= {k + 2})" for k in range(n // 2))
    return stanza("p", more=f"Provides: {entries}\n") + "".join(stanza(f"q{k:06}", more=f"Conflicts: a (= {k + 2}.5)\n") for k in range(n // 2))


def one_rejecting_one(n):
    """A package that provides versions of a name, and one in conflict with versions between them."""
    entries = ", ".join(f"a (= {k + 2})" for k in range(n // 2))
    rejects = ", ".join(f"a (= {k + 2}.5)" for k in range(n // 2))
    return stanza("p", more=f"Provides: {entries}\n") + stanza("q", more=f"Conflicts: {rejects}\n")


def hints(n):
    """A derived line of n / 5 literals under a clause of as many, and one false hint n times behind it."""
    wide = n // 5
    packages = "".join(stanza(f"a{k:06}") for k in range(wide))
    packages += stanza("z", more="Depends: " + " | ".join(f"a{k:06}" for k in range(wide)) + "\n")
    literals = " ".join([f"-{wide + 1}"] + [str(k + 1) for k in range(wide)])
    return packages, header("plain", f"{wide + 1} {wide + 1} 1") + f"d {literals} 0{' 1' * n}\n"


def named_by_each(kind, n):
    """Packages of which a half is installed as often as fits beside two installations for each bit of their numbers, each of which has those with this bit
    or without it, and the other half. Each claim on one of the first half names all of the former and those of the latter that have it, which have
    nothing else in common. Each of the other half is installed alone."""
    half, shift = n // 2, int(kind == "challenged")
    bits = max(1, (half - 1).bit_length())
    copies = 1_024 - 2 * bits
    installed = lambda members: "m " + " ".join(map(str, [1] * shift + [k + shift for k in members])) + "\n"
    lines = installed(range(1, half + 1)) * copies
    for bit in range(bits):
        for value in (0, 1):
            lines += installed([k for k in range(1, half + 1) if k - 1 >> bit & 1 == value] + list(range(half + 1, n + 1)))
    letter, copied = "c" if shift else "s", " ".join(str(k + 1) for k in range(copies))
    for k in range(1, half + 1):
        lines += f"{letter} {k} {copied} " + " ".join(str(copies + 2 * bit + (k - 1 >> bit & 1) + 1) for bit in range(bits)) + " 0 0\n"
    lines += "".join(installed([k]) + f"{letter} {k} {copies + 2 * bits + k - half} 0 0\n" for k in range(half + 1, n + 1))
    variables, clauses = (3 * n + 1, 3 * n) if shift else (n, 0)
    first = f"distfuture-certificate 1 {kind} plain 10000 {n} {variables} {clauses}\n"
    return "".join(stanza(f"p{k:06}") for k in range(n)), first + lines + "e\n"


def named_by_bits(n):
    """Packages of which two installations for each bit of their numbers have those with this bit or without it. Each claim names all that have its
    package, which have nothing else in common."""
    bits = max(1, (n - 1).bit_length())
    lines = ""
    for bit in range(bits):
        for value in (0, 1):
            lines += "m 1 " + " ".join(str(k + 1) for k in range(1, n + 1) if k - 1 >> bit & 1 == value) + "\n"
    for k in range(1, n + 1):
        lines += f"c {k} " + " ".join(str(2 * bit + (k - 1 >> bit & 1) + 1) for bit in range(bits)) + " 0 0\n"
    first = f"distfuture-certificate 1 challenged plain 10000 {n} {3 * n + 1} {3 * n}\n"
    return "".join(stanza(f"p{k:06}") for k in range(n)), first + lines + "e\n"


def wide_line(n):
    """An installation of so many variables that none of them is there."""
    return stanza("a"), header("plain", "1 1 0") + "m " + " ".join(str(k) for k in range(1, n)) + "\n"


def installed_again(n):
    """A package in conflict with n others, installed alone 2 n times."""
    packages = stanza("q", more="Conflicts: x\n") + "".join(stanza(f"p{k:06}", more="Provides: x\n") for k in range(n))
    return packages, header("plain", f"{n + 1} {n + 1} {n}") + "m 1\n" * (2 * n)


def equal_items(n):
    """A package with one item n times, installed n times."""
    packages = stanza("p", more="Depends: " + ", ".join(["x"] * n) + "\n") + stanza("x")
    return packages, header("plain", f"2 2 {n}") + "m 1 2\n" * n


def one_wide_item(n):
    """A package with an item of n alternatives, and n more that it doesn't need."""
    return stanza("a", more="Depends: " + " | ".join(f"b{k:06}" for k in range(n)) + "\n") + "".join(stanza(f"b{k:06}") for k in range(n))


def last_alternative(n):
    """The last of n alternatives installed n times."""
    return one_wide_item(n), header("plain", f"{n + 1} {n + 1} 1") + f"m 1 {n + 1}\n" * n


def explained_by_the_last(n):
    """The same in the file of an explanation."""
    return ["check-explain", "packages", "list"], one_wide_item(n), f"distfuture-explain 1 10000 {n + 1} 1 1\n" + f"m 1 {n + 1}\n" * n


def common_alternatives(n):
    """A package with n items that differ in their first alternatives, installed n times with one or the other of those that all have."""
    asks = ", ".join(f"c{k:06} | x | y" for k in range(n))
    packages = stanza("a", more=f"Depends: {asks}\n") + "".join(stanza(f"c{k:06}") for k in range(n)) + stanza("x") + stanza("y")
    return packages, header("plain", f"{n + 3} {n + 3} {n}") + f"m 1 {n + 2}\nm 1 {n + 3}\n" * (n // 2)


def repaired_again(n):
    """The file of a repair of one of n loose packages, with its installation n times."""
    packages = "".join(stanza(f"b{k:06}") for k in range(n))
    return ["check-repair", "packages", "list"], packages, f"distfuture-repair 1 10000 {n} {5 * n + 1} {6 * n - 1} 1 0\n" + "m 2\n" * n


def chained(n):
    """A package that reaches a chain of n others, each of which comes before the one that depends on it, and one new line on it."""
    packages = stanza("p", more="Depends: x | y\n") + stanza("x", more="Depends: z\n") + stanza("y", more="Depends: z\n")
    packages += stanza("z", more=f"Depends: chain-link-{n - 1:06}\n") + stanza("chain-link-000000")
    packages += "".join(stanza(f"chain-link-{k:06}", more=f"Depends: chain-link-{k - 1:06}\n") for k in range(1, n))
    first = f"distfuture-certificate 1 strong plain 1 {n + 4} {n + 4} {n + 3}\n"
    return packages, first + f"q {n + 1}\nd {n + 4} -{n + 1} 0 {n + 1} {n + 2} {n}\nu\n"


def new_again(n):
    """Half of the packages can't be installed; of the others each fourth leads to one other in two ways, which a question's new line says."""
    broken, groups = n // 2, n // 8
    packages = "".join(stanza(f"b{k:06}", more="Depends: nowhere\n") for k in range(broken))
    for k in range(groups):
        name = f"g{k:06}"
        packages += stanza(f"{name}-p", more=f"Depends: {name}-x | {name}-y\n") + stanza(f"{name}-z")
        packages += "".join(stanza(f"{name}-{letter}", more=f"Depends: {name}-z\n") for letter in "xy")
    lines = ""
    for k in range(groups):
        package, clause = broken + 4 * k + 1, broken + 3 * k + 1
        lines += f"q {package}\nd {package + 3} -{package} 0 {clause + 1} {clause + 2} {clause}\nu\n"
    number = broken + 4 * groups
    return packages, f"distfuture-certificate 1 strong plain 1 {number} {number} {broken + 3 * groups}\n" + lines


def reaching_a_chain(n, essential=False):
    """A chain of n packages, or n essential ones, beside n / 4 questions that each have a new line on what is near: each leads to one package in two
    ways, and on to the chain."""
    packages, lines, clauses, groups = "", "", 0, n // 4
    for k in range(groups):
        name, first = f"g{k:06}", 4 * k + 1
        packages += stanza(f"{name}-p", more=f"Depends: {name}-x | {name}-y\n") + stanza(f"{name}-z", more="" if essential else f"Depends: l{n - 1:06}\n")
        packages += "".join(stanza(f"{name}-{letter}", more=f"Depends: {name}-z\n") for letter in "xy")
        lines += f"q {first}\nd {first + 3} -{first} 0 {clauses + 2} {clauses + 3} {clauses + 1}\nu\n"
        clauses += 3 if essential else 4
    if essential:
        packages += "".join(stanza(f"l{k:06}", more="Essential: yes\n") for k in range(n))
        clauses += n
    else:
        packages += "".join(stanza(f"l{k:06}", more=f"Depends: l{k - 1:06}\n" if k else "") for k in range(n))
        clauses += n - 1
    mode, number = "essential" if essential else "plain", 4 * groups + n
    return packages, f"distfuture-certificate 1 strong {mode} 1 {number} {number} {clauses}\n" + lines


def needing_a_chain(n):
    """A chain of n packages, and n / 4 questions that each need all of it, with a new line on what is near: each leads to one package in two ways."""
    packages, lines, clauses = "".join(stanza(f"l{k:06}", more=f"Depends: l{k - 1:06}\n" if k else "") for k in range(n)), "", 0
    for k in range(n // 4):
        name, first = f"g{k:06}", 4 * k + 1
        packages += stanza(f"{name}-p", more=f"Depends: {name}-x | {name}-y, l{n - 1:06}\n") + stanza(f"{name}-z")
        packages += "".join(stanza(f"{name}-{letter}", more=f"Depends: {name}-z\n") for letter in "xy")
        lines += f"q {first}\nd {first + 3} -{first} 0 {clauses + 3} {clauses + 4} {clauses + 1}\nu\n"
        clauses += 4
    number = n // 4 * 4 + n
    return packages, f"distfuture-certificate 1 strong plain 1 {number} {number} {clauses + n - 1}\n" + lines


def behind_a_chain(n):
    """A chain of n packages that each lead to the next one or to one that all lead to, and whose last one leads to n / 4 others; each of these leads to
    one package in two ways; as many questions, each on a package of its own that leads to the chain, with a new line on one of these."""
    groups = n // 4
    packages, lines = stanza("link-of-000000", more="Depends: " + ", ".join(f"g{k:06}-d" for k in range(groups)) + "\n") + stanza("w"), ""
    packages += "".join(stanza(f"link-of-{k:06}", more=f"Depends: link-of-{k - 1:06} | w\n") for k in range(1, n))
    for k in range(groups):
        name = f"g{k:06}"
        packages += stanza(f"{name}-d", more=f"Depends: {name}-x | {name}-y\n") + stanza(f"{name}-z")
        packages += stanza(f"p{k:06}", more=f"Depends: link-of-{n - 1:06}\n")
        packages += "".join(stanza(f"{name}-{letter}", more=f"Depends: {name}-z\n") for letter in "xy")
        lines += f"q {4 * groups + n + k + 1}\nd {4 * k + 4} -{4 * k + 1} 0 {3 * k + 2} {3 * k + 3} {3 * k + 1}\nu\n"
    return packages, f"distfuture-certificate 1 strong plain 1 {5 * groups + n + 1} {5 * groups + n + 1} {5 * groups + n - 1}\n" + lines


def learned_again(n):
    """A package with two needs that are met in two ways each: one way fails at once.

    Another fails by seven pigeons in six holes, with so many pairs beside it."""
    packages = stanza("0p", more="Depends: a | zok, b | zhard\n") + stanza("a", more="Depends: aa, ab\n")
    packages += stanza("aa", more="Conflicts: ab\n") + stanza("ab") + stanza("b")
    packages += "".join(stanza(f"g{k}h{j}", more=f"Provides: h{j}\nConflicts: h{j}\n") for k in range(7) for j in range(6))
    packages += "".join(stanza(f"l{k:06}") + stanza(f"m{k:06}") for k in range(n))
    asks = [" | ".join(f"g{k}h{j}" for j in range(6)) for k in range(7)] + [f"l{k:06} | m{k:06}" for k in range(n)]
    return packages + stanza("zhard", more="Depends: " + ", ".join(asks) + "\n") + stanza("zok")


def hub(n, fields, more=""):
    """So many packages that need one, which has these fields, with other stanzas beside it."""
    return stanza("c", more=fields) + "".join(stanza(f"p{k:06}", more="Depends: c\n") for k in range(n)) + more


def far_hub(n, fields, more=""):
    """The same, where half of them need it through one package each, and the others through one package that all of these need."""
    own = "".join(stanza(f"p{k:06}", more=f"Depends: x{k:06}\n") + stanza(f"x{k:06}", more="Depends: c\n") for k in range(n // 2))
    common = stanza("y", more="Depends: c\n") + "".join(stanza(f"q{k:06}", more="Depends: y\n") for k in range(n // 2))
    return stanza("c", more=fields) + own + common + more


def loose(n, more=""):
    return "".join(stanza(f"w{k:06}", more=more) for k in range(n))


def one_of(n):
    return "Depends: " + " | ".join(f"w{k:06}" for k in range(n)) + "\n"


def left_open(n):
    """Four pigeons in three holes, a package that needs them and one of n others, and forty that need this one in either of two ways: the quick phase
    gives each of them up."""
    holes = "".join(stanza(f"g{k}h{j}", more=f"Provides: h{j}\nConflicts: h{j}\n") for k in range(4) for j in range(3))
    asks = [" | ".join(f"g{k}h{j}" for j in range(3)) for k in range(4)] + [" | ".join(f"w{k:06}" for k in range(n))]
    return holes + stanza("zhard", more="Depends: " + ", ".join(asks) + "\n") + loose(n) + "".join(
        stanza(f"p{k:02}", more=f"Depends: zhard | v{k:02}\n") + stanza(f"v{k:02}", more="Depends: zhard\n") for k in range(40))


def pairs(n):
    """A package with so many items of two alternatives each, and these."""
    asks = ", ".join(f"a{k:06} | b{k:06}" for k in range(n))
    return stanza("p", more=f"Depends: {asks}\n") + "".join(stanza(f"{letter}{k:06}") for k in range(n) for letter in "ab")


def many_entries(n):
    """A library with n / 4 entries and n / 20 bounds on another name, and n / 2 atoms on the library."""
    entries = ", ".join(f"e{k}" for k in range(n // 4))
    bounds = "".join(stanza(f"b{k:06}", more=f"Depends: libx (<< {k + 2})\n") for k in range(n // 20))
    atoms = stanza("p", more="Depends: " + ", ".join(["libx (<< 1)"] * (n // 2)) + "\n")
    return stanza("libx", more=f"Provides: {entries}\n") + bounds + atoms


def spelled(k):
    """Another spelling of one version for each number."""
    return ".".join("01" if k >> place & 1 else "1" for place in range(20))


def moving_providers(bounds):
    """As many packages as bounds, each of which provides one name at its own version, above all of them."""
    n = len(bounds)
    return "".join(stanza(f"q{k:06}", n + k, f"Provides: a (= {n + k})\n{TOLD}") for k in range(n)) + "".join(
        stanza(f"p{k:06}", more=f"Depends: a ({bound})\n{TOLD}") for k, bound in enumerate(bounds))


def asked_entries(entries, bounds):
    """A package with entries of one name, and packages that each ask for a version of it."""
    return stanza("p", more="Provides: " + ", ".join(entries) + "\n") + "".join(
        stanza(f"q{k:06}", more=f"Depends: a ({bound})\n{TOLD}") for k, bound in enumerate(bounds))


# Entries of one name, and bounds of which each meets one of them or none.
ENTRIES = {
    "at as many versions": lambda n: ([f"a (= {k + 2})" for k in range(n // 2)], [f"= {k + 2}" for k in range(n // 2)]),
    "that go with their package": lambda n: (["a (= 1)"] * (n // 2), ["<< 1"] * (n // 2)),
    "that are not usable": lambda n: ([f"a:x (= {k + 2})" for k in range(n // 2)] + ["a (= 2)"], [f">= {spelled(k)}" for k in range(n // 2)]),
}


def entry_rows():
    """Entries of one name, of which each atom is met by few."""
    for kind, make in ENTRIES.items():
        yield f"the clauses of futures of so many entries of a name {kind}", (40_000, lambda n, make=make: futures(asked_entries(*make(n))))
        yield f"the challenged of so many entries of a name {kind}", (20_000, lambda n, make=make: challenged(asked_entries(*make(n))))


# Bounds on versions that all providers of a name meet.
BOUNDS = {
    "rising": lambda n: [f">= {k + 1}" for k in range(n)],
    "falling": lambda n: [f">= {n - k}" for k in range(n)],
    "shuffled": lambda n: [f">= {k + 1}" for k in shuffled(range(n))],
    "differently spelled": lambda n: [f"= {spelled(k)}" for k in range(n)],
}


def wide_list(n, field, kind):
    """A package with a list of n / 2 atoms on a name that as many provide, each of which matches all of these."""
    version = spelled(0) if kind == "differently spelled" else n
    asks = {"Depends": " | ", "Conflicts": ", "}[field].join(f"a ({bound})" for bound in BOUNDS[kind](n // 2))
    return stanza("p", more=f"{field}: {asks}\n") + "".join(stanza(f"q{k:06}", more=f"Provides: a (= {version})\n") for k in range(n // 2))


def wide_rows():
    """Such a list in each field: its clauses, those of futures, and whether the package alone is healthy."""
    for field in ("Depends", "Conflicts"):
        for kind in BOUNDS:
            told = f"one list of so many {kind} versions of a name in {field}"
            yield f"the clauses of {told}", (40_000, lambda n, f=field, k=kind: clauses(wide_list(n, f, k)))
            yield f"the clauses of futures of {told}", (40_000, lambda n, f=field, k=kind: futures(wide_list(n, f, k)))
            yield f"the health of {told}", (40_000, lambda n, f=field, k=kind: judged(wide_list(n, f, k), "p 1\n"))

# What stands behind `1.` in a long version.
RUNS = {
    "digits": lambda n: "9" * (20 * n),
    "zeros": lambda n: "0" * (20 * n) + "5",
    "letters": lambda n: "a" * (20 * n),
}


def asking_long(version, n):
    """A package of a long version, and so many that ask for a lesser one of it."""
    asks = "".join(stanza(f"p{k:06}", more="Depends: a (>= 1.0)\n") for k in range(n))
    return stanza("a", version) + asks, f"a {version}\n" + "".join(f"p{k:06} 1\n" for k in range(n))


def long_rows():
    """A version with a long run of one kind, compared with as many short ones."""
    for kind, run in RUNS.items():
        yield f"the classes of a version of so many {kind} beside those that its package provides", (200_000, lambda n, run=run: classes(
            stanza("p", "1." + run(n), "Provides: " + ", ".join(f"v (= 1.{k})" for k in range(n)) + "\n")))
        yield f"the health of so many that ask for a version of as many {kind}", (100_000, lambda n, run=run: judged(*asking_long("1." + run(n), n)))


ROWS = {
    "one stanza of so many different fields": (1_000_000, lambda n: read(stanza("a", more="".join(f"F{k}: \n" for k in shuffled(range(n)))))),
    "one field of so many lines": (1_000_000, lambda n: read(stanza("a", more="Description: a\n" + " b\n" * n))),
    "one package of so many alternatives": (1_000_000, lambda n: read(stanza("a", more="Depends: " + " | ".join(f"b{k}" for k in range(n)) + "\n"))),
    "one package of so many items": (1_000_000, lambda n: read(stanza("a", more="Depends: " + ", ".join(f"b{k}" for k in range(n)) + "\n"))),
    "so many versions of one name": (200_000, lambda n: read("".join(stanza("a", k) for k in shuffled(range(n))))),
    "so many versions with 600 equal bytes in front": (50_000, lambda n: read("".join(stanza("a", "1." + "a" * 600 + str(k)) for k in shuffled(range(n))))),
    **dict(long_rows()),
    "so many names of one long front": (200_000, lambda n: read("".join(stanza(f"{LONG}{k:07}") for k in shuffled(range(n))))),
    "so many names, the last first": (200_000, lambda n: read("".join(stanza(f"{k:07}") for k in range(n, 0, -1)))),
    "one name provided so many times": (200_000, lambda n: read("".join(stanza(f"p{k}", more="Provides: a\n") for k in range(n)))),
    "so many blank lines": (10_000_000, lambda n: read("\n" * n + stanza("a"))),
    "so many lists of blanks between commas": (50_000, lambda n: read("".join(stanza(f"p{k}", more="Depends: a" + "," * 63 + "\n") for k in range(n)))),
    "so many packages that ask for a version of one name": (40_000, lambda n: judged(*asked_by_many(n))),
    "the health of one item of so many qualifiers that no package has": (40_000, lambda n: judged(
        stanza("p", more="Depends: " + " | ".join(f"a:x{k}" for k in range(n // 2)) + "\n")
        + "".join(stanza(f"q{k:06}", more="Provides: a\n") for k in range(n // 2)), "p 1\n")),
    "the explanation of one item of so many versions beside as many that its package provides": (40_000, lambda n: explained(
        "Depends: " + " | ".join(f"a (= {2 * k})" for k in range(n // 2)) + "\nProvides: " + ", ".join(f"a (= {2 * k + 1})" for k in range(n // 2)))),
    "the explanation of one item of so many names beside as many that its package provides": (40_000, lambda n: explained(
        "Depends: " + " | ".join(f"a{k}" for k in range(n // 2)) + "\nProvides: " + ", ".join(f"b{k}" for k in range(n // 2)))),
    "so many members of one name": (100_000, lambda n: judged("".join(stanza("a", k) for k in range(n)), f"a {n - 1}\n")),
    "the clauses of as many": (40_000, lambda n: clauses(asked_by_many(n)[0])),
    "so many packages in conflict with a version of one name": (40_000, lambda n: judged(*rejecting_many(n))),
    "the clauses of as many in conflict": (40_000, lambda n: clauses(rejecting_many(n)[0])),
    "the clauses of one conflict told again and again": (20_000, lambda n: clauses(
        "".join(stanza(f"p{k}", more="Provides: x\n") for k in range(n)) + stanza("q", more="Conflicts: " + ", ".join(["x"] * (n // 20)) + "\n"))),
    "the clauses of one alternative told again and again": (20_000, lambda n: clauses(
        "".join(stanza(f"p{k}", more="Provides: x\n") for k in range(n)) + stanza("q", more="Depends: " + " | ".join(["x"] * (n // 20)) + "\n"))),
    "the clauses of so many essential packages of one name": (40_000, lambda n: clauses(
        "".join(stanza("a", k, "Essential: yes\n") for k in range(n)), "essential")),
    "the clauses of as many on a package with as many entries": (40_000, lambda n: clauses(
        stanza("q", more="Provides: " + ", ".join(["a"] * (n // 2)) + "\n") + "".join(stanza(f"p{k}", more="Depends: a\n") for k in range(n // 2)))),
    "more clauses than may be": (40_000, lambda n: clauses("".join(stanza(f"p{k}", more="Provides: x\nConflicts: x\n") for k in range(n)))),
    "one false hint told again and again": (100_000, lambda n: checked(*hints(n))),
    "so many packages, half of them in a thousand installations that each claim on one names": (8_000, lambda n: checked(*named_by_each("strong", n))),
    "so many in a thousand installations that each claim on challenges names": (2_000, lambda n: checked(*named_by_each("challenged", n))),
    "so many claims on challenges that name large installations alone": (8_000, lambda n: checked(*named_by_bits(n))),
    "one line of so many numbers": (6_000_000, lambda n: checked(*wide_line(n))),
    "a package in so many conflicts, installed again and again": (20_000, lambda n: checked(*installed_again(n))),
    "one item told again and again, installed as often": (20_000, lambda n: checked(*equal_items(n))),
    "the last of so many alternatives, installed as often": (20_000, lambda n: checked(*last_alternative(n))),
    "an explanation by the last of so many alternatives, installed as often": (20_000, explained_by_the_last),
    "so many items with two alternatives in common, installed by either as often": (20_000, lambda n: checked(*common_alternatives(n))),
    "a repair of one of so many packages, installed as often": (10_000, repaired_again),
    "one new line that reaches a chain of so many": (100_000, lambda n: checked(*chained(n))),
    "so many questions, each with a new line": (80_000, lambda n: checked(*new_again(n))),
    "so many uploads to one source of as many packages": (80_000, lambda n: followed(
        "".join(stanza(f"p{k:06}", more="Source: s\n") for k in range(n // 2)), [("p000000", "Source: s\n")] * (n // 2))),
    "so many uploads to one package of as many entries, each with the last of them": (80_000, lambda n: followed(
        stanza("p", more="Provides: " + ", ".join(f"e{k}" for k in range(n // 2)) + "\n"), [("p", f"Provides: e{n // 2 - 1}\n")] * (n // 2))),
    "one upload over the space of so many libraries, each with a bound": (20_000, lambda n: followed("".join(
        stanza(f"lib{k:06}", more=TOLD) + stanza(f"p{k:06}", more=f"Depends: lib{k:06} (<< 2)\n{TOLD}") for k in range(n)), [("lib000000", "")])),
    "so many questions that reach one chain, each with a new line": (20_000, lambda n: checked(*reaching_a_chain(n))),
    "so many questions that reach one chain, each with a new line behind it": (20_000, lambda n: checked(*behind_a_chain(n))),
    "so many questions that need one chain, each with a new line": (20_000, lambda n: checked(*needing_a_chain(n))),
    "so many questions beside as many essential packages, each with a new line": (20_000, lambda n: checked(*reaching_a_chain(n, True))),
    "a line of one literal that two questions about so many pairs need": (10_000, lambda n: strong(learned_again(n))),
    "so many packages that need one in conflict with as many": (10_000, lambda n: strong(hub(n, "Conflicts: v\n", loose(n, "Provides: v\n")))),
    "so many packages that need one with one item of as many alternatives": (10_000, lambda n: strong(hub(n, one_of(n), loose(n)))),
    "so many packages that need one with as many equal items": (10_000, lambda n: strong(hub(n, "Depends: " + ", ".join(["x"] * n) + "\n", stanza("x")))),
    "so many packages that need, through others, one in conflict with as many": (10_000, lambda n: strong(
        far_hub(n, "Conflicts: v\n", loose(n, "Provides: v\n")))),
    "so many packages that need, through others, one with one item of as many alternatives": (10_000, lambda n: strong(far_hub(n, one_of(n), loose(n)))),
    "so many packages that need, through others, one with as many equal items": (10_000, lambda n: strong(
        far_hub(n, "Depends: " + ", ".join(["x"] * n) + "\n", stanza("x")))),
    "forty packages that need one without an installation, which has an item of so many alternatives": (16_000, lambda n: strong(left_open(n))),
    "a package with so many items of two alternatives": (8_000, lambda n: strong(pairs(n))),
    "so many packages beside an essential one with one item of as many alternatives": (10_000, lambda n: strong(
        stanza("e", more="Essential: yes\n" + one_of(n)) + loose(n), "--essential")),
    "the classes of one entry told again and again": (8_000, lambda n: classes(
        stanza("libx", more="Provides: " + ", ".join(["a (= 1)"] * n) + "\n")
        + stanza("p", more="Conflicts: " + ", ".join(f"a (>= {k})" for k in range(n)) + "\n"))),
    "the classes of so many packages of one name they provide, with as many bounds below": (80_000, lambda n: classes(moving_providers(
        [f">= {k + 1}" for k in range(n // 2)]))),
    "the classes of so many packages of one name they provide, with as many spellings of one bound above": (80_000, lambda n: classes(moving_providers(
        [f">= {n}.{spelled(k)}" for k in range(n // 2)]))),
    "the clauses of futures of so many entries": (8_000, lambda n: futures(many_entries(n))),
    "the clauses of futures of so many packages that ask for a version of one name": (40_000, lambda n: futures(asked_by_many(n)[0])),
    "the clauses of futures of so many packages in conflict with a version of one name": (40_000, lambda n: futures(rejecting_many(n)[0])),
    "the clauses of futures of one package in conflict with so many versions of a name": (40_000, lambda n: futures(one_rejecting_many(n))),
    "the clauses of futures of so many packages in conflict with a version that one provides": (40_000, lambda n: futures(many_rejecting_one(n))),
    "the clauses of futures of one package in conflict with so many versions that one provides": (40_000, lambda n: futures(one_rejecting_one(n))),
    "the clauses of futures of one alternative told again and again": (20_000, lambda n: futures(
        "".join(stanza(f"p{k}", more="Provides: x\n") for k in range(n)) + stanza("q", more="Depends: " + " | ".join(["x"] * (n // 20)) + "\n"))),
    "the clauses of futures of one conflict told again and again": (20_000, lambda n: futures(
        "".join(stanza(f"p{k}", more="Provides: x\n") for k in range(n)) + stanza("q", more="Conflicts: " + ", ".join(["x"] * (n // 20)) + "\n"))),
    **dict(entry_rows()),
    **dict(wide_rows()),
}


# ---- every command at the stated limits

def chain(n, first):
    """Each package needs the next one. first: whether those come first that need nothing."""
    if first == "end":
        return "".join(stanza(f"p{k:06}", more=f"Depends: p{k - 1:06}\n" if k else "") for k in range(n))
    return "".join(stanza(f"p{k:06}", more=f"Depends: p{k + 1:06}\n" if k < n - 1 else "") for k in range(n))


def star(n, bound="", told=""):
    return stanza("c") + "".join(stanza(f"p{k:06}", more=f"Depends: c{bound}\n{told}") for k in range(n - 1))


def wide_star(n):
    return stanza("c", more="Depends: " + ", ".join(f"p{k:06}" for k in range(n - 1)) + "\n") + "".join(stanza(f"p{k:06}") for k in range(n - 1))


def behind_a_large_one(n, more=""):
    """So many packages, behind one that needs 1,100 others."""
    return wide_star(1_101).replace("Package: c\n", "Package: q\n") + "".join(stanza(f"r{k:06}", more=more) for k in range(n - 1_101))


def one_source(n):
    return "".join(stanza(f"p{k:06}", more="Source: s\n") for k in range(n - 1)) + stanza("q", more="Depends: p000000 (<< 2)\n")


def own_bounds(n):
    """So many packages of one source, and as many that each ask for one of them at a version of their own or later."""
    return "".join(stanza(f"a{k:06}", more=f"Depends: b{k:06} (>= {k + 1})\n") + stanza(f"b{k:06}", more="Source: s\n") for k in range(n))


def all_against_all(n):
    """So many conflicts on a name that as many others provide."""
    return "".join(stanza(f"p{k:06}", more="Conflicts: x\n") + stanza(f"q{k:06}", more="Provides: x\n") for k in range(n))


def mixed(n, width=0):
    """Packages that need some of those before them, with bounds, alternatives, a few sources and a few conflicts; width: the bytes of each, about."""
    draw = random.Random(n)
    told = "Description: " + "x" * max(0, width - 130) + "\n" if width else ""
    texts = []
    for k in range(n):
        more = f"Source: s{k // 3:06}\n"
        near = lambda: f"p{draw.randrange(max(0, k - 1000), k):06}" + draw.choice(["", "", " (>= 1)", " (<< 3)"])
        if k and draw.random() < 0.8:
            more += "Depends: " + ", ".join(draw.choice([near(), near() + " | " + near()]) for _ in range(draw.choice([1, 1, 2]))) + "\n"
        if k and draw.random() < 0.02:
            more += f"Conflicts: {near()}\n"
        texts.append(stanza(f"p{k:06}", more=more + told))
    return "".join(texts)


def filled(text, n):
    """A file of just so many bytes: a field of its last stanza has those that are missing."""
    return text[:-1] + "X-Fill: " + "x" * (n - len(text) - 8) + "\n"


def of_bytes(n):
    """A file of just so many bytes, with a stanza for each 1,343 of them."""
    return filled(mixed(n // 1343, 1240), n)


def star_of_bytes(n):
    """The same, where each package needs one of them."""
    return filled(star(n // 1343, told="Description: " + "x" * 1270 + "\n"), n)


def broken_chain(n):
    """Each package needs the next one, and the last one what is not there."""
    return "".join(stanza(f"p{k:06}", more=f"Depends: p{k - 1:06}\n" if k else "Depends: nowhere\n") for k in range(n))


def broken_choice(n):
    """One package that needs one of so many, none of which can be installed."""
    asks = "Depends: " + " | ".join(f"b{k:06}" for k in range(n)) + "\n"
    return "".join(stanza(f"b{k:06}", more="Depends: nowhere\n") for k in range(n)) + stanza("a", more=asks)


def broken_choices(n):
    """So many packages that each need one of as many, all but one of which can't be installed."""
    asks = "Depends: " + " | ".join(f"b{k:06}" for k in range(n)) + "\n"
    choices = "".join(stanza(f"b{k:06}", more="Depends: nowhere\n" if k != n // 2 else "") for k in range(n))
    return choices + "".join(stanza(f"p{k:06}", more=asks) for k in range(n))


def needs_later(n):
    """One package that needs a later version of each of so many."""
    return "".join(stanza(f"a{k:06}") for k in range(n)) + stanza("p", more="Depends: " + ", ".join(f"a{k:06} (= 2)" for k in range(n)) + "\n")


def needs_later_of_pairs(n):
    """One package that needs a later version of one of two, so many times."""
    asks = ", ".join(f"a{k:06} (= 2) | b{k:06} (= 2)" for k in range(n))
    return "".join(stanza(f"{letter}{k:06}") for letter in "ab" for k in range(n)) + stanza("p", more=f"Depends: {asks}\n")


def many_cuts(n):
    """So many packages of one source, whose versions above the top fall into 81 classes."""
    asks = "Depends: " + ", ".join(f"p000000 (<< {k})" for k in range(2, 42)) + "\n"
    return "".join(stanza(f"p{k:06}", more="Source: s\n") for k in range(n - 1)) + stanza("q", more=asks)


def asked_of_all(n):
    """So many packages that need one name, which as many provide."""
    return "".join(stanza(f"p{k:06}", more="Depends: x\n") + stanza(f"q{k:06}", more="Provides: x\n") for k in range(n))


def last_named(text):
    """The words that name the last package of a file."""
    return ["--package", text[text.rindex("Package: ") + 9 :].split("\n")[0] + "=1"]


# The size, the file, and of each command the power of the size with which its certificate grows, where that is not 1.
LOADS = {
    "a chain of so many, its end first": (200_000, lambda n: chain(n, "end"), {}),
    "a chain of so many, its head first": (200_000, lambda n: chain(n, "head"), {}),
    "a star of so many": (200_000, star, {}),
    "a star of so many, with a bound": (200_000, lambda n: star(n, " (<< 2)"), {}),
    "one that needs so many": (200_000, wide_star, {}),
    "so many loose ones behind one that needs 1,100": (200_000, behind_a_large_one, {}),
    "so many broken ones behind one that needs 1,100": (200_000, lambda n: behind_a_large_one(n, "Depends: nowhere\n"), {}),
    "so many of one source": (200_000, one_source, {}),
    "so many conflicts on a name that as many provide": (
        2_000, all_against_all, {kind: 2 for kind in ("health", "strong", "outdated", "challenged", "explain", "repair", "check")}),
    "so many mixed ones": (200_000, mixed, {}),
    "a file of so many bytes": (268_435_456, of_bytes, {}),
    "a star in a file of so many bytes": (268_435_456, star_of_bytes, {}),
}
SWEEPS = ("strong", "outdated", "challenged")
# Files in which one package is asked for: the size, the file, the command with its options, and the power with which its certificate grows.
QUESTIONS = {
    "a chain of so many to what is not there": (2_000, broken_chain, ["explain"], 2),
    "one that needs one of so many, all broken": (2_000, broken_choice, ["explain"], 2),
    "one that needs a later version of each of so many": (20_000, needs_later, ["repair"], 1),
    "one that needs a later version of each of so many, counted to 64": (20_000, needs_later, ["repair", "--most", "64"], 1),
    "one that needs a later version of one of two, so many times": (20_000, needs_later_of_pairs, ["repair"], 1),
}


def question_rows(told, size, make, words, power, check_power):
    """A question about the last package of a file, and the check of its answer."""
    kind = words[0]

    def asked(n):
        text = make(n)
        return [kind, "packages", "cert", *words[1:], *last_named(text)], text, ""

    def checked(n):
        question, text, other = asked(n)
        return [f"check-{kind}", "packages", "cert"], text, other, question

    yield f"{kind} on {told}", (size, asked, power)
    yield f"check of {kind} on {told}", (size, checked, check_power)


def load_rows():
    for told, (size, make, powers) in LOADS.items():
        for words in (["health", "packages", "list"], ["classes", "packages"], *([kind, "packages", "cert"] for kind in SWEEPS)):
            kind = words[0]
            if kind == "strong" and told.startswith("a chain"):
                # Each package needs all after it, and each of these needs a refutation of as many hints: the answer grows with the square.
                yield f"strong on {told}", (1_000, lambda n, make=make: (["strong", "packages", "cert"], make(n), ""), 3)
                yield f"strong on {told}, to the limit of a certificate", (size, lambda n, make=make: (["strong", "packages", "/dev/null"], make(n), ""), None)
                continue
            members = (lambda text: "")
            if kind == "health":
                members = (lambda text: "".join(f"{line[9:]} 1\n" for line in text.split("\n") if line.startswith("Package: ")))

            def row(n, words=words, make=make, members=members):
                text = make(n)
                return words, text, members(text)

            yield f"{kind} on {told}", (size, row, powers.get(kind, 1))
            if kind in SWEEPS:
                checked = (lambda n, make=make, kind=kind: (["check", "packages", "cert"], make(n), "", [kind, "packages", "cert"]))
                yield f"check of {kind} on {told}", (size, checked, powers.get("check", 1))
        for kind in ("explain", "repair"):
            yield from question_rows(told, size, make, [kind], powers.get(kind, 1), powers.get("check", 1))
    for told, (size, make, words, power) in QUESTIONS.items():
        yield from question_rows(told, size, make, words, power, power)
    # The file itself has the square of the number.
    yield "strong on so many that need one of as many broken ones", (1_000, lambda n: (["strong", "packages", "cert"], broken_choices(n), ""), 2)
    # So many versions have the square of the number of conflicts.
    yield "strong on so many versions of one essential package", (1_000, lambda n: (["strong", "packages", "cert", "--essential"], "".join(
        stanza("a", k, "Essential: yes\n") for k in range(n)) + stanza("p"), ""), 2)
    # Each package names each of the classes, of which there are twice as many.
    yield "challenged on so many that ask for versions of their own of one source", (240, lambda n: (["challenged", "packages", "cert"], own_bounds(n), ""), 2)
    yield "classes on one stanza too many", (200_001, lambda n: (["classes", "packages"], mixed(n), ""), None)
    yield "classes on one byte too many", (268_435_457, lambda n: (["classes", "packages"], of_bytes(n), ""), None)
    yield "check of one derived line too many", (16_000_001, lambda n: (
        ["check", "packages", "list"], stanza("a", more="Depends: b\n"), header() + "d -1 0 1\n" * n), None)
    yield "check of one literal too many", (8_000_000, lambda n: (
        ["check", "packages", "list"], stanza("a", more="Depends: b\n") + "".join(stanza(f"b{k}") for k in range(8)),
        header("plain", "9 9 1") + "d -1 2 3 4 5 6 7 8 0 1\n" * n + "d -1 0 1\n"), None)
    yield "health on a list of one byte too many", (268_435_457, lambda n: (["health", "packages", "list"], stanza("a"), "a 1" + "\n" * (n - 3)), None)
    yield "outdated on more variables than may be", (200_000, lambda n: (["outdated", "packages", "cert"], many_cuts(n), ""), None)
    yield "repair on more clauses than may be", (200_000, lambda n: (
        ["repair", "packages", "cert", "--most", "64", "--package", "p000000=1"], star(n), ""), None)
    yield "strong on more literals than may be", (8_000, lambda n: (["strong", "packages", "cert"], asked_of_all(n), ""), None)
    yield "explain on more literals than may be", (8_000, lambda n: (["explain", "packages", "cert", "--package", "p000000=1"], asked_of_all(n), ""), None)
    yield "check of a line of one byte too many", (1_073_741_825, lambda n: (
        ["check", "packages", "list"], stanza("a"), header("plain", "1 1 0") + "x" * (n - 1) + "\n"), None)


# Runs a program and prints its seconds of the processor, its most memory and its status. It is a process of its own, since the memory of the one
# that makes the files would count for the program.
RUNNER = """
import os, resource, signal, sys
child = os.fork()
if not child:
    signal.signal(signal.SIGXFSZ, signal.SIG_IGN)
    resource.setrlimit(resource.RLIMIT_FSIZE, (2**34, 2**34))
    for number, name in ((1, "out"), (2, "err")):
        os.dup2(os.open(name, os.O_WRONLY | os.O_CREAT | os.O_TRUNC), number)
    os.execv(sys.argv[1], sys.argv[1:])
_, status, used = os.wait4(child, 0)
print(used.ru_utime + used.ru_stime, used.ru_maxrss * 1024, os.waitstatus_to_exitcode(status))
"""


def best(words, folder, runs=2):
    """The least seconds, the most memory in bytes, and how it ended."""
    results = []
    for _ in range(runs):
        ran = subprocess.run([sys.executable, "-c", RUNNER, *words], cwd=folder, capture_output=True, text=True, check=True)
        results.append(ran.stdout.split())
    with open(f"{folder}/err", encoding="utf-8") as err:
        told = f"status {results[0][2]} {err.read().strip()}"
    return min(float(it[0]) for it in results), max(int(it[1]) for it in results), told


def main(program, bench=None, *chosen):
    programs = {"bench": bench and bench != "-" and os.path.abspath(bench)}
    faults = 0
    with tempfile.TemporaryDirectory() as folder:
        for name in ("packages", "list"):
            open(f"{folder}/{name}", "w").close()
        _, empty, _ = best([os.path.abspath(program), "health", "packages", "list"], folder)
        for told, (size, make, *power) in [*ROWS.items(), *load_rows()]:
            if chosen and not any(word in told for word in chosen):
                continue
            # What only comes at the whole of a limit is not tried at a share of it.
            if power == [None] and "SHARE" in os.environ:
                continue
            size, power, is_load = max(2, int(size * float(os.environ.get("SHARE", "1")))), (power or [1])[0], bool(power)
            results = []
            for count in (size // 2, size) if power else (size,):
                words, packages, other, *before = make(count)
                for name, text in (("packages", packages), ("list", other)):
                    with open(f"{folder}/{name}", "w") as file:
                        file.write(text)
                which = programs.get(words[0], os.path.abspath(program))
                if not which:
                    break
                for its in before:
                    best([os.path.abspath(program), *its], folder, 1)
                results.append(best([which, *(words[1:] if words[0] in programs else words)], folder, 1 if is_load else 2))
            if not results:
                print(f"{told}: not tried, no dist_bench was named")
                continue
            if is_load:
                cert = os.path.getsize(f"{folder}/cert") if os.path.exists(f"{folder}/cert") else 0
                whole, memory, ended = results[-1]
                growth = whole / results[0][0]
                is_slow = bool(power) and whole >= LEAST_SECONDS and growth > MOST_GROWTH**power
                faults += is_slow
                print(f"{told}: {size}, {len(packages) / 1e6:.1f} MB: {whole:.2f} s, " + (f"{growth:.2f} times half of it, " if power else "")
                      + f"memory {memory / 1e6:.0f} MB, certificate {cert / 1e6:.1f} MB, report {os.path.getsize(f'{folder}/out') / 1e6:.1f} MB, {ended}"
                      f"{'  TOO SLOW' if is_slow else ''}", flush=True)
                if os.path.exists(f"{folder}/cert"):
                    os.remove(f"{folder}/cert")
                continue
            (half, _, _), (whole, memory, ended) = results
            bytes_read = len(packages) + len(other)
            growth, times = whole / half, max(memory - empty, 0) / bytes_read
            is_slow = whole >= LEAST_SECONDS and growth > MOST_GROWTH
            is_large = times > MOST_MEMORY and memory - empty > 2**24
            faults += is_slow + is_large
            print(f"{told}: {size}, {bytes_read} bytes: {whole:.3f} s, {growth:.2f} times half of it, memory {times:.1f} times the files, {ended}"
                  f"{'  TOO SLOW' if is_slow else ''}{'  TOO LARGE' if is_large else ''}", flush=True)
    print(f"{faults} faults")
    return 1 if faults else 0


sys.exit(main(*sys.argv[1:]))

#!/usr/bin/env python3
"""Compares how the program and tools/recheck read Packages files: small random archives, edited in bytes, words, lines and fields.

Usage: compare-readers.py PROGRAM [FILES [SEED [SECONDS]]]    it ends after so many files or seconds

Of a file with a fault both name one line and one kind, with field and place. Of any other the program prints the classes of later versions as
tools/recheck has them, judges a random list as that does (with the text of the item that isn't met), and makes as many clauses of a kind and a
mode. It prints how many agreed, by the kind of the fault; at the first that does not it prints the file, as short as it can be made, and ends with 1.
"""
import collections
import sys
import time

import small_archives as small
from small_archives import sc

FIELDS = [b"Package", b"Version", b"Architecture", b"Source", b"Pre-Depends", b"Depends", b"Conflicts", b"Breaks", b"Provides", b"Essential", b"Description",
          b"depends", b"PROVIDES", b"X-1", b"Multi-Arch", b"Recommends"]
LINES = [b"Foo", b"#x: 1", b"-x: 1", b" more", b"\tmore", b": 1", b"X y: 1", b"X\xff: 1", b"X\x7f: 1", b"X!: 1", b"x:", b"Depends: a", b"Package: a",
         b"Package:", b"Version: 1", b"", b" ", b"\t ", b"\r", b" .", b"\x0b", b"Architecture: i386", b"Architecture: all", b"Architecture: amd64",
         b"Architecture: a b", b"Architecture:", b"Essential: yes"]
VERSIONS = [b"", b":1", b"x:1", b"2147483648:1", b"2147483647:1", b"4294967297:1", b"00000000000002:1", b"1-", b"-1", b"1:", b"1:-1", b"1_0",
            b"1:2:3-4-5", b"1-2-3", b"1-2_", b"1-2:3", b"1-2:", b"a", b"~", b"1~~", b"+b1", b"1+b", b"1:+b1", b"1-+b1", b"1.0\xc3", b"1\x00", b"1/2",
            b"0:0-0", b"1", b"2", b"1.0", b"1-1", b"0000000000000000000000000000001", b"99999999999999999999999999999999999999999999", b"1 ", b"1\t2",
            b"1\r"]
SOURCES = [b"a (1) x", b"a (", b"a ()", b"", b"a(2)", b"a ( 2 )", b"a (2", b"a 2", b"a )", b"(1)", b"a (1_0)", b"a\t(1)", b"a (1)(2)", b"a (1))",
           b"_a", b"a:any", b"a\n (1)", b"s (1:1)", b"s (1-0)", b"s (1.0)", b"A", b"a ((1)", b"a (1 2)"]
TOKENS = [b"a", b"b", b"v", b"zz", b"A", b"a-1", b"b.c", b"a+", b"a_b", b"+a", b"-a", b".a", b"_a", b":", b":any", b":native", b":amd64", b":all",
          b"(", b")", b",", b"|", b"<<", b"<=", b"=", b">=", b">>", b"<", b">", b"==", b"=<", b"<>", b"=>", b">>>", b" ", b" ", b"  ", b"\t", b"\n ",
          b"\n\t", b"1", b"2", b"1.0-1", b"1:2", b"x:1", b"1-", b"1_0", b"[amd64]", b"<!x>", b"\r", b"\xff", b"\x00", b"$", b"(= 1)", b"(>= 2)",
          b" (<< 1:0)", b"(= 1", b"a (= 1)", b" | b", b", a", b"a (>= 1)", b"a:any (<= 2)"]
RELATIONS = FIELDS[4:9]


def relation(draw):
    return b"".join(draw.choice(TOKENS) for _ in range(draw.randint(1, 8)))


def value(draw):
    kind = draw.randint(0, 5)
    if kind == 0:
        return draw.choice(VERSIONS)
    if kind == 1:
        return draw.choice(SOURCES)
    if kind == 2:
        return draw.choice([b"yes", b"all", b"any", b"amd64", b"a b", b"yes ", b"no", b"_", b"a", b"b", b"c", b"a_b", b"a\n b", b"\n a", b"a\n"])
    if kind == 3:
        operator, version = draw.choice([b"=", b">=", b"<<", b"<", b"=="]), draw.choice(VERSIONS)
        return draw.choice([b"a (%s %s)", b"a (%s%s)", b"a(%s %s )", b"a | b (%s %s)", b"b, a ( %s\n %s)", b"a (%s %s) | "]) % (operator, version)
    return relation(draw)


def fitting(draw, name):
    """A value of the sort that a field of this name has, mostly."""
    if draw.often(0.2):
        return value(draw)
    name = name.lower()
    if name == b"version":
        return draw.choice(VERSIONS)
    if name == b"source":
        return draw.choice(SOURCES) if draw.often(0.6) else b"a (" + draw.choice(VERSIONS) + b")"
    return relation(draw) if name in [it.lower() for it in RELATIONS] else value(draw)


def stanza_of(lines, at):
    """The places of the lines of the stanza around a place."""
    first = last = at
    while first > 0 and lines[first - 1].strip():
        first -= 1
    while last + 1 < len(lines) and lines[last].strip():
        last += 1
    return range(first, last + 1)


def edit(draw, data):
    lines = data.split(b"\n")
    at = draw.randrange(len(lines))
    kind = draw.randint(0, 11)
    if kind == 0:
        del lines[at]
    elif kind == 1:
        lines.insert(at, lines[draw.randrange(len(lines))])
    elif kind == 2:
        lines.insert(at, draw.choice(LINES))
    elif kind in (3, 4, 5):
        name = draw.choice(FIELDS)
        line = name + draw.choice([b": ", b":", b":\t", b":\n "]) + fitting(draw, name)
        its = [i for i in stanza_of(lines, at) if lines[i].split(b":")[0].lower() == name.lower()]
        if its and draw.often(0.9):
            lines[its[0]] = line
        else:
            lines.insert(at, line)
    elif kind in (6, 7) and b":" in lines[at]:
        name = lines[at].split(b":")[0]
        lines[at] = name + b": " + fitting(draw, name)
    elif kind == 8 and lines[at]:
        some, place = bytes([draw.choice(b" \t\r\n():|,<=>~-+_.:#aZ019\xc3\x00\x7f\x0b")]), draw.randrange(len(lines[at]) + 1)
        lines[at] = draw.choice([lines[at][:place] + some + lines[at][place:], lines[at][:place] + some + lines[at][place + 1:],
                                 lines[at][:place] + lines[at][place + 1:]])
    elif kind == 9:
        words = lines[at].split(b" ")
        i, j = draw.randrange(len(words)), draw.randrange(len(words))
        words[i], words[j] = draw.choice([(words[j], words[i]), (words[j], words[j]), (words[i] + b"\n", words[j])])
        lines[at] = b" ".join(words)
    elif kind == 10:
        return data + draw.choice([b"\n", b"\n\nPackage: a\nVersion: 7\n", b"\nPackage: q\n", b" ", b"x", b"\nVersion: 1\n", b"\n\n\n",
                                   b"\n \n\t\n", b"\n more\n"])
    else:
        some, place = bytes([draw.randrange(256)]), draw.randrange(len(data) + 1)
        return data[:place] + some + data[place + draw.randint(0, 1):]
    return b"\n".join(lines)


# A stanza of an archive, with a folded field, a qualifier and no line feed at the end.
STANZA = b"""Package: python3
Source: python3-defaults (3.11.2-1)
Version: 3.11.2-1+b1
Architecture: amd64
Replaces: python3-minimal (<< 3.1.2-2)
Provides: python3-profiler
Depends: python3.11:any (>= 3.11.2-1~),
 libpython3-stdlib (= 3.11.2-1+b1)
Pre-Depends: python3-minimal (= 3.11.2-1+b1)
Tag: devel::interpreter,
 implemented-in::c"""


def made_by_hand():
    """Each front of a stanza, and files with long lines and many fields."""
    yield from (STANZA[:length] for length in range(len(STANZA) + 1))
    yield b"a" * 2**20
    yield b"Package: a\nVersion: 1\nTag: " + b"a" * 2**20 + b"\n"
    yield b"Package: a\nVersion: " + b"1" * 2**14 + b"\n"
    yield b"Package: a\nVersion: 1\n" + b"".join(b"N%d: v\n" % number for number in range(2000))
    yield b"Package: a\nVersion: 1\n" + b"".join(b"N%d: v\n" % number for number in range(2000)) + b"n1999: w\n"


def difference(runner, draw, data):
    """What differs, or None; and the kind of the fault, or how it is read."""
    runner.put("packages", data)
    answer = runner.run("classes", "/packages")
    try:
        packages, arch = sc.read_packages(data)
    except sc.End as end:
        kind = end.text.split(": ")[-1]
        kind = (kind.split(" at ")[0] if " in " in kind else kind.split(" with ")[0])
        return (None if answer == sc.answer_of(end) else ("fault", answer, end.text)), kind
    wanted = (0, sc.classes_report(packages, arch), "")
    if answer != wanted:
        return ("classes", answer, wanted), ""
    members = small.list_of(draw, packages)
    runner.put("list", members)
    answer, wanted = runner.run("health", "/packages", "/list"), small.health_answer(packages, arch, members)
    if answer != wanted:
        return ("health", members, answer, wanted), ""
    kind, essential = draw.choice(["strong", "outdated"]), draw.often(0.5)
    subject = sc.Subject(packages, arch, kind, essential)
    numbers = subject.numbers
    runner.put("cert", b"distfuture-certificate 1 %s %s 1 %d %d %d\n" % (kind.encode(), b"essential" if essential else b"plain", *numbers))
    answer = runner.run("check", "/packages", "/cert")
    if answer != (4, "", "distfuture: certificate refused at line 2: Truncated\n"):
        return ("clauses", kind, essential, numbers, answer), ""
    return None, "read, with %s packages" % (len(packages) if len(packages) < 8 else "8 or more")


def shorter(runner, data, which):
    is_shorter = True
    while is_shorter:
        is_shorter, at = False, 0
        while at < data.count(b"\n") + 1:
            lines = data.split(b"\n")
            text = b"\n".join(lines[:at] + lines[at + 1:])
            found = difference(runner, small.Draw(1), text)[0]
            if found and found[0] == which:
                data, is_shorter = text, True
            else:
                at += 1
    return data


def main(program, files="20000", seed="1", seconds="1e9"):
    draw, end = small.Draw(int(seed)), time.monotonic() + float(seconds)
    runner, seen, count = small.Runner(program), collections.Counter(), 0
    first = list(made_by_hand())
    while count < int(files) and time.monotonic() < end:
        text = small.archive(draw, 6)
        todo, first = first or [text] * 12, []
        for data in todo:
            for _ in range(draw.choice([0, 1, 1, 1, 2, 3, 5]) if data is text else 0):
                data = edit(draw, data)
            found, kind = difference(runner, draw, data)
            if found:
                data = shorter(runner, data, found[0])
                print(f"DIFFERENCE {found}\n---- {data}\n{data.decode('latin-1')}")
                runner.close()
                return 1
            count += 1
            seen[kind] += 1
    print(f"seed {seed}: {count} files, {runner.runs} runs of the program")
    for told, number in sorted(seen.items()):
        print(f"  {told}: {number}")
    runner.close()
    return 0


sys.exit(main(*sys.argv[1:]))

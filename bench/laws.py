#!/usr/bin/env python3
"""Lists the laws: public functions that do nothing, whose contract is a proved fact about the definitions. docs/LAWS.md is what
this prints.
Usage: laws.py [--check]    --check ends with a fault where docs/LAWS.md is not what it prints"""
import os
import re
import sys
import textwrap

TOP = os.path.normpath(os.path.join(os.path.dirname(os.path.abspath(__file__)), ".."))
LAW = re.compile(r"((?:^ *///.*\n)*)^pub fn (\w+)\(\)\s*\n?\s*ensures", re.M)
HEAD = """# Laws

A law is a public function that does nothing: its contract is a fact about the definitions, proved for all of them. Crates above call it to use
the fact. This page is made by `bench/laws.py` from the comments above the functions.
"""


def laws_of(crate):
    for folder, _, files in sorted(os.walk(f"{TOP}/crates/{crate}/src")):
        for name in sorted(files):
            with open(f"{folder}/{name}", encoding="utf-8") as it:
                for words, law in LAW.findall(it.read()):
                    yield law, name, " ".join(line.strip()[3:].strip() for line in words.strip().split("\n")).removeprefix("A law: ")


def page():
    crates = [line.split(":")[0] for line in open(f"{TOP}/crates.txt", encoding="utf-8") if ":" in line and not line.startswith("#")]
    lines = [HEAD]
    for crate in crates:
        laws = list(laws_of(crate))
        if laws:
            lines.append(f"## {crate}\n")
            for law, name, words in laws:
                lines += textwrap.wrap(f"- `{law}` (`src/{name}`): {words[:1].upper()}{words[1:]}", 150, subsequent_indent="  ", break_on_hyphens=False)
            lines.append("")
    return "\n".join(lines)


if sys.argv[1:] == ["--check"]:
    with open(f"{TOP}/docs/LAWS.md", encoding="utf-8") as it:
        if it.read() != page():
            sys.exit("docs/LAWS.md is old: bench/laws.py > docs/LAWS.md")
else:
    print(page(), end="")

#!/usr/bin/env python3
"""Holds docs/THEOREM.md against the sources. A link [`NAME`] goes to the line that defines NAME, or the field of a record, or the
clause of a function. Each sentence has a link, each clause of the top call is linked, and what the sentences of the theorem
link is reached by its clauses, but for laws. The last table counts the definitions that its links reach; there are no more of
them, and they have no more lines, than GOALS says, and no two of one name are among them.
Usage: theorem.py [--write]    --write puts in the lines and the counts of today; what else is wrong is told"""
import os
import re
import sys
from typing import Iterator

from definitions import TOP, TOP_CALL, all_reached, load

PAGE = f"{TOP}/docs/THEOREM.md"
SOURCE, CALL = TOP_CALL
WITH_LIMITS = f"{CALL}_with"
# What stands behind this is no part of the theorem, so it may name what no clause reaches.
OUTSIDE = "## Not in the theorem"
USED = re.compile(r"\[`([^`\]]+)`\](?![:(])")
LINK = re.compile(r"^\[`([^`\]]+)`\]: \.\./(\S+?)#L(\d+)$")
ROW = re.compile(r"^(\| .* \| )([\d,]+)( \|)$")
CLAUSE = re.compile(r"^ *ensures (\w+) \{")
# What a printed line rests on: the most definitions that a row of the table may have, and the most lines of these without
# comments, by how the row begins. The lines are those of today, and only ever lowered: 1,300 is wanted for all commands.
GOALS = {"| `strong` |": (160, 539), "| all of these": (400, 1359)}


def lines_of(path: str) -> list[str]:
    with open(f"{TOP}/{path}", encoding="utf-8") as it:
        return it.read().split("\n")


def line_of(path: str, name: str) -> int | None:
    """The line of a file that defines a name, if one does."""
    if not os.path.isfile(f"{TOP}/{path}"):
        return None
    outer, _, inner = name.partition(".")
    lines = lines_of(path)
    if path.endswith(".antt"):
        start, member = load(path).lines.get(outer), re.compile(rf"^ +(?:pub )?{re.escape(inner)} :")
        ends = re.compile(r"\S")
    else:
        head = re.compile(rf" *(?:pub )?(?:const )?fn {re.escape(outer)}\b")
        start = next((number for number, line in enumerate(lines, 1) if head.match(line)), None)
        member, ends = re.compile(rf"^ *ensures {re.escape(inner)} \{{"), re.compile(r" *\{")
    if start is None or not inner:
        return start
    for number, line in enumerate(lines[start:], start + 1):
        if member.match(line):
            return number
        if ends.match(line):
            return None
    return None


def clauses_of(function: str) -> list[str]:
    """The names of the clauses of a function of the top call's file."""
    start = line_of(SOURCE, function)
    found = []
    for line in lines_of(SOURCE)[start:] if start else []:
        if line.startswith("{"):
            break
        found += CLAUSE.findall(line)
    return found


def items_of(lines: list[str]) -> Iterator[tuple[int, str]]:
    """The items of lists, each with the number of its first line."""
    number, text = 0, ""
    for at, line in enumerate([*lines, ""], 1):
        if text and line.startswith("  "):
            text += " " + line.strip()
            continue
        if text:
            yield number, text
        number, text = (at, line) if re.match(r"(?:-|\d+\.) ", line) else (0, "")


def starts_of(text: str, links: dict[str, tuple[str, int]]) -> list[tuple[str, str]]:
    """The definitions that a text links, a field for its record."""
    named = [(links[name][0], name.partition(".")[0]) for name in USED.findall(text) if name in links]
    return [(path, name) for path, name in named if path.endswith(".antt") and name in load(path).lines]


def count_lines(reached: dict[tuple[str, str], int]) -> int:
    """How many lines these definitions have, without comments and empty lines."""
    return sum(len(load(path).bodies[name].splitlines()) for path, name in reached)


def names_twice(starts: list[tuple[str, str]]) -> Iterator[str]:
    """The names that two of the definitions have which these reach."""
    homes: dict[str, set[str]] = {}
    for path, name in all_reached(starts):
        homes.setdefault(name, set()).add(path)
    yield from (f"{name} has two meanings among what must be believed: {', '.join(sorted(paths))}" for name, paths in sorted(homes.items()) if len(paths) > 1)


def faults_of(lines: list[str], links: dict[str, tuple[str, int]]) -> Iterator[str]:
    """What is wrong, but for lines and counts that changed."""
    text = "\n".join(lines)
    used = set(USED.findall(text))
    yield from (f"[`{name}`] has no link" for name in sorted(used - set(links)))
    yield from (f"[`{name}`] is linked and not used" for name in sorted(set(links) - used))
    for number, item in items_of(lines):
        if not USED.search(item) and "](" not in item:
            yield f"line {number}: a sentence without a link"
        if re.search(r"[.!?] [A-Z]", item.partition(" ")[2]):
            yield f"line {number}: more than one sentence"
    if clauses_of(CALL) != clauses_of(WITH_LIMITS):
        yield f"{CALL} and {WITH_LIMITS} have not the same clauses"
    yield from (f"clause {clause} of {CALL} is not linked" for clause in clauses_of(CALL) if f"{CALL}.{clause}" not in used)
    reached = all_reached([TOP_CALL, (SOURCE, WITH_LIMITS)])
    for path, name in starts_of(text.partition(OUTSIDE)[0], links):
        if (path, name) not in reached:
            yield f"[`{name}`] is not reached by the clauses of {CALL}"


def main(words: list[str]) -> int:
    if words not in ([], ["--write"]):
        sys.exit(__doc__)
    with open(PAGE, encoding="utf-8") as it:
        lines = it.read().split("\n")
    links = {said[1]: (said[2], int(said[3])) for said in map(LINK.match, lines) if said}
    wrong, changed = [], []
    for at, line in enumerate(lines):
        said, row = LINK.match(line), ROW.match(line)
        if said:
            number = line_of(said[2], said[1])
            if number is None:
                wrong.append(f"{said[2]} has no {said[1]}")
            elif number != int(said[3]):
                changed.append(f"{said[1]} stands at line {number} of {said[2]}, not at {said[3]}")
                lines[at] = line.replace(f"#L{said[3]}", f"#L{number}")
        elif row:
            reached = all_reached(starts_of(line, links) or [TOP_CALL])
            count = f"{len(reached):,}"
            if count != row[2]:
                changed.append(f"line {at + 1}: {count} definitions, not {row[2]}")
                lines[at] = f"{row[1]}{count}{row[3]}"
            for begin, (most, most_lines) in GOALS.items():
                if line.startswith(begin):
                    wrong += [f"line {at + 1}: more than {most} definitions"] if len(reached) > most else []
                    size = count_lines(reached)
                    wrong += [f"line {at + 1}: {size} lines of definitions, more than {most_lines}"] if size > most_lines else []
                    wrong += names_twice(starts_of(line, links))
    if not wrong:
        wrong += faults_of(lines, links)
    if words and changed:
        with open(PAGE, "w", encoding="utf-8") as it:
            it.write("\n".join(lines))
        print(f"{len(changed)} lines of docs/THEOREM.md were written anew")
        changed = []
    told = [*wrong, *changed, *(["bench/theorem.py --write puts in lines and counts"] if changed else [])]
    print("\n".join(told) or f"docs/THEOREM.md: {len(links)} links stand")
    return 1 if wrong or changed else 0


if __name__ == "__main__":
    sys.exit(main(sys.argv[1:]))

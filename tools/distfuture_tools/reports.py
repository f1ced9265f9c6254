"""Reports of the program, read line by line: that of `strong` over Debian has 265 MB.

A report is YAML in lines of a fixed shape. A key at the margin begins a section, `  - ` an entry of it; the names of an
entry's list stand on lines of their own behind six spaces.
"""
from dataclasses import dataclass, field
from typing import Iterable, Iterator, TextIO

from .command import Fault

ITEM = '      - "'
CLASS = '      - class: "'


@dataclass
class Entry:
    """An entry of a section. A name that stands alone is the key `package` of an entry without items."""
    section: str
    keys: dict[str, str] = field(default_factory=dict)
    items: list[str] = field(default_factory=list)
    classes: list[tuple[str, str]] = field(default_factory=list)    # each with its example

    @property
    def subject(self) -> str:
        """What the entry is about: a package, a cluster or a new name."""
        return next(iter(self.keys.values()))


class Report:
    """The head of a report, and its entries one after another."""

    def __init__(self, file: TextIO) -> None:
        self.lines: Iterator[str] = iter(file)
        self.kind = self.head_value("report").strip('"')
        self.head: dict[str, int] = {}

    def head_value(self, key: str) -> str:
        line = next(self.lines, "")
        front, _, value = line.rstrip("\n").partition(": ")
        if front != key:
            raise Fault(f"this is no report: its first line is {line[:60]!r}")
        return value

    def of_kind(self, *kinds: str) -> "Report":
        if self.kind not in kinds:
            raise Fault(f"this is a report of {self.kind}, and one of {' or '.join(kinds)} is needed")
        return self

    def __iter__(self) -> Iterator[Entry]:
        return entries_of(self.lines, self.head)


def entries_of(lines: Iterable[str], head: dict[str, int]) -> Iterator[Entry]:
    """The entries of some lines; numbers at the margin go into the head."""
    section, entry = "", None
    for line in lines:
        if line.startswith(ITEM) and entry:
            entry.items.append(line[9:-2])
        elif line.startswith("  - "):
            if entry:
                yield entry
            entry = entry_of(section, line)
        elif line.startswith(CLASS) and entry:
            entry.classes.append((line[len(CLASS):-2], ""))
        elif line.startswith('        example: "') and entry:
            entry.classes[-1] = (entry.classes[-1][0], line[18:-2])
        elif line.startswith("    ") and entry:
            key, _, value = line.strip().partition(":")
            if value:
                entry.keys[key] = value.strip().strip('"')
        else:
            if entry:
                yield entry
            section, value = line.rstrip("\n").split(":", 1)
            entry = None
            if value.strip().isdigit():
                head[section] = int(value)
    if entry:
        yield entry


def entry_of(section: str, line: str) -> Entry:
    text = line[4:].rstrip("\n")
    if text.startswith('"'):
        return Entry(section, {"package": text.strip('"')})
    key, _, value = text.partition(": ")
    return Entry(section, {key: value.strip('"')})


def open_report(path: str, *kinds: str) -> tuple[TextIO, Report]:
    """The open file of a report, and what it says; kinds: those that are wanted, or any."""
    file = open(path, encoding="utf-8")
    try:
        report = Report(file)
        return file, report.of_kind(*kinds) if kinds else report
    except (Fault, UnicodeDecodeError) as fault:
        file.close()
        raise Fault(f"{path}: {fault}") from fault


def name_of(label: str) -> str:
    """The name of a package that a report writes as NAME=VERSION."""
    return label.partition("=")[0]


def version_of(label: str) -> str:
    return label.partition("=")[2]

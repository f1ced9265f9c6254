"""What two reports of one kind say differently, read side by side: neither is kept in memory."""
import argparse
from collections import Counter
from typing import Iterable, Iterator, NamedTuple

from .command import DONE, FOUND, Fault, parser_of
from .progress import counted
from .reports import Entry, Report, name_of, open_report, version_of
from .versions import KEY

SECTIONS = {
    "strong": ("uninstallable", "strong", "undecided", "undecided_pairs"),
    "outdated": ("outdated", "undecided"),
    "challenged": ("uninstallable", "challenged", "undecided", "undecided_classes"),
    "classes": ("clusters", "names"),
}


class Row(NamedTuple):
    """What a report says of one subject in one section; rows come in the order of sections and subjects."""
    section: int
    subject: str
    items: frozenset[str]

    def place(self) -> tuple[int, str, object]:
        return self.section, name_of(self.subject), KEY(version_of(self.subject))


def items_of(entry: Entry, with_versions: bool) -> set[str]:
    """The names of an entry's lists. A version class counts where versions do."""
    if with_versions:
        front = f"{entry.keys['class']}: " if "class" in entry.keys else ""
        return {front + item for item in entry.items} | {f"class {text}" for text, _ in entry.classes}
    return {name_of(item) for item in entry.items}


def rows_of(report: Report, with_versions: bool) -> Iterator[Row]:
    """The rows of a report. The impact sets are its strong dependencies turned round, and are passed over."""
    sections = SECTIONS[report.kind]
    held: Row | None = None
    for entry in report:
        if entry.section not in sections:
            continue
        subject = entry.subject if with_versions else name_of(entry.subject)
        row = Row(sections.index(entry.section), subject, frozenset(items_of(entry, with_versions)))
        if held and held[:2] == row[:2]:
            held = Row(*held[:2], held.items | row.items)
            continue
        if held:
            yield held
        held = row
    if held:
        yield held


class Change(NamedTuple):
    sign: str
    section: str
    subject: str
    item: str | None

    def line(self) -> str:
        return f"{self.sign} {self.section} {self.subject}" + (f": {self.item}" if self.item else "")


def paired(old: Iterator[Row], new: Iterator[Row]) -> Iterator[tuple[Row | None, Row | None]]:
    """The rows of one section and subject, side by side."""
    first, second = next(old, None), next(new, None)
    while first or second:
        takes_first = first and (not second or first.place() <= second.place())
        takes_second = second and (not first or second.place() <= first.place())
        yield first if takes_first else None, second if takes_second else None
        first, second = next(old, None) if takes_first else first, next(new, None) if takes_second else second


def changes(kind: str, pairs: Iterable[tuple[Row | None, Row | None]]) -> Iterator[Change]:
    for first, second in pairs:
        row = first or second
        section, empty = SECTIONS[kind][row.section], frozenset()
        before, after = first.items if first else empty, second.items if second else empty
        if not before | after and not (first and second):
            yield Change("+" if second else "-", section, row.subject, None)
        yield from (Change("-", section, row.subject, item) for item in sorted(before - after))
        yield from (Change("+", section, row.subject, item) for item in sorted(after - before))


DESCRIPTION = """\
Prints what NEW says that OLD does not (+), and the other way round (-): two reports of one kind, of two days or
two suites. Status 1: they differ."""


def parser() -> argparse.ArgumentParser:
    result = parser_of("diff", DESCRIPTION)
    result.add_argument("old", metavar="OLD")
    result.add_argument("new", metavar="NEW")
    result.add_argument("--versions", action="store_true", help="tell apart versions and classes too; else names alone")
    result.add_argument("--count", action="store_true", help="print only how many lines each section would have")
    return result


def main(words: list[str]) -> int:
    asked = parser().parse_args(words)
    old_file, old = open_report(asked.old, *SECTIONS)
    new_file, new = open_report(asked.new, *SECTIONS)
    with old_file, new_file:
        if old.kind != new.kind:
            raise Fault(f"one is a report of {old.kind}, the other of {new.kind}")
        pairs = counted(paired(rows_of(old, asked.versions), rows_of(new, asked.versions)), "comparing package")
        counts: Counter[tuple[str, str]] = Counter()
        for change in changes(old.kind, pairs):
            counts[change.section, change.sign] += 1
            if not asked.count:
                print(change.line())
    if asked.count:
        for section in SECTIONS[old.kind]:
            print(f"{section}: +{counts[section, '+']} -{counts[section, '-']}")
    return FOUND if counts else DONE

"""All that reports say of one package."""
import argparse
from typing import Iterator, NamedTuple

from .command import DONE, FOUND, parser_of
from .progress import counted
from .reports import Entry, name_of, open_report

# Of each section what it says of a package that stands for itself, that has a list, and that stands in a list.
ALONE = {"uninstallable": "can't be installed", "outdated": "is outdated: no future can install it", "undecided": "is undecided"}
HAS = {"strong": "can't be installed without", "impact": "is needed by", "undecided_pairs": "perhaps can't be installed without",
       "challenged": "breaks, at", "undecided_classes": "perhaps breaks, at"}
IS_IN = {"challenged": "is broken by", "undecided_classes": "is perhaps broken by"}


class Said(NamedTuple):
    """A title, and the lines behind it."""
    title: str
    lines: list[str]


class Asked:
    """A package by NAME or NAME=VERSION, and the cluster that it is known to be in."""

    def __init__(self, text: str) -> None:
        self.text = text
        self.cluster: str | None = None

    def is_meant(self, label: str) -> bool:
        return label == self.text or ("=" not in self.text and name_of(label) == self.text)

    def is_subject(self, entry: Entry) -> bool:
        return self.is_meant(entry.subject) or ("cluster" in entry.keys and entry.subject == self.cluster)

    def said_of(self, entry: Entry) -> Iterator[Said]:
        """What an entry says of the package."""
        member = next((item for item in entry.items if self.is_meant(item)), None)
        classes = [f"{text}, {example}" for text, example in entry.classes]
        if entry.section == "clusters":
            if member:
                source, self.cluster = entry.keys["source"], entry.subject
                yield Said(f"{member} is of the source {source}, which moves as a whole:", [it for it in entry.items if it != member])
                yield Said(f"later versions of {source} that relations tell apart, each with an example:", classes)
        elif entry.section == "names":
            if self.is_meant(entry.subject):
                yield Said(f"{entry.subject} is a name that dependencies ask for, and nobody has:", classes)
        else:
            if self.is_subject(entry):
                yield said_of_subject(entry)
            if member and entry.section in IS_IN:
                yield Said(f"{member} {IS_IN[entry.section]} {entry.subject} at {entry.keys['class']}", [])


def said_of_subject(entry: Entry) -> Said:
    if entry.section in ALONE:
        return Said(f"{entry.subject} {ALONE[entry.section]}", [])
    place = f" {entry.keys['class']}" if "class" in entry.keys else ""
    return Said(f"{entry.subject} {HAS[entry.section]}{place} ({len(entry.items)}):", entry.items)


DESCRIPTION = """\
Prints all that reports say of one package. Give a report of classes first, and what its source's uploads break
is found too. Status 1: they say nothing of it."""


def parser() -> argparse.ArgumentParser:
    result = parser_of("one", DESCRIPTION)
    result.add_argument("package", metavar="NAME[=VERSION]")
    result.add_argument("reports", metavar="REPORT", nargs="+")
    result.add_argument("--count", action="store_true", help="print the titles alone, without the lists")
    return result


def main(words: list[str]) -> int:
    arguments = parser().parse_args(words)
    asked, is_empty = Asked(arguments.package), True
    for path in arguments.reports:
        file, report = open_report(path)
        with file:
            for entry in counted(report, f"reading {path}, entry"):
                for said in asked.said_of(entry):
                    is_empty = False
                    print(said.title)
                    print("".join(f"    {line}\n" for line in said.lines if not arguments.count), end="")
    if is_empty:
        print(f"the reports say nothing of {asked.text}")
    return FOUND if is_empty else DONE

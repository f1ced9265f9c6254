"""The greatest entries of a report: impact sets, uploads that break most, clusters of most classes."""
import argparse
import heapq
from typing import Iterator

from .command import DONE, parser_of
from .progress import counted
from .reports import Report, open_report

Ranked = tuple[int, str]
Sources = dict[str, str]    # of clusters, by their first package


def impact_sets(report: Report, _: Sources) -> Iterator[Ranked]:
    """Each package with how many can't be installed without it."""
    return ((len(entry.items), entry.subject) for entry in report if entry.section == "impact")


def breaking_classes(report: Report, sources: Sources) -> Iterator[Ranked]:
    """Each class of later versions with how many packages it breaks."""
    its = (entry for entry in report if entry.section == "challenged")
    return ((len(entry.items), f"{sources.get(entry.subject, entry.subject)} at {entry.keys['class']}") for entry in its)


def numbers_of_classes(report: Report, _: Sources) -> Iterator[Ranked]:
    """Each cluster and new name with how many classes of versions relations tell apart."""
    return ((len(entry.classes), entry.keys.get("source", entry.subject)) for entry in report)


def sources_of(path: str) -> Sources:
    file, report = open_report(path, "classes")
    with file:
        return {entry.subject: entry.keys["source"] for entry in report if entry.section == "clusters"}


RANKS = {"strong": impact_sets, "challenged": breaking_classes, "classes": numbers_of_classes}
TITLES = {"strong": "packages that can't be installed without", "challenged": "packages that are broken by",
          "classes": "classes of later versions of"}


def greatest(report: Report, count: int, sources: Sources) -> list[Ranked]:
    """The greatest first; equal ones in the order of their names."""
    ranked = counted(RANKS[report.kind](report, sources), f"reading {report.kind}")
    return heapq.nsmallest(count, ranked, key=lambda it: (-it[0], it[1]))


DESCRIPTION = """\
Prints the greatest entries of a report: of strong the impact sets, of challenged the uploads that break the
most packages, of classes the sources with the most classes of later versions."""


def parser() -> argparse.ArgumentParser:
    result = parser_of("top", DESCRIPTION)
    result.add_argument("report", metavar="REPORT")
    result.add_argument("-n", "--number", metavar="N", type=int, default=10, help="how many (default 10)")
    result.add_argument("--classes", metavar="REPORT", help="name the clusters of a report of challenged by their sources, as this report has them")
    return result


def main(words: list[str]) -> int:
    asked = parser().parse_args(words)
    file, report = open_report(asked.report, *RANKS)
    with file:
        found = greatest(report, asked.number, sources_of(asked.classes) if asked.classes else {})
    print(TITLES[report.kind])
    width = max((len(str(count)) for count, _ in found), default=0)
    for count, subject in found:
        print(f"{count:>{width}} {subject}")
    return DONE

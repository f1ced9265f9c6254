"""Reads a Packages file and the reports on it into the shards of a site, and keeps what the overview shows."""
import contextlib
import heapq
import re
from dataclasses import dataclass, field
from typing import Iterator, NamedTuple

from ..archive import packages_of
from ..command import Fault
from ..progress import counted
from ..reports import Entry, name_of, open_report, version_of
from ..uploads import Cluster, cluster_of
from ..versions import KEY
from .shards import Names, Shards, script_text

GREATEST = 20
PACKAGE_SHARE, SOURCE_SHARE = 200, 500
DESCRIPTION = re.compile(r"^Description: *(.*)$", re.MULTILINE)


class Row(NamedTuple):
    """What of a stanza the site shows."""
    label: str
    source: str
    architecture: str
    description: str


class Broken(NamedTuple):
    """A class of later versions of a source that breaks packages, or perhaps does."""
    cluster: str
    versions: str
    example: str
    packages: list[str]
    is_sure: bool


@dataclass
class Sums:
    """What the overview shows of the reports."""
    pairs: int = 0
    uninstallable: list[str] = field(default_factory=list)
    outdated: list[str] = field(default_factory=list)
    undecided: set[str] = field(default_factory=set)
    impact: list[tuple[int, str]] = field(default_factory=list)      # a heap of the greatest
    broken: list[Broken] = field(default_factory=list)

    def greatest_impact(self) -> list[tuple[int, str]]:
        return sorted(self.impact, key=lambda its: (-its[0], its[1]))

    def challenged(self) -> set[str]:
        """The packages that some upload breaks."""
        return {label for it in self.broken if it.is_sure for label in it.packages}


class Data:
    """The names and shards of a site."""

    def __init__(self, rows: list[Row], folder: str) -> None:
        self.packages = Names(row.label for row in rows)
        self.sources = Names(sorted({row.source for row in rows}))
        self.of_packages = Shards(folder, "packages", PACKAGE_SHARE)
        self.of_sources = Shards(folder, "sources", SOURCE_SHARE)
        self.packages.write(folder, "packages", PACKAGE_SHARE)
        self.sources.write(folder, "sources", SOURCE_SHARE)
        for number, row in enumerate(rows):
            about = [self.sources.number(row.source), row.architecture, row.description]
            self.of_packages.put(number, "about", script_text(about))

    def put(self, label: str, key: str, value: object) -> None:
        """A record of a package, by its label."""
        self.of_packages.put(self.packages.number(label), key, script_text(value))

    def put_list(self, label: str, key: str, labels: list[str]) -> None:
        self.of_packages.put(self.packages.number(label), key, self.packages.list_text(labels))

    def numbers(self, labels: list[str]) -> list[int]:
        return [self.packages.number(label) for label in labels]

    def write(self) -> None:
        self.of_packages.write()
        self.of_sources.write()


def rows_of(path: str) -> list[Row]:
    """The packages of a file by their names, and then their versions."""
    rows = []
    for package in counted(packages_of(path), f"reading {path}, stanza"):
        found = DESCRIPTION.search(package.text)
        rows.append(Row(package.label, package.source, package.architecture, found.group(1) if found else ""))
    if not rows:
        raise Fault(f"{path} has no stanza")
    return sorted(rows, key=lambda row: (name_of(row.label), KEY(version_of(row.label))))


def count_newest(rows: list[Row]) -> int:
    return len({name_of(row.label) for row in rows})


def entries(path: str, kind: str, packages: int) -> Iterator[Entry]:
    """The entries of a report on so many packages."""
    file, report = open_report(path, kind)
    with file:
        yield from counted(report, f"reading {kind}, entry")
        if report.head.get("packages") != packages:
            raise Fault(f"{path} is on {report.head.get('packages')} packages, and the archive has {packages}: it is of another one")


@contextlib.contextmanager
def of_this_archive(path: str) -> Iterator[None]:
    """A name in a report that the archive does not have is a fault."""
    try:
        yield
    except KeyError as error:
        raise Fault(f"{path} names {error.args[0]}, which the archive does not have") from error


def read_strong(found: Iterator[Entry], data: Data, sums: Sums) -> None:
    for entry in found:
        if entry.section == "strong":
            data.put_list(entry.subject, "needs", entry.items)
            sums.pairs += len(entry.items)
        elif entry.section == "impact":
            data.put_list(entry.subject, "impact", entry.items)
            remember(sums.impact, (len(entry.items), entry.subject))
        elif entry.section == "uninstallable":
            data.put(entry.subject, "uninstallable", 1)
            sums.uninstallable.append(entry.subject)
        elif entry.section == "undecided_pairs":
            data.put_list(entry.subject, "perhaps", entry.items)
            sums.undecided.add(entry.subject)
        elif entry.section == "undecided":
            data.put(entry.subject, "undecided", "installable")
            sums.undecided.add(entry.subject)


def remember(heap: list[tuple[int, str]], ranked: tuple[int, str]) -> None:
    """Keeps the greatest."""
    heapq.heappush(heap, ranked)
    if len(heap) > GREATEST:
        heapq.heappop(heap)


def read_outdated(found: Iterator[Entry], data: Data, sums: Sums) -> None:
    for entry in found:
        if entry.section == "outdated":
            data.put(entry.subject, "outdated", 1)
            sums.outdated.append(entry.subject)
        elif entry.section == "undecided":
            data.put(entry.subject, "undecided_outdated", 1)
            sums.undecided.add(entry.subject)


def read_challenged(found: Iterator[Entry], sums: Sums) -> None:
    for entry in found:
        if entry.section in ("challenged", "undecided_classes"):
            is_sure = entry.section == "challenged"
            sums.broken.append(Broken(entry.subject, entry.keys["class"], entry.keys["example"], entry.items, is_sure))
            sums.undecided.update(() if is_sure else entry.items)
        elif entry.section == "undecided":
            sums.undecided.add(entry.subject)


class Clusters:
    """The clusters of a report of classes, with the classes of each."""

    def __init__(self, found: Iterator[Entry]) -> None:
        self.by_label: dict[str, Cluster] = {}
        self.classes: dict[str, list[tuple[str, str]]] = {}
        for entry in found:
            if entry.section == "clusters":
                self.by_label[entry.subject] = cluster_of(entry)
                self.classes[entry.subject] = entry.classes

    def source(self, label: str) -> str:
        return self.by_label[label].source


def write_broken(clusters: Clusters, data: Data, sums: Sums) -> None:
    """What breaks each package, and what each class of each source breaks."""
    of_package: dict[str, list[tuple]] = {}
    of_class: dict[tuple[str, str], list[list[int]]] = {}
    for it in sums.broken:
        source = data.sources.number(clusters.source(it.cluster))
        of_class.setdefault((it.cluster, it.versions), [[], []])[0 if it.is_sure else 1].extend(data.numbers(it.packages))
        for label in it.packages:
            of_package.setdefault(label, []).append((source, it.versions, it.example, int(it.is_sure)))
    for label, its in of_package.items():
        data.put(label, "broken_by", its)
    for label, cluster in clusters.by_label.items():
        classes = [(text, example, *of_class.get((label, text), ([], []))) for text, example in clusters.classes[label]]
        record = [cluster.top, data.numbers(cluster.members), classes]
        data.of_sources.put(data.sources.number(cluster.source), f"cluster {label}", script_text(record))

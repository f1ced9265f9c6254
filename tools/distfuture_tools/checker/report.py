"""The reports of accepted certificates, and of the classes of later versions, as the program prints them."""
from array import array
from typing import Iterable, Iterator, Sequence

from .certificate import Claimed, Subject
from .clusters import Classes, VersionClass
from .packages import Repository


class ReportWriter:
    """The lines of the report of an accepted certificate."""

    def __init__(self, subject: Subject, limit: int, claims: Sequence[Claimed]) -> None:
        self.subject, self.limit, self.claims = subject, limit, claims
        self.labels = [f'"{package.label}"' for package in subject.repository.packages]

    def lines(self) -> Iterator[str]:
        yield f'report: "{self.subject.kind}"'
        yield f"limit: {self.limit}"
        yield f"packages: {self.subject.packages}"
        yield from {"strong": self.strong, "outdated": self.outdated, "challenged": self.challenged}[self.subject.kind]()

    def strong(self) -> Iterator[str]:
        yield from self.plain("uninstallable", "x")
        yield from self.paired("strong", "on", (claim.first for claim in self.claims))
        yield from self.paired("impact", "of", self.impact())
        yield from self.plain("undecided", "y")
        yield from self.paired("undecided_pairs", "on", (claim.second for claim in self.claims))

    def outdated(self) -> Iterator[str]:
        yield from self.plain("outdated", "o")
        yield from self.plain("undecided", "y")

    def challenged(self) -> Iterator[str]:
        yield from self.plain("uninstallable", "x")
        yield from self.by_class("challenged", [claim.first for claim in self.claims])
        yield from self.plain("undecided", "y")
        yield from self.by_class("undecided_classes", [claim.second for claim in self.claims])

    def impact(self) -> list[array]:
        """For each package those that strongly depend on it, rising."""
        impact = [array("I") for _ in self.claims]
        for number, claim in enumerate(self.claims, 1):
            for other in claim.first:
                impact[other - 1].append(number)
        return impact

    def plain(self, key: str, letter: str) -> Iterator[str]:
        yield from section(key, (f"  - {label}" for label, claim in zip(self.labels, self.claims) if claim.letter == letter))

    def paired(self, key: str, inner: str, rows: Iterable[Sequence[int]]) -> Iterator[str]:
        yield from section(key, (line for label, row in zip(self.labels, rows) if row for line in
                                 (f"  - package: {label}", f"    {inner}:", *(f"      - {self.labels[other - 1]}" for other in row))))

    def by_class(self, key: str, rows: list[Sequence[tuple[int, int]]]) -> Iterator[str]:
        broken: dict[tuple[int, int], list[str]] = {}
        for label, pairs in zip(self.labels, rows):
            for pair in pairs:
                broken.setdefault(pair, []).append(label)
        yield from section(key, (line for pair in sorted(broken) for line in self.entry(*pair, broken[pair])))

    def entry(self, cluster: int, place: int, broken: list[str]) -> Iterator[str]:
        its = self.subject.space.classes.clusters[cluster - 1]
        yield f"  - cluster: {self.labels[its.members[0] - 1]}"
        yield f'    class: "{its.classes[place - 1].text}"'
        yield f'    example: "{its.classes[place - 1].example.decode()}"'
        yield "    breaks:"
        yield from (f"      - {label}" for label in broken)


def section(key: str, lines: Iterable[str]) -> Iterator[str]:
    """A key and its lines, or the key with an empty list."""
    is_empty = True
    for line in lines:
        if is_empty:
            yield f"{key}:"
        is_empty = False
        yield line
    if is_empty:
        yield f"{key}: []"


def classes_report(repository: Repository) -> Iterator[str]:
    """What `classes` prints of the newest version of each name."""
    classes = Classes(repository.newest())
    labels = [package.label for package in classes.repository.packages]
    yield 'report: "classes"'
    yield f"packages: {len(labels)}"
    yield from section("clusters", (line for cluster in classes.clusters for line in (
        f'  - cluster: "{labels[cluster.members[0] - 1]}"',
        f'    source: "{classes.repository.packages[cluster.members[0] - 1].source[0].decode()}"',
        f'    top: "{cluster.top.decode()}"', "    members:", *(f'      - "{labels[member - 1]}"' for member in cluster.members),
        *class_lines(cluster.classes))))
    yield from section("names", (line for name in classes.names for line in (f'  - name: "{name.name.decode()}"', *class_lines(name.classes))))


def class_lines(classes: list[VersionClass]) -> Iterator[str]:
    yield "    classes:"
    for version_class in classes:
        yield f'      - class: "{version_class.text}"'
        yield f'        example: "{version_class.example.decode()}"'

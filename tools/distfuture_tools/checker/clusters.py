"""Packages that move together, and the classes of their later versions (DEFINITIONS.md, "Source clusters, and classes of later versions")."""
from dataclasses import dataclass
from typing import Callable, Iterable, NamedTuple

from .packages import Package, Repository
from .relation import Atom
from .version import Key, just_above, key_of, without_rebuild


class VersionClass(NamedTuple):
    """Versions between two bounds, or equal to one: `point`, `between`, `above`, `below` or `any`."""
    kind: str
    low: bytes = b""
    high: bytes = b""

    @property
    def text(self) -> str:
        patterns = {"point": "= {0}", "between": ">> {0}, << {1}", "above": ">> {0}", "below": "<< {1}", "any": "any"}
        return patterns[self.kind].format(self.low.decode(), self.high.decode())

    @property
    def example(self) -> bytes:
        if self.kind == "point":
            return self.low
        if self.kind == "below":
            return b"~" * (len(self.high) + 1)
        return b"0" if self.kind == "any" else just_above(self.low, len(self.high))


@dataclass
class Cluster:
    """Its packages by their numbers from 1, which rise, the greatest version of them, and its classes."""
    members: list[int]
    top: bytes
    classes: list[VersionClass]


@dataclass
class NewName:
    """A name that dependencies ask for, and that nobody has or provides."""
    name: bytes
    classes: list[VersionClass]


def has_own_version(entry: Atom, package: Package) -> bool:
    return entry.bound is not None and entry.bound.key == package.key


def members_of_clusters(packages: list[Package]) -> list[list[int]]:
    """Packages of one source at equal versions of it, whose own versions are equal but for rebuilds."""
    clusters: dict[tuple[bytes, Key, Key], list[int]] = {}
    for number, package in enumerate(packages, 1):
        name, version = package.source
        clusters.setdefault((name, key_of(version), key_of(without_rebuild(package.text))), []).append(number)
    return list(clusters.values())


def greatest(texts: Iterable[bytes]) -> bytes:
    """The greatest version, in the text that is least in bytes."""
    its = sorted(texts)
    return max(its, key=key_of)


def cuts_of(texts: Iterable[bytes]) -> list[bytes]:
    """Rising versions, each in its text that is least in bytes."""
    least: dict[Key, bytes] = {}
    for text in sorted(texts):
        least.setdefault(key_of(text), text)
    return [least[key] for key in sorted(least)]


def classes_between(cuts: list[bytes], first: Callable[[bytes | None], VersionClass]) -> list[VersionClass]:
    """The classes at and between cuts; first: the class below the least cut, or that of all versions where there is none."""
    classes = [first(cuts[0] if cuts else None)]
    for cut, after in zip(cuts, [*cuts[1:], None]):
        classes += [VersionClass("point", cut), VersionClass("above", cut) if after is None else VersionClass("between", cut, after)]
    return classes


class Classes:
    """The clusters and the new names of a repository of newest versions, with their classes."""

    def __init__(self, repository: Repository) -> None:
        self.repository = repository
        self.bounds: dict[bytes, set[bytes]] = {}
        for atom in self.usable_atoms():
            if atom.bound is not None:
                self.bounds.setdefault(atom.name, set()).add(atom.bound.text)
        self.clusters = [self.cluster_of(members) for members in members_of_clusters(repository.packages)]
        self.names = [self.new_name(name) for name in self.new_names()]

    def usable_atoms(self) -> set[Atom]:
        atoms = {atom for package in self.repository.packages for item in package.items for atom in item}
        atoms |= {atom for package in self.repository.packages for atom in package.conflicts}
        return {atom for atom in atoms if self.repository.is_usable(atom)}

    def cluster_of(self, members: list[int]) -> Cluster:
        packages = [self.repository.packages[number - 1] for number in members]
        top = greatest(package.text for package in packages)
        names = {package.name for package in packages}
        names |= {entry.name for package in packages for entry in package.provides
                  if self.repository.is_usable(entry) and has_own_version(entry, package)}
        above = {text for name in names for text in self.bounds.get(name, ()) if key_of(text) > key_of(top)}
        first = lambda cut: VersionClass("above", top) if cut is None else VersionClass("between", top, cut)
        return Cluster(members, top, classes_between(cuts_of(above), first))

    def new_names(self) -> list[bytes]:
        asked = {atom.name for package in self.repository.packages for item in package.items for atom in item if self.repository.is_usable(atom)}
        taken = {package.name for package in self.repository.packages}
        provided = {entry.name for package in self.repository.packages for entry in package.provides if self.repository.is_usable(entry)}
        return sorted(asked - taken - provided)

    def new_name(self, name: bytes) -> NewName:
        first = lambda cut: VersionClass("any") if cut is None else VersionClass("below", b"", cut)
        return NewName(name, classes_between(cuts_of(self.bounds.get(name, ())), first))

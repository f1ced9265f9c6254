"""The space of futures: its variables and clauses in their order (CERTIFICATES.md, "Kinds outdated and challenged")."""
from typing import NamedTuple

from .clusters import Classes, VersionClass, has_own_version
from .limits import guard_variables, room_for_inputs
from .matching import Clause, Matcher, Needs, Required, essential_names, needs_of
from .packages import Repository
from .relation import Atom, Item
from .version import Key, key_of


class Now(NamedTuple):
    """The future is the archive as it is."""


class Installed(NamedTuple):
    """Present(r): the package is installed as it is."""
    package: int


class At(NamedTuple):
    """The cluster is at a class; both from 0."""
    cluster: int
    place: int


class New(NamedTuple):
    """The package is installed at a class of its cluster."""
    package: int
    cluster: int
    place: int


class Kept(NamedTuple):
    """So it is, and provides an entry of its Provides, from 0."""
    package: int
    cluster: int
    place: int
    entry: int


class Fresh(NamedTuple):
    """A package of a new name, from 0, is installed at a class."""
    name: int
    place: int


Meaning = Now | Installed | At | New | Kept | Fresh


class Against(NamedTuple):
    """A package as it is, and what it can't be installed with: a variable of another package."""
    package: int
    variable: int


class Law(NamedTuple):
    """A clause that says what a future is."""
    text: str


NO_CLUSTER = -1

Source = Needs | Against | Required | Law
Offer = tuple[int, Key | None, bytes | None]    # a variable, its version if any, and the name of its package (None: a new name's)


class Space:
    """Variables (from 1) with what they mean, and clauses with where they come from. The repository has one version of a name."""

    def __init__(self, repository: Repository, essential: bool) -> None:
        self.repository, self.classes = repository, Classes(repository)
        self.meanings: list[Meaning] = [Now()]
        self.offers: dict[bytes, list[Offer]] = {}        # what a name is offered by but packages as they are
        self.at: list[list[int]] = []                     # the variables At of each cluster, New of each package, Fresh of each new name
        self.new: dict[int, list[int]] = {}
        self.fresh: list[list[int]] = []
        self.kept: dict[int, list[int]] = {}              # the variables Kept of a variable New
        self.cluster_of: list[int] = [NO_CLUSTER] * (len(repository.packages) + 1)
        self.clauses: list[Clause] = []
        self.sources: list[Source] = []
        self.room = room_for_inputs()
        self.matcher = Matcher(repository)
        self.found: dict[Atom, list[int]] = {}
        self.make_variables()
        self.uses = [NO_CLUSTER, *map(self.used_by, self.meanings)]    # of each variable the cluster whose package it installs
        self.make_future_clauses()
        self.laws = len(self.clauses)
        self.make_demands()
        self.demands = len(self.clauses)
        self.make_now_clauses()
        self.now = len(self.clauses)
        if essential:
            self.make_required_names()

    # ---- variables

    def variable(self, meaning: Meaning) -> int:
        self.meanings.append(meaning)
        guard_variables(len(self.meanings))
        return len(self.meanings)

    def make_variables(self) -> None:
        for number in range(1, len(self.repository.packages) + 1):
            self.variable(Installed(number))
        for number, cluster in enumerate(self.classes.clusters):
            self.at.append([])
            for member in cluster.members:
                self.cluster_of[member] = number
                self.new[member] = []
            for place, version_class in enumerate(cluster.classes):
                self.at[-1].append(self.variable(At(number, place)))
                self.make_members(number, place, version_class)
        for number, name in enumerate(self.classes.names):
            self.fresh.append([])
            for place, version_class in enumerate(name.classes):
                self.fresh[-1].append(self.variable(Fresh(number, place)))
                self.offer(name.name, self.fresh[-1][-1], key_of(version_class.example), None)

    def make_members(self, cluster: int, place: int, version_class: VersionClass) -> None:
        version = key_of(version_class.example)
        for member in self.classes.clusters[cluster].members:
            package = self.repository.packages[member - 1]
            new = self.variable(New(member, cluster, place))
            self.new[member].append(new)
            self.kept[new] = []
            self.offer(package.name, new, version, package.name)
            for number, entry in enumerate(package.provides):
                if self.repository.is_usable(entry):
                    self.kept[new].append(self.variable(Kept(member, cluster, place, number)))
                    own = version if has_own_version(entry, package) else entry.bound.key if entry.bound else None
                    self.offer(entry.name, self.kept[new][-1], own, package.name)

    def used_by(self, meaning: Meaning) -> int:
        if isinstance(meaning, Installed):
            return self.cluster_of[meaning.package]
        return meaning.cluster if isinstance(meaning, New) else NO_CLUSTER

    def offer(self, name: bytes, variable: int, version: Key | None, package: bytes | None) -> None:
        self.offers.setdefault(name, []).append((variable, version, package))

    # ---- what matches an atom

    def later_matches(self, atom: Atom) -> list[Offer]:
        """The variables New, Kept and Fresh that match an atom, rising."""
        if not self.repository.is_usable(atom):
            return []
        its = self.offers.get(atom.name, [])
        return its if atom.bound is None else [it for it in its if it[1] is not None and atom.bound.allows(it[1])]

    def matches(self, atom: Atom) -> list[int]:
        """All variables that match an atom, rising."""
        if atom not in self.found:
            self.found[atom] = [number + 1 for number in self.matcher.of(atom)] + [it[0] for it in self.later_matches(atom)]
        return self.found[atom]

    def item_matches(self, item: Item) -> list[int]:
        if len(item) == 1:
            return self.matches(item[0])
        return sorted({variable for atom in item for variable in self.matches(atom)})

    # ---- clauses

    def add(self, source: Source, *literals: int) -> None:
        self.room.take(len(literals))
        self.sources.append(source)
        self.clauses.append(literals)

    def make_future_clauses(self) -> None:
        one_class, as_it_is = Law("a source is at one class at most"), Law("a package is as it is, or its source moves")
        moved, kept = Law("a new version comes where its source moves to it"), Law("what a new version provides comes with it")
        for cluster in self.at:
            self.exclude(one_class, cluster)
        # group 2 stands cluster by cluster behind all of group 1
        for cluster, variables in zip(self.classes.clusters, self.at):
            for place, at in enumerate(variables):
                for member in cluster.members:
                    new = self.new[member][place]
                    self.add(as_it_is, -(member + 1), -at)
                    self.add(moved, -new, at)
                    for variable in self.kept[new]:
                        self.add(kept, -variable, new)
        for variables in self.fresh:
            self.exclude(Law("a new name comes at one class at most"), variables)

    def exclude(self, law: Law, variables: list[int]) -> None:
        for place, first in enumerate(variables):
            for second in variables[place + 1:]:
                self.add(law, -first, -second)

    def make_demands(self) -> None:
        for needs, _ in needs_of(self.matcher):
            self.add(needs, -(needs.package + 1), *self.item_matches(needs.item))
        conflicts = self.matcher.conflicts(self.room)
        for number, package in enumerate(self.repository.packages, 1):
            others = {other + 1 for other in conflicts.get(number, ())}
            others |= {variable for atom in package.conflicts for variable, _, name in self.later_matches(atom) if name != package.name}
            for variable in sorted(others):
                self.add(Against(number, variable), -(number + 1), -variable)

    def make_now_clauses(self) -> None:
        today = Law("today nothing has moved")
        for variable in [it for its in self.at for it in its] + [it for its in self.fresh for it in its]:
            self.add(today, -1, -variable)

    def make_required_names(self) -> None:
        numbers = {package.name: number for number, package in enumerate(self.repository.packages, 1)}
        for name in essential_names(self.repository):
            self.add(Required(name), numbers[name] + 1, *self.new[numbers[name]])

    # ---- what futures are

    def future_clauses(self) -> list[Clause]:
        """Those that say what a future is: groups 1, 2, 3 and 6."""
        return self.clauses[:self.laws] + self.clauses[self.demands:self.now]

    def used_clusters(self, members: frozenset[int]) -> frozenset[int]:
        """The clusters of which a set uses a package, as it is or at a class."""
        return frozenset(map(self.uses.__getitem__, members)) - {NO_CLUSTER}

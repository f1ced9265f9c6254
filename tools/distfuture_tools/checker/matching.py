"""Which packages match an atom, and the relations of the present: the clauses of kind strong in their order (CERTIFICATES.md)."""
from typing import Iterable, NamedTuple

from . import limits
from .limits import Room, room_for_inputs
from .packages import Package, Repository
from .relation import Atom, Item, spelled

Clause = tuple[int, ...]


def matches(atom: Atom, package: Package, repository: Repository) -> bool:
    """By its name and version, or by a usable entry of Provides that has the name and, where a version is asked for, one that is right."""
    if not repository.is_usable(atom):
        return False
    name, _, bound = atom
    if package.name == name and (bound is None or bound.allows(package.key)):
        return True
    return any(entry.name == name and repository.is_usable(entry)
               and (bound is None or (entry.bound is not None and bound.allows(entry.bound.key))) for entry in package.provides)


class Needs(NamedTuple):
    """An item of a package's dependencies that it does not meet itself."""
    package: int
    item: Item

    def text(self, repository: Repository) -> str:
        return f"needs {repository.packages[self.package - 1].label}: {spelled(self.item)}"


class Apart(NamedTuple):
    """Two packages of one name or in conflict, by their numbers, which rise."""
    first: int
    second: int

    def text(self, repository: Repository) -> str:
        return f"apart {repository.packages[self.first - 1].label} {repository.packages[self.second - 1].label}"


class Required(NamedTuple):
    """An essential name, at mode essential."""
    name: bytes

    def text(self, _: Repository) -> str:
        return f"essential {self.name.decode()}"


Relation = Needs | Apart | Required


class Matcher:
    """The packages that match an atom, by their numbers from 1, found by name."""

    def __init__(self, repository: Repository) -> None:
        self.repository = repository
        self.by_name: dict[bytes, list[int]] = {}
        for number, package in enumerate(repository.packages, 1):
            for name in {package.name, *(entry.name for entry in package.provides)}:
                self.by_name.setdefault(name, []).append(number)
        self.known: dict[Atom, list[int]] = {}

    def of(self, atom: Atom) -> list[int]:
        if atom not in self.known:
            packages = self.repository.packages
            self.known[atom] = [number for number in self.by_name.get(atom.name, []) if matches(atom, packages[number - 1], self.repository)]
        return self.known[atom]

    def of_item(self, item: Item) -> list[int]:
        if len(item) == 1:
            return self.of(item[0])
        return sorted({number for atom in item for number in self.of(atom)})

    def conflicts(self, room: Room) -> dict[int, list[int]]:
        """Of each package the later ones that it is in conflict with. One may stand there twice, where each of both says so.

        Each pair is a clause. Where they are too many for the room, this is told before all are kept.
        """
        later: dict[int, list[int]] = {}
        count = 0
        for number, package in enumerate(self.repository.packages, 1):
            others = {other for atom in package.conflicts for other in self.of(atom)} - {number}
            for other in others:
                later.setdefault(min(number, other), []).append(max(number, other))
            count += len(others)
            while count > 2 * limits.CLAUSES:
                room.take(2)
        return later


def needs_of(matcher: Matcher) -> Iterable[tuple[Needs, list[int]]]:
    """The items of all packages, each with the packages that meet it. One that its own package meets asks for nothing."""
    for number, package in enumerate(matcher.repository.packages, 1):
        for item in package.items:
            found = matcher.of_item(item)
            if number not in found:
                yield Needs(number, item), found


def later_of_name(number: int, packages: list[Package]) -> range:
    """The later packages of the name of one; packages stand in the order of names."""
    end = number + 1
    while end <= len(packages) and packages[end - 1].name == packages[number - 1].name:
        end += 1
    return range(number + 1, end)


def essential_names(repository: Repository) -> list[bytes]:
    return sorted({package.name for package in repository.packages if package.essential})


class Present:
    """The clauses of the present, each with the relation that asks for it."""

    def __init__(self, repository: Repository, essential: bool) -> None:
        self.repository, self.clauses, self.relations = repository, list[Clause](), list[Relation]()
        self.room, matcher = room_for_inputs(), Matcher(repository)
        for needs, found in needs_of(matcher):
            self.add(needs, (-needs.package, *found))
        conflicts = matcher.conflicts(self.room)
        for first in range(1, len(repository.packages) + 1):
            for second in sorted({*conflicts.get(first, ()), *later_of_name(first, repository.packages)}):
                self.add(Apart(first, second), (-first, -second))
        if essential:
            for name in essential_names(repository):
                self.add(Required(name), tuple(number for number in matcher.by_name[name] if repository.packages[number - 1].name == name))

    def add(self, relation: Relation, clause: Clause) -> None:
        self.room.take(len(clause))
        self.relations.append(relation)
        self.clauses.append(clause)

"""What `explain` prints, and the tree of it: which alternatives each item leaves, and why none of them helps."""
from dataclasses import dataclass, field
from typing import Iterable, Iterator, NamedTuple

from .checker.matching import Matcher
from .checker.packages import Package, Repository
from .checker.relation import Atom, Item, RelationReader, spelled
from .command import Fault


class Needs(NamedTuple):
    package: str
    item: Item
    is_sure: bool


class Apart(NamedTuple):
    first: str
    second: str
    is_sure: bool


@dataclass
class Explanation:
    """A package and its answer; where it is `broken`, the relations that keep it out."""
    package: str
    answer: str
    needs: list[Needs] = field(default_factory=list)
    apart: list[Apart] = field(default_factory=list)


def read_explanation(lines: Iterable[str]) -> Explanation:
    """What `explain` or `check-explain` printed."""
    texts = [line.rstrip("\n") for line in lines]
    if len(texts) < 2 or not texts[0].startswith("package "):
        raise Fault("this is not what `explain` prints: its first line is `package NAME=VERSION`")
    found, reader = Explanation(texts[0][8:], texts[1]), RelationReader(bars=True)
    for text in texts[2:]:
        is_sure = not text.startswith("perhaps ")
        word, _, rest = text.removeprefix("perhaps ").partition(" ")
        if word == "needs" and ": " in rest:
            package, _, item = rest.partition(": ")
            found.needs.append(Needs(package, reader.read(item.encode())[0], is_sure))
        elif word == "apart" and rest.count(" ") == 1:
            found.apart.append(Apart(*rest.split(" "), is_sure))
        else:
            raise Fault(f"this is no line of an explanation: {text}")
    return found


class Cause(NamedTuple):
    """Where a branch ends: the name that the trouble comes down to, and what the trouble is."""
    root: str
    text: str


@dataclass
class Node:
    """A package, an item or an end of a branch, with what follows from it."""
    text: str
    kind: str                                     # package, item, missing, apart or seen
    is_sure: bool = True
    children: list["Node"] = field(default_factory=list)
    cause: Cause | None = None

    def walk(self) -> Iterator["Node"]:
        yield self
        for child in self.children:
            yield from child.walk()

    def causes(self) -> list[Cause]:
        """The ends of the branches, each once."""
        return list(dict.fromkeys(node.cause for node in self.walk() if node.cause))


class TreeMaker:
    """Makes trees of explanations over one archive."""

    def __init__(self, repository: Repository) -> None:
        self.repository, self.matcher = repository, Matcher(repository)
        self.by_label = {package.label: package for package in repository.packages}

    def package_of(self, label: str) -> Package:
        if label not in self.by_label:
            raise Fault(f"the archive has no {label}: is the explanation of another one?")
        return self.by_label[label]

    def tree(self, explanation: Explanation) -> Node:
        return self.package_node(explanation, explanation.package, set())

    def package_node(self, explanation: Explanation, label: str, seen: set[str]) -> Node:
        """A package with its items and exclusions; one that stands in the tree already is not taken apart again."""
        self.package_of(label)
        needs = [it for it in explanation.needs if it.package == label]
        if label in seen and needs:
            return Node(f"{label} (see above)", "seen")
        seen.add(label)
        node = Node(label, "package")
        node.children = [self.item_node(explanation, it, seen) for it in needs]
        node.children += [self.apart_node(it, label) for it in explanation.apart if label in (it.first, it.second)]
        return node

    def item_node(self, explanation: Explanation, needs: Needs, seen: set[str]) -> Node:
        node = Node(f"needs {spelled(needs.item)}", "item", needs.is_sure)
        labels = [self.repository.packages[number - 1].label for number in self.matcher.of_item(needs.item)]
        node.children = [self.package_node(explanation, label, seen) for label in labels]
        if not labels:
            node.children = [self.missing_node(needs.item)]
        return node

    def missing_node(self, item: Item) -> Node:
        there = "; ".join(dict.fromkeys(self.there(atom) for atom in item))
        names = " | ".join(dict.fromkeys(atom.name.decode() for atom in item))
        return Node(f"nothing serves this: {there}", "missing", cause=Cause(names, f"nothing serves {spelled(item)}: {there}"))

    def there(self, atom: Atom) -> str:
        """At which versions a name is there, or is provided."""
        name = atom.name.decode()
        its = [self.repository.packages[number - 1] for number in self.matcher.by_name.get(atom.name, [])]
        found = [package.text.decode() for package in its if package.name == atom.name]
        provided = [f"{package.label} provides it" + (f" at {entry.bound.text.decode()}" if entry.bound else " without a version")
                    for package in its for entry in package.provides if entry.name == atom.name]
        if not its:
            return f"no package is named {name} or provides it"
        return ", ".join([f"{name} is there at {' and '.join(found)}"] * bool(found) + provided)

    def apart_node(self, apart: Apart, label: str) -> Node:
        other = apart.second if label == apart.first else apart.first
        declared = [*self.declared(apart.first, apart.second), *self.declared(apart.second, apart.first)]
        reason = " and ".join(text for _, text in declared) or "two versions of one name"
        root = declared[0][0] if declared else label.partition("=")[0]
        cause = Cause(root, f"{apart.first} and {apart.second} exclude each other: {reason}")
        return Node(f"excludes {other}: {reason}", "apart", apart.is_sure, cause=cause)

    def declared(self, first: str, second: str) -> Iterator[tuple[str, str]]:
        """The conflicts of the first package that the second one matches: the first one's name, and how it is told."""
        package, other = self.package_of(first), self.package_of(second)
        for atom in package.conflicts:
            if self.number_of(other) in self.matcher.of(atom):
                yield package.name.decode(), f"declared by {package.name.decode()} as {atom.spelled()}"

    def number_of(self, package: Package) -> int:
        return next(number for number in self.matcher.by_name[package.name] if self.repository.packages[number - 1] is package)


def text_lines(node: Node, front: str = "") -> Iterator[str]:
    """A tree in lines."""
    if not front:
        yield node.text
    for place, child in enumerate(node.children, 1):
        is_last = place == len(node.children)
        yield f"{front}{'└─' if is_last else '├─'} {'' if child.is_sure else 'perhaps '}{child.text}"
        yield from text_lines(child, front + ("   " if is_last else "│  ")) if child.children else ()


COLOURS = {"package": "black", "item": "gray40", "missing": "red", "apart": "red", "seen": "gray"}


def quoted(text: str) -> str:
    return '"' + text.replace("\\", "\\\\").replace('"', '\\"') + '"'


def dot_lines(node: Node) -> Iterator[str]:
    """A tree as a graph for dot."""
    yield "digraph explanation {"
    yield "  rankdir=LR; node [shape=box, fontname=sans];"
    numbers = {id(it): number for number, it in enumerate(node.walk())}
    for it in node.walk():
        shape = "" if it.kind == "package" else ", shape=plaintext"
        yield f"  n{numbers[id(it)]} [label={quoted(it.text)}, fontcolor={COLOURS[it.kind]}{shape}];"
        for child in it.children:
            style = "" if child.is_sure else " [style=dashed]"
            yield f"  n{numbers[id(it)]} -> n{numbers[id(child)]}{style};"
    yield "}"

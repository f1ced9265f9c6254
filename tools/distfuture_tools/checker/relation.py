"""Relation fields by Debian Policy 7.1: items of alternatives, and the first fault of a value by its kind and place."""
import re
from typing import NamedTuple

from .version import HOLDS, Key, fault_of, key_of

WHITE = b" \t\n"
NAME = rb"[A-Za-z0-9][A-Za-z0-9+\-._]*"
IS_NAME = re.compile(NAME)
OPERATOR = rb"<<|<=|=|>=|>>|<|>"
ATOM = re.compile(rb"[ \t\n]*(%s)(?::(%s))?[ \t\n]*(?:\([ \t\n]*(%s)[ \t\n]*([^ \t\n(),|<=>]+)[ \t\n]*\)[ \t\n]*)?" % (NAME, NAME, OPERATOR))
OPERATORS = {b"<<": "<<", b"<=": "<=", b"=": "=", b">=": ">=", b">>": ">>", b"<": "<=", b">": ">="}


class Bound(NamedTuple):
    operator: str
    text: bytes
    key: Key

    def allows(self, version: Key) -> bool:
        return HOLDS[self.operator](version, self.key)


class Atom(NamedTuple):
    """One alternative of an item, or an entry of Provides: then the bound is its version."""
    name: bytes
    qualifier: bytes | None
    bound: Bound | None

    def spelled(self) -> str:
        """As reports print it."""
        qualifier = b":" + self.qualifier if self.qualifier else b""
        bound = f" ({self.bound.operator} {self.bound.text.decode()})" if self.bound else ""
        return (self.name + qualifier).decode() + bound


Item = tuple[Atom, ...]


def spelled(item: Item) -> str:
    return " | ".join(atom.spelled() for atom in item)


def is_name(text: bytes) -> bool:
    return IS_NAME.fullmatch(text) is not None


class RelationFault(Exception):
    """The kind of the first fault of a value, and its place from 0."""

    def __init__(self, kind: str, place: int) -> None:
        super().__init__(kind)
        self.kind, self.place = kind, place


class RelationReader:
    """Reads values of fields with bars (dependencies), without them, or of Provides. Texts of items that come again are read once."""

    def __init__(self, bars: bool = False, provides: bool = False) -> None:
        self.bars, self.provides = bars, provides
        self.known: dict[bytes, Item | None] = {}

    def read(self, value: bytes) -> tuple[Item, ...]:
        items = []
        for text in value.split(b","):
            if text not in self.known:
                self.known[text] = self.plain_item(text)
            item = self.known[text]
            if item is None:
                return SlowReader(value, self.bars, self.provides).items()
            if item:
                items.append(item)
        return tuple(items)

    def plain_item(self, text: bytes) -> Item | None:
        """An item that is written as most are, or None. It has no atoms where it is blank."""
        if not text.strip(WHITE):
            return ()
        atoms = [self.plain_atom(it) for it in (text.split(b"|") if self.bars else (text,))]
        return None if None in atoms else tuple(atoms)

    def plain_atom(self, text: bytes) -> Atom | None:
        match = ATOM.fullmatch(text)
        if match is None:
            return None
        name, qualifier, operator, version = match.groups()
        if operator is None:
            return Atom(name, qualifier, None)
        if fault_of(version) is not None or (self.provides and operator != b"="):
            return None
        return Atom(name, qualifier, Bound(OPERATORS[operator], version, key_of(version)))


class SlowReader:
    """Reads one value byte by byte, and raises its first fault."""

    def __init__(self, value: bytes, bars: bool, provides: bool) -> None:
        self.value, self.bars, self.provides = value, bars, provides
        self.at = 0

    def byte(self) -> int | None:
        return self.value[self.at] if self.at < len(self.value) else None

    def take(self, pattern: bytes) -> bytes:
        """The longest text of a pattern at this place, which is passed."""
        match = re.compile(pattern).match(self.value, self.at)
        taken = match.group() if match else b""
        self.at += len(taken)
        return taken

    def skip_white(self) -> None:
        self.take(rb"[ \t\n]*")

    def items(self) -> tuple[Item, ...]:
        items = []
        while True:
            self.skip_white()
            if self.byte() not in (None, ord(",")):
                items.append(self.item())
            if self.byte() is None:
                return tuple(items)
            self.at += 1

    def item(self) -> Item:
        atoms = [self.atom()]
        while self.bars and self.byte() == ord("|"):
            self.at += 1
            atoms.append(self.atom())
        if self.byte() not in (None, ord(",")):
            raise RelationFault("BarNotAllowed" if self.byte() == ord("|") else "Trailing", self.at)
        return tuple(atoms)

    def name(self) -> bytes:
        name = self.take(NAME)
        if not name:
            raise RelationFault("BadName", self.at)
        return name

    def atom(self) -> Atom:
        self.skip_white()
        name, qualifier, bound = self.name(), None, None
        if self.byte() == ord(":"):
            self.at += 1
            qualifier = self.name()
        self.skip_white()
        if self.byte() == ord("("):
            self.at += 1
            bound = self.bound()
            self.skip_white()
        return Atom(name, qualifier, bound)

    def bound(self) -> Bound:
        self.skip_white()
        at = self.at
        operator = OPERATORS.get(self.take(rb"[<=>]*"))
        if operator is None:
            raise RelationFault("BadOp", at)
        if self.provides and operator != "=":
            raise RelationFault("OpInProvides", at)
        self.skip_white()
        at = self.at
        text = self.take(rb"[^ \t\n(),|]*")
        fault = fault_of(text)
        if fault:
            raise RelationFault(f"BadVersion {fault}", at)
        self.skip_white()
        if self.byte() != ord(")"):
            raise RelationFault("Unclosed", self.at)
        self.at += 1
        return Bound(operator, text, key_of(text))

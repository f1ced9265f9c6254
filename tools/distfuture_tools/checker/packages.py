"""Packages files: stanzas (Debian Policy 5.1), the packages of a file, and its first fault by line and kind."""
from dataclasses import dataclass, field
from typing import Iterator

from .relation import WHITE, Atom, Item, RelationFault, RelationReader, is_name
from .version import Key, fault_of, key_of

BYTE_LIMIT, STANZA_LIMIT = 268435456, 200000
WANTED = frozenset(b"package version architecture source pre-depends depends conflicts breaks provides essential".split())

Fields = dict[bytes, tuple[bytes, int]]    # by their names in lower case: the value, and the line


class Refusal(Exception):
    """Why a file is refused, as the program says it: the exit status and the text on standard error."""

    def __init__(self, status: int, text: str) -> None:
        super().__init__(text)
        self.status, self.text = status, text


def bad_packages(line: int, kind: str) -> Refusal:
    return Refusal(3, f"bad packages at line {line}: {kind}")


def too_large(what: str) -> Refusal:
    return Refusal(8, f"too large: {what}")


@dataclass(slots=True)
class Package:
    name: bytes
    text: bytes                      # the version as it is written
    key: Key
    source: tuple[bytes, bytes]      # name and version
    items: tuple[Item, ...]          # those of Pre-Depends first
    conflicts: tuple[Atom, ...]      # and breaks
    provides: tuple[Atom, ...]
    essential: bool

    @property
    def label(self) -> str:
        return f"{self.name.decode('latin-1')}={self.text.decode('latin-1')}"


@dataclass
class Repository:
    """The packages of a file, in the order of their names and then their versions, and its architecture."""
    packages: list[Package]
    architecture: bytes | None

    def newest(self) -> "Repository":
        """The greatest version of each name."""
        after = [package.name for package in self.packages[1:]] + [b""]
        return Repository([package for package, name in zip(self.packages, after) if package.name != name], self.architecture)

    def is_usable(self, atom: Atom) -> bool:
        return atom.qualifier is None or atom.qualifier in (b"any", b"native") or atom.qualifier == self.architecture


def stanzas_of(data: bytes) -> Iterator[tuple[list[bytes], int]]:
    """The lines of each stanza, with the number of the first one."""
    lines = data.split(b"\n")
    if lines[-1] == b"":
        lines.pop()
    stanza: list[bytes] = []
    for number, line in enumerate(lines, 1):
        if line.strip(b" \t"):
            stanza.append(line)
        elif stanza:
            yield stanza, number - len(stanza)
            stanza = []
    if stanza:
        yield stanza, len(lines) + 1 - len(stanza)


@dataclass
class FieldNames:
    """The names of fields that came, each judged once."""
    known: dict[bytes, bytes | None] = field(default_factory=dict)

    def lower(self, name: bytes) -> bytes | None:
        """The name in lower case, or None where it is none."""
        if name not in self.known:
            is_right = name != b"" and name[0] not in b"#-" and all(33 <= byte <= 126 for byte in name)
            self.known[name] = name.lower() if is_right else None
        return self.known[name]


def fields_of(lines: list[bytes], first: int, names: FieldNames) -> Fields:
    """The fields that are wanted here. The first faulty line decides."""
    values: dict[bytes, list[bytes]] = {}
    places: dict[bytes, int] = {}
    last = None
    for number, line in enumerate(lines, first):
        if line[0] in b" \t":
            if last is None:
                raise bad_packages(number, "OrphanContinuation")
            values[last].append(line)
            continue
        name, colon, value = line.partition(b":")
        if not colon:
            raise bad_packages(number, "NoColon")
        last = names.lower(name)
        if last is None:
            raise bad_packages(number, "BadFieldName")
        if last in values:
            raise bad_packages(number, "DoubleField")
        values[last], places[last] = [value], number
    return {name: (b"\n".join(its).strip(WHITE), places[name]) for name, its in values.items() if name in WANTED}


def source_of(value: bytes | None, name: bytes, version: bytes) -> tuple[bytes, bytes] | None:
    """Name and version of the source, or None where the value is none."""
    if value is None:
        return name, version
    end = next((at for at, byte in enumerate(value) if byte in b" \t\n("), len(value))
    rest = value[end:].strip(WHITE)
    if not is_name(value[:end]):
        return None
    if not rest:
        return value[:end], version
    text = rest[1:-1].strip(WHITE)
    if len(rest) < 2 or rest[:1] != b"(" or rest[-1:] != b")" or fault_of(text):
        return None
    return value[:end], text


class PackageReader:
    """Makes packages of stanzas, and keeps the architecture of the file."""

    def __init__(self) -> None:
        self.architecture: bytes | None = None
        dependencies, conflicts = RelationReader(bars=True), RelationReader()
        self.readers = {"Pre-Depends": dependencies, "Depends": dependencies, "Conflicts": conflicts, "Breaks": conflicts,
                        "Provides": RelationReader(provides=True)}

    def package(self, fields: Fields, first: int) -> Package:
        absent = (None, first)
        name, name_line = fields.get(b"package", absent)
        if name is None or not is_name(name):
            raise bad_packages(name_line, "NoPackage" if name is None else "BadPackageName")
        text, text_line = fields.get(b"version", absent)
        if text is None:
            raise bad_packages(text_line, "NoVersion")
        fault = fault_of(text)
        if fault:
            raise bad_packages(text_line, f"BadVersionText {fault}")
        value, line = fields.get(b"source", absent)
        source = source_of(value, name, text)
        if source is None:
            raise bad_packages(line, "BadSource")
        self.take_architecture(*fields.get(b"architecture", absent))
        relations = {name: self.relations(name, fields) for name in self.readers}
        return Package(name, text, key_of(text), source, relations["Pre-Depends"] + relations["Depends"],
                       tuple(item[0] for item in relations["Conflicts"] + relations["Breaks"]),
                       tuple(item[0] for item in relations["Provides"]), fields.get(b"essential", absent)[0] == b"yes")

    def take_architecture(self, value: bytes | None, line: int) -> None:
        if value is None or value == b"all":
            return
        if not is_name(value):
            raise bad_packages(line, "BadArchitecture")
        if self.architecture is not None and value != self.architecture:
            raise bad_packages(line, "TwoArchitectures")
        self.architecture = value

    def relations(self, name: str, fields: Fields) -> tuple[Item, ...]:
        if name.lower().encode() not in fields:
            return ()
        value, line = fields[name.lower().encode()]
        try:
            return self.readers[name].read(value)
        except RelationFault as fault:
            raise bad_packages(line, f"{fault.kind} in {name} at {fault.place}") from fault


def read_packages(data: bytes) -> Repository:
    """The packages of a file. One name and equal versions may stand twice only where the packages are the same."""
    if len(data) > BYTE_LIMIT:
        raise too_large("Bytes")
    reader, names = PackageReader(), FieldNames()
    held: dict[tuple[bytes, Key], tuple[Package, int]] = {}
    for count, (lines, first) in enumerate(stanzas_of(data), 1):
        if count > STANZA_LIMIT:
            raise too_large("Stanzas")
        package = reader.package(fields_of(lines, first, names), first)
        twin = held.setdefault((package.name, package.key), (package, first))
        if twin[0] != package:
            raise bad_packages(first, f"Clash with line {twin[1]}")
    return Repository([held[key][0] for key in sorted(held)], reader.architecture)

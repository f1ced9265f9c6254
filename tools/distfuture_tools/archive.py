"""Packages files, by apt's reader: what of a stanza most tools need, and the whole stanza by python3-debian."""
import os
from dataclasses import dataclass
from typing import Any, Iterable, Iterator

import apt_pkg
from debian.deb822 import Packages, PkgRelation

from .command import BAD_INPUT, READ_FAULT, Fault
from .versions import compare

Relation = tuple[str, str | None, str | None]    # name, qualifier, version


@dataclass(frozen=True)
class Package:
    """A stanza: its name, version, source, and its text without the blank line behind it."""
    name: str
    version: str
    source: str
    architecture: str
    text: str

    @property
    def label(self) -> str:
        return f"{self.name}={self.version}"

    def stanza(self) -> Packages:
        return Packages(self.text)


def packages_of(path: str) -> Iterator[Package]:
    """The packages of a file, compressed or not, in its order. There is at least one: an empty file is a list that went wrong."""
    if not os.access(path, os.R_OK):
        raise Fault(f"{path} can't be read", READ_FAULT)
    is_empty = True
    try:
        with apt_pkg.TagFile(path) as file:
            for section in file:
                is_empty = False
                if "Files" in section:
                    raise Fault(f"{path} is a Sources file: take binary-ARCH/Packages", BAD_INPUT)
                source = section.get("Source", section["Package"]).split(" ")[0]
                yield Package(section["Package"], section["Version"], source, section.get("Architecture", "all"), str(section).strip("\n"))
    except KeyError as error:
        raise Fault(f"{path} is no Packages file: a stanza has no {error.args[0]}", BAD_INPUT) from error
    except (apt_pkg.Error, UnicodeDecodeError) as error:
        raise Fault(f"{path} is no Packages file: {error}", BAD_INPUT) from error
    if is_empty:
        raise Fault(f"{path} has no stanza", BAD_INPUT)


def newest(packages: Iterable[Package]) -> dict[str, Package]:
    """Of each name the greatest version."""
    found: dict[str, Package] = {}
    for package in packages:
        held = found.get(package.name)
        if held is None or compare(package.version, held.version) > 0:
            found[package.name] = package
    return found


def guard_architectures(first: Iterable[str], second: Iterable[str]) -> None:
    """Two archives are compared only where they are for one architecture."""
    its = [set(architectures) - {"all"} for architectures in (first, second)]
    if all(its) and its[0] != its[1]:
        raise Fault(f"one file is for {' '.join(sorted(its[0]))}, the other for {' '.join(sorted(its[1]))}")


def provides_of(stanza: Packages) -> list[Relation]:
    """The entries of Provides of a stanza."""
    value = stanza.get("Provides", "").strip()
    return [relation_of(group[0]) for group in PkgRelation.parse_relations(value)] if value else []


def relation_of(parsed: dict[str, Any]) -> Relation:
    version = parsed.get("version")
    return parsed["name"], parsed.get("archqual"), version[1] if version else None


def spelled(relation: Relation) -> str:
    name, qualifier, version = relation
    return name + (f":{qualifier}" if qualifier else "") + (f" (= {version})" if version else "")

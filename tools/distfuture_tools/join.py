"""Packages files of one suite and architecture as one file: components, updates, security updates."""
import argparse
import contextlib
import os
import sys
import tempfile
from typing import Iterable, Iterator, TextIO

import apt_pkg

from .archive import Package, packages_of
from .command import DONE, Fault, parser_of
from .progress import counted

RELATIONS = ("Source", "Architecture", "Pre-Depends", "Depends", "Conflicts", "Breaks", "Provides", "Essential")


def same_relations(first: Package, second: Package) -> bool:
    """Whether two stanzas of one name and version are one package."""
    one, other = apt_pkg.TagSection(first.text + "\n"), apt_pkg.TagSection(second.text + "\n")
    return all(one.get(field, "").split() == other.get(field, "").split() for field in RELATIONS)


class Joined:
    """Takes files one after another, and gives each package once."""

    def __init__(self) -> None:
        self.held: dict[tuple[str, str], tuple[Package, str]] = {}
        self.architecture: tuple[str, str] | None = None
        self.twice = 0

    def take(self, path: str) -> Iterator[Package]:
        """The packages of a file that did not come before."""
        for package in packages_of(path):
            self.look_at_architecture(package, path)
            held = self.held.setdefault((package.name, package.version), (package, path))
            if held[0] is package:
                yield package
            elif same_relations(held[0], package):
                self.twice += 1
            else:
                raise Fault(f"{package.label} is another package in {path} than in {held[1]}: these are not files of one suite")

    def look_at_architecture(self, package: Package, path: str) -> None:
        if package.architecture == "all":
            return
        if self.architecture is None:
            self.architecture = package.architecture, path
        if self.architecture[0] != package.architecture:
            first, of = self.architecture
            raise Fault(f"{path} is for {package.architecture}, and {of} for {first}: join files of one architecture")


def write(packages: Iterable[Package], file: TextIO) -> int:
    count = 0
    for count, package in enumerate(packages, 1):
        file.write(package.text + "\n\n")
    return count


@contextlib.contextmanager
def new_file(path: str | None) -> Iterator[TextIO]:
    """Standard output, or a file that takes its name only once it is whole."""
    if path is None:
        yield sys.stdout
        return
    folder = os.path.dirname(os.path.abspath(path))
    with tempfile.NamedTemporaryFile("w", encoding="utf-8", dir=folder, prefix=".new-", delete=False) as file:
        try:
            yield file
            file.flush()
            os.chmod(file.name, 0o644)
            os.replace(file.name, path)
        except BaseException:
            os.unlink(file.name)
            raise


DESCRIPTION = """\
Joins Packages files, compressed or not, of one suite and one architecture into one: main and contrib, a release
and its updates. What stands in several files stands once. Files of several architectures are refused, and so is
one name and version that is two packages."""


def parser() -> argparse.ArgumentParser:
    result = parser_of("join", DESCRIPTION)
    result.add_argument("files", metavar="FILE", nargs="+")
    result.add_argument("--output", metavar="FILE", help="write there, in place of standard output; it is whole or not there")
    return result


def main(words: list[str]) -> int:
    asked = parser().parse_args(words)
    joined = Joined()
    with new_file(asked.output) as file:
        count = write((package for path in asked.files for package in counted(joined.take(path), f"reading {path}, stanza")), file)
    print(f"{count} stanzas of {len(asked.files)} files, {joined.twice} stood twice", file=sys.stderr)
    return DONE

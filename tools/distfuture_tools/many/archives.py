"""The archives of a folder: each Packages file in it, with what its name says of suite and day, and its hash."""
import bz2
import gzip
import lzma
import os
import re
from contextlib import AbstractContextManager
from dataclasses import dataclass
from typing import BinaryIO, Iterator

from ..files import hash_of

OPENERS = {".xz": lzma.open, ".gz": gzip.open, ".bz2": bz2.open}
EXPANDED = 8            # a compressed list grows by less than that
HEAD = 1 << 16
DAY = re.compile(r"(\d{4})-?(\d\d)-?(\d\d)(?:T\d{6}Z)?")
IGNORED = re.compile(r"Packages|packages|lists?|txt|binary-.*")


@dataclass(frozen=True)
class Archive:
    """A Packages file of the folder."""
    name: str       # its path in the folder, without endings
    path: str
    hash: str
    suite: str
    day: str        # YYYY-MM-DD, or empty

    @property
    def megabytes(self) -> int:
        """At most so many has the list when it is not compressed."""
        return os.path.getsize(self.path) * (EXPANDED if ending_of(self.path) else 1) // 1_000_000 + 1


def ending_of(path: str) -> str:
    """The ending of a compressed file, or nothing."""
    ending = os.path.splitext(path)[1]
    return ending if ending in OPENERS else ""


def open_list(path: str) -> AbstractContextManager[BinaryIO]:
    return OPENERS.get(ending_of(path), open)(path, "rb")


def is_packages_file(path: str) -> bool:
    """Whether its first stanzas are those of packages."""
    try:
        with open_list(path) as file:
            return re.search(rb"^Package:", file.read(HEAD), re.MULTILINE) is not None
    except (OSError, EOFError, lzma.LZMAError):
        return False


def suite_and_day(name: str) -> tuple[str, str]:
    """What a path says: bookworm_2026-12-01, dists/sid/main/binary-amd64/Packages, 20261201T000000Z/trixie.packages."""
    parts = [part for part in re.split(r"[/_]|\.(?=packages$|list$|txt$)|(?<=Packages)\.", name) if part]
    if "dists" in parts:
        parts = parts[parts.index("dists") + 1:]
    days = [found for part in parts if (found := DAY.fullmatch(part))]
    rest = [part for part in parts if not DAY.fullmatch(part) and not IGNORED.fullmatch(part)]
    return "/".join(rest) or "-", "-".join(days[0].groups()) if days else ""


def files_below(folder: str, without: str) -> Iterator[str]:
    """The files below a folder that are not hidden, in the order of their paths; none of another folder that may be in it."""
    for place, folders, names in os.walk(folder):
        folders[:] = sorted(name for name in folders if not name.startswith(".") and os.path.abspath(os.path.join(place, name)) != without)
        yield from (os.path.join(place, name) for name in sorted(names) if not name.startswith("."))


def archive_of(path: str, folder: str) -> Archive:
    relative = os.path.relpath(path, folder).removesuffix(ending_of(path))
    name = relative.removesuffix(".packages").replace("/", "_")
    return Archive(name, os.path.abspath(path), hash_of(path), *suite_and_day(relative))

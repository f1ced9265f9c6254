"""From a list of an archive to checked reports under new names, with guards against what goes wrong at night."""
import argparse
import bz2
import datetime
import filecmp
import gzip
import lzma
import os
import shutil
import subprocess
import tempfile
import urllib.error
import urllib.request
from contextlib import AbstractContextManager
from typing import BinaryIO

from .command import DONE, FOUND, READ_FAULT, REFUSED, Fault, parser_of
from .program import add_program_option, program_or_fault, run
from .progress import Progress

KINDS = ("strong", "outdated", "challenged")
OPENERS = {".xz": lzma.open, ".gz": gzip.open, ".bz2": bz2.open}
APT_HELPER = "/usr/lib/apt/apt-helper"


# ---- the list

def fetch(source: str, folder: str, path: str) -> None:
    """Writes the list to a file, uncompressed: of apt (apt:SUITE/COMPONENT), of a mirror (a URL), or a file."""
    if source.startswith("apt:"):
        fetch_of_apt(source.removeprefix("apt:"), path)
        return
    local = source
    if source.startswith(("http://", "https://")):
        local = os.path.join(folder, os.path.basename(source))
        download(source, local)
    with open_list(local) as file, open(path, "wb") as out:
        try:
            shutil.copyfileobj(file, out)
        except (lzma.LZMAError, EOFError, gzip.BadGzipFile) as error:
            raise Fault(f"{source} is cut, or not what its name says: {error}") from error


def open_list(path: str) -> AbstractContextManager[BinaryIO]:
    return OPENERS.get(os.path.splitext(path)[1], open)(path, "rb")


def download(url: str, path: str) -> None:
    try:
        with Progress(f"fetching {url} ..."), urllib.request.urlopen(url, timeout=60) as answer, open(path, "wb") as out:
            shutil.copyfileobj(answer, out)
            wanted = answer.headers.get("Content-Length")
    except (urllib.error.URLError, TimeoutError) as error:
        raise Fault(f"{url}: {error}", READ_FAULT) from error
    if wanted and int(wanted) != os.path.getsize(path):
        raise Fault(f"{url}: {os.path.getsize(path)} bytes came of {wanted}", READ_FAULT)


def fetch_of_apt(place: str, path: str) -> None:
    """apt's own list of a suite and a component, of the machine's architecture or of a third word."""
    suite, component, *rest = place.split("/")
    architecture = rest[0] if rest else subprocess.run(["dpkg", "--print-architecture"], capture_output=True, text=True, check=True).stdout.strip()
    filters = ["Created-By: Packages", f"Component: {component}", f"Architecture: {architecture}"]
    files: set[str] = set()
    for key in ("Codename", "Suite"):
        words = ["apt-get", "indextargets", "--format", "$(FILENAME)", *filters, f"{key}: {suite}"]
        files |= set(subprocess.run(words, capture_output=True, text=True, check=True).stdout.split("\n")) - {""}
    if len(files) != 1:
        told = f"apt has {len(files) or 'no'} lists of {suite}/{component} for {architecture}"
        raise Fault(f"{told}; `apt-get update` gets those of its sources.list, `join` joins several", READ_FAULT)
    with open(path, "wb") as out:
        if subprocess.run([APT_HELPER, "cat-file", files.pop()], stdout=out, check=False).returncode:
            raise Fault(f"apt's list of {suite}/{component} could not be read", READ_FAULT)


def count_stanzas(path: str, field: bytes = b"Package:") -> int:
    """How many stanzas have a field."""
    with open_list(path) as file:
        return sum(line.startswith(field) for line in file)


def guard_list(path: str, least: int, folder: str) -> int:
    """How many stanzas a list has. One that is empty, or has lost half of what the latest one in the folder had, is no list of today."""
    count = count_stanzas(path)
    if count < max(1, least):
        raise Fault(f"the list has {count} stanzas: at least {max(1, least)} are wanted")
    if count_stanzas(path, b"Files:"):
        raise Fault("the list is a Sources file: take binary-ARCH/Packages")
    earlier = sorted(name for name in os.listdir(folder) if name.endswith(".packages"))
    if earlier:
        before = count_stanzas(os.path.join(folder, earlier[-1]))
        if 2 * count < before:
            raise Fault(f"the list has {count} stanzas, and {earlier[-1]} has {before}: it may be cut")
    return count


# ---- reports

class Night:
    """A run: its files take their names only once all of them are there and checked."""

    def __init__(self, program: str, folder: str, name: str, options: list[str]) -> None:
        self.program, self.folder, self.name, self.options = program, folder, name, options

    def path_of(self, ending: str) -> str:
        return os.path.join(self.folder, f"{self.name}.{ending}")

    def guard_names(self, kinds: list[str]) -> None:
        for ending in ["packages", *(f"{kind}.{part}" for kind in kinds for part in ("report", "cert"))]:
            if os.path.exists(self.path_of(ending)):
                raise Fault(f"{self.path_of(ending)} is there already: give another --name")

    def sweep(self, work: str, kind: str) -> int:
        """Makes a report with its certificate, and lets another process check it. Both statuses, 0 and 1, are good ones."""
        packages, cert, report, checked = (os.path.join(work, name) for name in ("packages", f"{kind}.cert", f"{kind}.report", "checked"))
        status = run(self.program, [kind, *self.options, packages, cert], report)
        again = run(self.program, ["check", packages, cert], checked)
        if again != status or not filecmp.cmp(report, checked, shallow=False):
            raise Fault(f"{kind}: the certificate does not give the report", REFUSED)
        os.unlink(checked)
        print(f"{kind}: status {status}, report {os.path.getsize(report)} bytes, certificate {os.path.getsize(cert)} bytes, checked", flush=True)
        return status

    def keep(self, work: str) -> None:
        for name in sorted(os.listdir(work)):
            os.replace(os.path.join(work, name), self.path_of(name))


DESCRIPTION = """\
Makes reports of an archive's list of today, checks them, and keeps list, certificates and reports in FOLDER
under the names of today. SOURCE is a Packages file (.xz, .gz, .bz2 or plain), a URL of one, or
apt:SUITE/COMPONENT for apt's own. Nothing takes its name before all is checked, so what is there is whole.
Status 1: something is undecided."""


def parser() -> argparse.ArgumentParser:
    result = parser_of("nightly", DESCRIPTION)
    result.add_argument("source", metavar="SOURCE")
    result.add_argument("folder", metavar="FOLDER")
    result.add_argument("--kind", choices=KINDS, action="append", help="one of the questions; may be given again (default: all three)")
    result.add_argument("--name", help="what the names of the files begin with (default: the date)")
    result.add_argument("--least", metavar="N", type=int, default=1, help="how many stanzas the list has at least")
    result.add_argument("--limit", metavar="N", help="passed on to distfuture")
    result.add_argument("--essential", action="store_true", help="passed on to distfuture")
    add_program_option(result)
    return result


def main(words: list[str]) -> int:
    asked = parser().parse_args(words)
    kinds = asked.kind or list(KINDS)
    options = (["--limit", asked.limit] if asked.limit else []) + ["--essential"] * asked.essential
    name = asked.name or datetime.datetime.now(datetime.timezone.utc).strftime("%Y-%m-%d")
    night = Night(program_or_fault(asked.program), asked.folder, name, options)
    os.makedirs(asked.folder, exist_ok=True)
    night.guard_names(kinds)
    with tempfile.TemporaryDirectory(dir=asked.folder, prefix=".new-") as work, tempfile.TemporaryDirectory() as spare:
        packages = os.path.join(work, "packages")
        fetch(asked.source, spare, packages)
        print(f"packages: {guard_list(packages, asked.least, asked.folder)} stanzas", flush=True)
        statuses = [night.sweep(work, kind) for kind in kinds]
        night.keep(work)
    return FOUND if any(statuses) else DONE

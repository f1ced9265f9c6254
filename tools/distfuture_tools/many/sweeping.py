"""What a worker does: one question about one archive, checked, and kept with its sums. It needs Python's own library alone."""
import filecmp
import json
import lzma
import os
import re
import shutil
import subprocess
import tempfile
import time
import zlib
from collections import Counter
from dataclasses import dataclass
from typing import Any

from ..command import BAD_INPUT, READ_FAULT, REFUSED, WRITE_FAULT, Fault
from ..files import hash_of
from ..reports import open_report
from .archives import open_list

MEGABYTE = 1 << 20
ARCHITECTURE = re.compile(rb"^Architecture: *(\S+)", re.MULTILINE)


@dataclass(frozen=True)
class Task:
    """One question about one archive."""
    archive: str               # its name
    list: str                  # the Packages file
    hash: str
    kind: str
    options: tuple[str, ...]
    folder: str                # where what is done on this list is kept
    program: str
    memory: int                # MB

    @property
    def name(self) -> str:
        """What its files are named: strong, strong-essential, strong-essential-limit-100."""
        return "-".join(word.removeprefix("--") for word in (self.kind, *self.options))

    @property
    def key(self) -> tuple[str, str]:
        """Tasks of equal keys have equal answers."""
        return self.hash, self.name

    @property
    def title(self) -> str:
        return f"{self.archive} {self.name}"

    def path(self, ending: str) -> str:
        return os.path.join(self.folder, f"{self.name}.{ending}")

    def done(self) -> dict[str, Any] | None:
        """The sums of what is done, where its files are there as they were left."""
        try:
            with open(self.path("json"), encoding="utf-8") as file:
                sums = json.load(file)
            return sums if all(os.path.getsize(self.path(ending)) == size for ending, size in sums["sizes"].items()) else None
        except (OSError, ValueError, KeyError):
            return None


@dataclass(frozen=True)
class Outcome:
    """What came of a task: a status as tools have them, or the program's; a message where it failed."""
    task: Task
    status: int
    message: str = ""
    seconds: float = 0.0

    @property
    def is_done(self) -> bool:
        return self.status in (0, 1) and not self.message


def sweep(task: Task) -> Outcome:
    """Does a task. Nothing takes its name before all of it is there and checked."""
    began = time.monotonic()
    try:
        status = sweep_or_fault(task)
        return Outcome(task, status, "", time.monotonic() - began)
    except Fault as fault:
        return Outcome(task, fault.status, str(fault), time.monotonic() - began)
    except OSError as error:
        return Outcome(task, READ_FAULT if error.filename == task.list else WRITE_FAULT, str(error), time.monotonic() - began)


def sweep_or_fault(task: Task) -> int:
    os.makedirs(task.folder, exist_ok=True)
    with tempfile.TemporaryDirectory(dir=task.folder, prefix=".new-") as work:
        packages = unpacked(task, work)
        report, cert, checked = (os.path.join(work, name) for name in ("report", "cert", "checked"))
        status = run(task, [task.kind, *task.options, packages, cert], report)
        if run(task, ["check", packages, cert], checked) != status or not filecmp.cmp(report, checked, shallow=False):
            raise Fault("the certificate does not give the report", REFUSED)
        sums = {"status": status, **head_of(packages), **sums_of(report)}
        sums["sizes"] = {"report": os.path.getsize(report), "cert": os.path.getsize(cert)}
        os.replace(report, task.path("report"))
        os.replace(cert, task.path("cert"))
        write_json(sums, work, task.path("json"))
    return status


def unpacked(task: Task, work: str) -> str:
    """The list without compression; the first question about it writes it, and it stays, so that certificates can be checked."""
    packages = os.path.join(task.folder, "packages")
    if os.path.exists(packages):
        return packages
    new = os.path.join(work, "packages")
    try:
        with open_list(task.list) as file, open(new, "wb") as out:
            shutil.copyfileobj(file, out)
    except (lzma.LZMAError, zlib.error, EOFError, OSError) as error:
        if isinstance(error, OSError) and error.errno:
            raise       # of the disk; what gzip and bz2 say of their bytes has no number
        raise Fault(f"{task.list} is cut, or not what its name says: {error}", BAD_INPUT) from error
    if hash_of(task.list) != task.hash:
        raise Fault(f"{task.list} has changed meanwhile", BAD_INPUT)
    os.replace(new, packages)
    return packages


def run(task: Task, words: list[str], output: str) -> int:
    """Runs the program within the task's memory; it ends where its worker is killed. Statuses 0 and 1 are good."""
    front = ["setpriv", "--pdeathsig", "KILL", "prlimit", f"--as={task.memory * MEGABYTE}"]
    with open(output, "wb") as out:
        done = subprocess.run([*front, task.program, *words], stdout=out, stderr=subprocess.PIPE, check=False)
    if done.returncode not in (0, 1):
        told = done.stderr.decode("utf-8", "replace").strip()
        raise Fault(f"{told or 'distfuture failed'} (distfuture {words[0]}, status {done.returncode})", done.returncode)
    return done.returncode


def head_of(packages: str) -> dict[str, Any]:
    """How many stanzas a list has, and for which architecture it is."""
    with open(packages, "rb") as file:
        text = file.read()
    found = {match.group(1) for match in ARCHITECTURE.finditer(text)} - {b"all"}
    return {"stanzas": len(re.findall(rb"^Package:", text, re.MULTILINE)), "architecture": " ".join(sorted(it.decode() for it in found)) or "all"}


def sums_of(path: str) -> dict[str, Any]:
    """What a report comes to: entries of each section, their items, the greatest impact set, the packages that some class breaks."""
    entries: Counter[str] = Counter()
    items: Counter[str] = Counter()
    greatest, challenged = (0, ""), set()
    file, report = open_report(path)
    with file:
        for entry in report:
            entries[entry.section] += 1
            items[entry.section] += len(entry.items)
            if entry.section == "impact":
                greatest = max(greatest, (len(entry.items), entry.subject))
            elif entry.section == "challenged":
                challenged.update(entry.items)
    return {"packages": report.head.get("packages", 0), "entries": entries, "items": items, "greatest": greatest, "challenged": len(challenged)}


def write_json(sums: dict[str, Any], work: str, path: str) -> None:
    """Writes the sums as the last of a task's files: they say that it is done."""
    new = os.path.join(work, "json")
    with open(new, "w", encoding="utf-8") as file:
        json.dump(sums, file, indent=1)
    os.replace(new, path)

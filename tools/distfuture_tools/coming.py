"""Which of the uploads that a later Packages file brings break something, by the reports of `challenged` and `classes`."""
import argparse
import contextlib
import os
import tempfile
from dataclasses import dataclass
from typing import Iterator

from .archive import Package, guard_architectures, newest, packages_of
from .command import DONE, FOUND, Fault, parser_of
from .program import add_program_option, program_or_fault, run
from .progress import counted
from .reports import name_of, open_report
from .uploads import Cluster, Deviation, Journal, Upload, by_reason, clusters_of, uploads_of
from .versions import compare, is_in_class

Breaks = dict[str, list[tuple[str, list[str]]]]    # of a cluster: classes, each with what it breaks


@dataclass
class Breaking:
    """An upload with the packages that it breaks; those of them that come anew themselves are `moving`."""
    upload: Upload
    broken: list[str]
    moving: set[str]

    def order(self) -> tuple[int, int, str, str]:
        return -len(self.broken) + len(self.moving), -len(self.broken), self.upload.cluster.source, self.upload.cluster.label


def read_clusters(path: str) -> list[Cluster]:
    file, report = open_report(path, "classes")
    with file:
        return clusters_of(report)


def read_breaks(path: str) -> Breaks:
    """What the classes of each cluster break."""
    breaks: Breaks = {}
    file, report = open_report(path, "challenged")
    with file:
        for entry in report:
            if entry.section == "challenged":
                breaks.setdefault(entry.keys["cluster"], []).append((entry.keys["class"], entry.items))
    return breaks


def breaking_uploads(uploads: list[Upload], breaks: Breaks, later: dict[str, Package]) -> list[Breaking]:
    """The uploads that break something, those that break the most packages that stay first."""
    found = []
    for upload in uploads:
        for text, broken in breaks.get(upload.cluster.label, []):
            if is_in_class(upload.version, text):
                found.append(Breaking(upload, broken, {label for label in broken if is_moving(label, later)}))
    return sorted(found, key=Breaking.order)


def is_moving(label: str, later: dict[str, Package]) -> bool:
    """Whether a later file has a package anew."""
    name, _, version = label.partition("=")
    return name in later and compare(later[name].version, version) > 0


def rounds_of(found: list[Breaking]) -> list[list[Breaking]]:
    """The uploads in as few journals as come by themselves: none of a journal takes away a package that another one of it breaks."""
    rounds: list[tuple[list[Breaking], set[str], set[str]]] = []
    for breaking in found:
        moved, broken = set(breaking.upload.cluster.names()), {name_of(label) for label in breaking.broken}
        for its, its_moved, its_broken in rounds:
            if not moved & (its_moved | its_broken) and not broken & its_moved:
                break
        else:
            its, its_moved, its_broken = [], set(), set()
            rounds.append((its, its_moved, its_broken))
        its.append(breaking)
        its_moved |= moved
        its_broken |= broken
    return [its for its, _, _ in rounds]


def listed(found: list[Breaking], stays_only: bool) -> Iterator[str]:
    for breaking in found:
        its = [label for label in breaking.broken if not (stays_only and label in breaking.moving)]
        if its:
            yield f"{breaking.upload.title} breaks {len(its)}"
            yield from (f"    {label}{' (comes too)' if label in breaking.moving else ''}" for label in its)


class Proof:
    """Journals of uploads, and what `follow` says of them."""

    def __init__(self, program: str, packages: str, cert: str, folder: str) -> None:
        self.program, self.packages, self.cert, self.folder = program, packages, cert, folder
        self.stanzas = 0
        self.deviations: dict[str, list[Deviation]] = {}
        self.lines: list[str] = []

    def write(self, journal: Journal, number: int, its: list[Breaking]) -> str:
        path = os.path.join(self.folder, f"journal.{number}")
        with open(path, "w", encoding="utf-8") as file:
            for breaking in its:
                step = journal.step(breaking.upload)
                file.write(step.text)
                self.stanzas += step.stanzas
                if step.deviations:
                    self.deviations[breaking.upload.title] = step.deviations
        return path

    def follow(self, path: str) -> None:
        answer = path + ".answer"
        run(self.program, ["follow", self.packages, self.cert, path], answer, allowed=(0,))
        with open(answer, encoding="utf-8") as file:
            self.lines += [line.rstrip("\n") for line in file if line.startswith("broken ")]

    def missing(self, found: list[Breaking]) -> list[str]:
        """The lines that are not proved. Equal versions may differ in their texts."""
        proved: dict[str, list[str]] = {}
        for line in self.lines:
            front, _, version = line.rpartition(" at ")
            proved.setdefault(front, []).append(version)
        wanted = [(f"broken {label} by {it.upload.cluster.label}", it.upload.version) for it in found for label in it.broken]
        return [f"{front} at {version}" for front, version in wanted if not any(compare(it, version) == 0 for it in proved.get(front, ()))]


def prove(proof: Proof, found: list[Breaking], today: dict[str, Package], later: dict[str, Package]) -> int:
    rounds, journal = rounds_of(found), Journal(today, later)
    for number, its in enumerate(counted(rounds, "following journal", len(rounds), 1), 1):
        proof.follow(proof.write(journal, number, its))
    missing = proof.missing(found)
    print(f"\nproof: {len(found)} uploads, {proof.stanzas} stanzas, journals {len(rounds)}")
    for title, deviations in proof.deviations.items():
        print(f"{title}, where the journal is not as it comes:")
        for line in by_reason(deviations):
            print(f"    {line}")
    print("\n".join(proof.lines + [f"not proved: {line}" for line in missing]))
    print(f"proved: {sum(len(it.broken) for it in found) - len(missing)} lines, not proved: {len(missing)}")
    return FOUND if missing else DONE


DESCRIPTION = """\
Lists the uploads of LATER that break packages of PACKAGES: those that break the most packages that stay as they
are come first. LATER is any later Packages file of the archive, compressed or not: security updates, the next
release."""


def parser() -> argparse.ArgumentParser:
    result = parser_of("coming", DESCRIPTION)
    result.add_argument("packages", metavar="PACKAGES")
    result.add_argument("later", metavar="LATER")
    result.add_argument("--challenged", metavar="REPORT", help="the report of `distfuture challenged PACKAGES CERT`; else the program makes it")
    result.add_argument("--classes", metavar="REPORT", help="the report of `distfuture classes PACKAGES`; else the program makes it")
    result.add_argument("--cert", metavar="CERT", help="the certificate of --challenged, for --proof")
    result.add_argument("--proof", action="store_true", help="write the uploads as journals and let `distfuture follow` prove each line")
    result.add_argument("--stays", action="store_true", help="leave out the broken packages that LATER has anew")
    result.add_argument("--keep", metavar="FOLDER", help="keep reports, certificate and journals there")
    add_program_option(result)
    return result


def main(words: list[str]) -> int:
    asked = parser().parse_args(words)
    if asked.proof and asked.challenged and not asked.cert:
        raise Fault("--proof needs the certificate of the report: name it by --cert")
    with contextlib.ExitStack() as stack:
        folder = asked.keep or stack.enter_context(tempfile.TemporaryDirectory())
        os.makedirs(folder, exist_ok=True)
        challenged, cert = asked.challenged, asked.cert
        if not challenged:
            challenged, cert = f"{folder}/challenged", f"{folder}/challenged.cert"
            run(program_or_fault(asked.program), ["challenged", asked.packages, cert], challenged)
        classes = asked.classes or f"{folder}/classes"
        if not asked.classes:
            run(program_or_fault(asked.program), ["classes", asked.packages], classes)
        today, later = newest(packages_of(asked.packages)), newest(packages_of(asked.later))
        guard_architectures(*((package.architecture for package in its.values()) for its in (today, later)))
        uploads = list(uploads_of(read_clusters(classes), later))
        found = breaking_uploads(uploads, read_breaks(challenged), later)
        print(f"{len(found)} of {len(uploads)} uploads break something")
        for line in listed(found, asked.stays):
            print(line)
        if not asked.proof or not found:
            return DONE
        proof = Proof(program_or_fault(asked.program), asked.packages, cert, folder)
        return prove(proof, found, today, later)

"""What of a later Packages file is one step each from the newest versions of an earlier one, and what is not and why."""
import argparse
import os
import tempfile
from dataclasses import dataclass, field
from typing import Iterator

from .archive import newest, packages_of
from .checker.clusters import greatest, has_own_version, members_of_clusters
from .checker.packages import Package, Repository
from .checker.relation import Atom
from .checker.version import Key, key_of
from .command import DONE, PROGRAM, Fault, parser_of
from .explain_tree import repository_of
from .join import new_file
from .program import add_program_option, program_or_fault, run
from .progress import Progress


@dataclass
class Plan:
    """The packages of the file that steps lead to, by name: whether each comes from LATER. And what is no step, by its reason."""
    from_later: dict[str, bool] = field(default_factory=dict)
    uploads: int = 0
    removals: int = 0
    new: int = 0
    left_out: dict[str, list[str]] = field(default_factory=dict)

    def leave_out(self, reason: str, what: str) -> None:
        self.left_out.setdefault(reason, []).append(what)


def carries(old: Package, entry: Atom, other: Atom, version: Key) -> bool:
    """Whether an old entry of Provides becomes another one at a new version."""
    if entry[:2] != other[:2]:
        return False
    if has_own_version(entry, old):
        return other.bound is not None and other.bound.key == version
    return (entry.bound and entry.bound.text) == (other.bound and other.bound.text)


def provides_more(old: Package, new: Package) -> bool:
    """Whether a new version provides what its package does not, or in another order."""
    entries = iter(old.provides)
    return not all(any(carries(old, entry, other, new.key) for entry in entries) for other in new.provides)


class Planner:
    """Decides source by source, and new name by new name."""

    def __init__(self, today: Repository, later: Repository) -> None:
        self.today, self.later = today, later
        self.of_later = {package.name: package for package in later.packages}
        self.provided = {entry.name for package in today.packages for entry in package.provides}
        self.plan = Plan()

    def decide(self) -> Plan:
        for members in members_of_clusters(self.today.packages):
            self.decide_cluster([self.today.packages[number - 1] for number in members])
        names = {package.name for package in self.today.packages}
        for package in self.later.packages:
            if package.name not in names:
                self.decide_name(package)
        return self.plan

    def decide_cluster(self, members: list[Package]) -> None:
        """An upload, removals, or nothing at all; where it is no step, the cluster stays as it is."""
        found = [(old, self.of_later[old.name]) for old in members if old.name in self.of_later]
        moved = [(old, new) for old, new in found if old != new]
        reason = self.fault_of(members, found, moved)
        if reason:
            self.plan.leave_out(reason, f"{members[0].source[0].decode()} ({members[0].label})")
        self.plan.from_later.update({old.name.decode(): not reason for old in (members if reason else [old for old, _ in found])})
        if not reason:
            self.plan.uploads += bool(moved)
            self.plan.removals += 0 if moved else len(members) - len(found)

    def fault_of(self, members: list[Package], found: list[tuple[Package, Package]], moved: list[tuple[Package, Package]]) -> str | None:
        """Why the packages of a cluster are no step of it."""
        top = key_of(greatest(old.text for old in members))
        if any(new.key <= top for _, new in moved):
            return "changed without a later version, or gone back"
        if moved and len(moved) < len(found):
            return "some packages of the source moved, and others stayed"
        if len({new.key for _, new in moved}) > 1:
            return "packages of the source are at several versions"
        if any(provides_more(old, new) for old, new in moved):
            return "provides what it did not before"
        return None

    def decide_name(self, package: Package) -> None:
        if package.provides:
            self.plan.leave_out("a new name that provides something", package.label)
        elif package.name in self.provided:
            self.plan.leave_out("a new name that was provided before", package.label)
        else:
            self.plan.new += 1
            self.plan.from_later[package.name.decode()] = True


def told(plan: Plan, lists: bool) -> Iterator[str]:
    yield f"uploads {plan.uploads}"
    yield f"removals {plan.removals}"
    yield f"new {plan.new}"
    for reason, its in sorted(plan.left_out.items(), key=lambda it: -len(it[1])):
        yield f"left out, {reason}: {len(its)}"
        yield from (f"    {it}" for it in its if lists)


def write(plan: Plan, packages: str, later: str, path: str) -> None:
    """The file that steps lead to: what is a step as LATER has it, and all else as PACKAGES does."""
    sources = {True: newest(packages_of(later)), False: newest(packages_of(packages))}
    with new_file(path) as file:
        for name in sorted(plan.from_later):
            file.write(sources[plan.from_later[name]][name].text + "\n\n")


def check(program: str, packages: str, path: str, plan: Plan) -> str:
    """What `steps` says of the file: as many steps of each sort as were planned."""
    counts = {"upload": 0, "removal": 0, "new": 0}
    with tempfile.TemporaryDirectory() as folder:
        run(program, ["steps", packages, path], f"{folder}/steps", allowed=(0,))
        with open(f"{folder}/steps", encoding="utf-8") as file:
            for line in file:
                counts[line.split(" ", 1)[0]] += 1
    if counts != {"upload": plan.uploads, "removal": plan.removals, "new": plan.new}:
        raise Fault(f"distfuture steps makes other steps: {counts}", PROGRAM)
    return f"distfuture steps: {sum(counts.values())} steps lead there"


DESCRIPTION = """\
Says what of LATER is one step each from PACKAGES: uploads of sources, removals and new names. With --output it
writes the file that these steps lead to, so that `distfuture steps PACKAGES FILE` ends with 0. A source that is
no step stays there as PACKAGES has it, and a new name that is none is left out; each is told with its reason."""


def parser() -> argparse.ArgumentParser:
    result = parser_of("steps-between", DESCRIPTION)
    result.add_argument("packages", metavar="PACKAGES")
    result.add_argument("later", metavar="LATER")
    result.add_argument("--output", metavar="FILE", help="write the file there")
    result.add_argument("--check", action="store_true", help="let the program make the steps to FILE")
    result.add_argument("--list", action="store_true", help="list what is left out")
    add_program_option(result)
    return result


def main(words: list[str]) -> int:
    asked = parser().parse_args(words)
    if asked.check and not asked.output:
        raise Fault("--check needs --output", 2)
    today, later = repository_of(asked.packages), repository_of(asked.later)
    if None not in (today.architecture, later.architecture) and today.architecture != later.architecture:
        raise Fault(f"{asked.later} is for another architecture than {os.path.basename(asked.packages)}")
    with Progress("comparing both files ..."):
        plan = Planner(today.newest(), later.newest()).decide()
    for line in told(plan, asked.list):
        print(line)
    if asked.output:
        write(plan, asked.packages, asked.later, asked.output)
    if asked.check:
        print(check(program_or_fault(asked.program), asked.packages, asked.output, plan))
    return DONE

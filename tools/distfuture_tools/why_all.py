"""Every package of an archive that can't be installed, grouped by what that comes down to."""
import argparse
import os
import tempfile
from concurrent.futures import ThreadPoolExecutor
from dataclasses import dataclass, field
from typing import Iterable, Iterator

from .command import DONE, FOUND, parser_of
from .explain_tree import explained, repository_of
from .explanation import Cause, Explanation, TreeMaker
from .program import add_program_option, program_or_fault, run
from .progress import counted
from .reports import open_report


@dataclass
class Group:
    """The packages that come down to some names, by the causes that they share."""
    roots: str
    packages: dict[str, list[str]] = field(default_factory=dict)

    def size(self) -> int:
        return sum(map(len, self.packages.values()))


def uninstallable(path: str) -> list[str]:
    """Those of a report of strong or challenged."""
    file, report = open_report(path, "strong", "challenged")
    with file:
        found = []
        for entry in report:
            if entry.section == "uninstallable":
                found.append(entry.subject)
            elif found or entry.section in ("strong", "challenged"):
                break
        return found


def grouped(explanations: Iterable[Explanation], trees: TreeMaker) -> list[Group]:
    """The groups, the greatest first."""
    groups: dict[str, Group] = {}
    for explanation in explanations:
        causes = trees.tree(explanation).causes() or [Cause("undecided", "it is undecided whether it can be installed")]
        roots = " and ".join(sorted({cause.root for cause in causes}))
        group = groups.setdefault(roots, Group(roots))
        group.packages.setdefault("; ".join(cause.text for cause in causes), []).append(explanation.package)
    return sorted(groups.values(), key=lambda group: (-group.size(), group.roots))


def listed(groups: list[Group]) -> Iterator[str]:
    for group in groups:
        yield f"{group.roots}: {group.size()}"
        for cause, packages in sorted(group.packages.items(), key=lambda its: (-len(its[1]), its[0])):
            yield f"    {cause}"
            yield from (f"        {package}" for package in packages)


DESCRIPTION = """\
Lists every package of PACKAGES that can't be installed, grouped by what that comes down to: a name that is not
there at a version that is asked for, or a package that excludes another one. The program explains each package."""


def parser() -> argparse.ArgumentParser:
    result = parser_of("why-all", DESCRIPTION)
    result.add_argument("packages", metavar="PACKAGES")
    result.add_argument("--report", metavar="REPORT", help="a report of `strong` or `challenged` on PACKAGES; else the program makes one of `challenged`")
    result.add_argument("--jobs", metavar="N", type=int, default=1, help="how many packages are explained side by side (default 1)")
    add_program_option(result)
    return result


def main(words: list[str]) -> int:
    asked = parser().parse_args(words)
    program = program_or_fault(asked.program)
    with tempfile.TemporaryDirectory() as folder:
        report = asked.report or os.path.join(folder, "report")
        if not asked.report:
            run(program, ["challenged", asked.packages, os.path.join(folder, "cert")], report)
        broken = uninstallable(report)
    with ThreadPoolExecutor(max(1, asked.jobs)) as pool:
        answers = pool.map(lambda label: explained(program, asked.packages, label), broken)
        explanations = list(counted(answers, "explaining package", len(broken), 1))
    print(f"{len(broken)} packages can't be installed")
    for line in listed(grouped(explanations, TreeMaker(repository_of(asked.packages)))):
        print(line)
    return FOUND if any(explanation.answer == "undecided" for explanation in explanations) else DONE

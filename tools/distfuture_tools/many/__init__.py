"""Checked reports and certificates on a folder of Packages files: all suites, architectures and days."""
import argparse
import contextlib
import fcntl
import glob
import os
import shutil
import sys
from collections import Counter
from typing import Iterator

from ..command import DONE, FOUND, PROGRAM, READ_FAULT, Fault, parser_of
from ..program import add_program_option, program_or_fault
from ..progress import counted
from .archives import Archive, archive_of, files_below, is_packages_file
from .rows import Row
from .sweeping import Outcome, Task

KINDS = ("strong", "outdated", "challenged")
# Memory by the question, in MB: so much for each MB of the list, and some for all. Over Debian 12 twice of what was measured.
MEMORY = {("strong", False): 14, ("strong", True): 22, ("outdated", False): 12, ("outdated", True): 12, ("challenged", False): 12, ("challenged", True): 14}
LEAST_MEMORY = 128
DESCRIPTION = """\
Makes reports and certificates on every Packages file below FOLDER (.xz, .gz, .bz2 or plain), checks each of them,
and keeps them in OUTPUT, with a table (table.csv) and charts. A question about a list that is answered already is
not asked again. One that fails is told, and the others go on. Suite and day come of a file's path, as in
bookworm_2026-12-01.xz or dists/sid/main/binary-amd64/Packages."""
EPILOGUE = """
Here 1 says that something is undecided, and 20 that some question failed."""


def parser() -> argparse.ArgumentParser:
    result = parser_of("many", DESCRIPTION)
    result.epilog += EPILOGUE
    result.add_argument("folder", metavar="FOLDER")
    result.add_argument("output", metavar="OUTPUT")
    result.add_argument("--kind", choices=KINDS, action="append", help="one of the questions; may be given again (default: all three)")
    result.add_argument("--limit", metavar="N", help="passed on to distfuture")
    result.add_argument("--essential", action="store_true", help="passed on to distfuture")
    result.add_argument("--memory", metavar="MB", type=int, help="how much each question may take (default: by the question and the list's size)")
    result.add_argument("--workers", metavar="N", type=int, help="how many at most on this machine (default: as its processors and memory allow)")
    result.add_argument("--scheduler", metavar="ADDRESS", help="use the workers of this scheduler of dask; they see the same folders and program")
    add_program_option(result)
    return result


@contextlib.contextmanager
def locked(folder: str) -> Iterator[None]:
    """Only one run at a time works in a folder; what one that was ended or a worker that was killed left unfinished goes."""
    with open(os.path.join(folder, ".lock"), "w", encoding="ascii") as lock:
        try:
            fcntl.flock(lock, fcntl.LOCK_EX | fcntl.LOCK_NB)
        except OSError as error:
            raise Fault(f"another run works in {folder}") from error
        clean(folder)
        yield
        clean(folder)


def clean(folder: str) -> None:
    for path in glob.glob(os.path.join(glob.escape(folder), "lists", "*", ".new-*")):
        shutil.rmtree(path, ignore_errors=True)


def archives_below(folder: str, output: str) -> list[Archive]:
    """The Packages files of a folder but for the output's; other files are told."""
    if not os.path.isdir(folder):
        raise Fault(f"{folder} is no folder", READ_FAULT)
    found = []
    for path in counted(list(files_below(folder, output)), "reading lists", every=1):
        if is_packages_file(path):
            found.append(archive_of(path, folder))
        else:
            print(f"passed over, no Packages file: {path}")
    if not found:
        raise Fault(f"there is no Packages file below {folder}")
    twice = [name for name, count in Counter(archive.name for archive in found).items() if count > 1]
    if twice:
        raise Fault(f"several lists have one name: {' '.join(twice)}")
    return found


class Plan:
    """The tasks of a run, by the words of the command line."""

    def __init__(self, asked: argparse.Namespace) -> None:
        self.kinds: list[str] = asked.kind or list(KINDS)
        self.options = (("--essential",) if asked.essential else ()) + (("--limit", asked.limit) if asked.limit else ())
        self.is_essential, self.memory = asked.essential, asked.memory
        self.output, self.program = os.path.abspath(asked.output), os.path.abspath(program_or_fault(asked.program))

    def task(self, archive: Archive, kind: str) -> Task:
        memory = self.memory or LEAST_MEMORY + MEMORY[kind, self.is_essential] * archive.megabytes
        return Task(archive.name, archive.path, archive.hash, kind, self.options, os.path.join(self.output, "lists", archive.hash), self.program, memory)

    def tasks(self, archives: list[Archive]) -> list[Task]:
        return [self.task(archive, kind) for archive in archives for kind in self.kinds]

    @property
    def ending(self) -> str:
        """Behind the names of the table and the charts, which are of one choice of options."""
        return "".join(f"-{word.removeprefix('--')}" for word in self.options)

    def row(self, archive: Archive, failed: set[tuple[str, str]]) -> Row:
        """What is known of an archive, of this run or an earlier one."""
        tasks = [self.task(archive, kind) for kind in KINDS]
        return Row(archive, {task.kind: sums for task in tasks if (sums := task.done())}, [task.kind for task in tasks if task.key in failed])

    def link(self, archive: Archive) -> None:
        """What is done on a list stands under its hash; its name leads there."""
        folder = os.path.join(self.output, "archives")
        path = os.path.join(folder, archive.name)
        for needed in (folder, os.path.join(self.output, "lists", archive.hash)):
            os.makedirs(needed, exist_ok=True)
        if os.path.islink(path):
            os.unlink(path)
        os.symlink(os.path.join("..", "lists", archive.hash), path)


def waiting(tasks: list[Task]) -> list[Task]:
    """The tasks that are not done; equal lists are asked once."""
    return list({task.key: task for task in tasks if not task.done()}.values())


def told(outcome: Outcome) -> str:
    front = outcome.task.title
    if not outcome.is_done:
        return f"{front}: failed, status {outcome.status}: {outcome.message}"
    return f"{front}: status {outcome.status}, checked, {outcome.seconds:.1f} s"


def run_tasks(tasks: list[Task], asked: argparse.Namespace) -> list[Outcome]:
    """Runs the tasks, and tells what comes of each."""
    from tqdm import tqdm

    from . import running      # dask takes a second, and --help should not

    need = max(task.memory for task in tasks)
    opened = running.cluster_client(asked.scheduler) if asked.scheduler else running.local_client(need, asked.workers, len(tasks))
    outcomes = []
    with opened as client, tqdm(total=len(tasks), disable=None, unit="question", file=sys.stderr) as bar:
        for outcome in running.outcomes(client, tasks):
            bar.write(told(outcome), file=sys.stdout)
            bar.update()
            outcomes.append(outcome)
    return outcomes


def main(words: list[str]) -> int:
    asked = parser().parse_args(words)
    from .results import write_charts, write_table      # --help does not need matplotlib

    plan = Plan(asked)
    os.makedirs(plan.output, exist_ok=True)
    with locked(plan.output):
        archives = archives_below(asked.folder, plan.output)
        for archive in archives:
            plan.link(archive)
        tasks = plan.tasks(archives)
        begun = waiting(tasks)
        print(f"{len(archives)} lists, {len(tasks)} questions, {len(begun)} to ask", flush=True)
        outcomes = run_tasks(begun, asked) if begun else []
        failed = {it.task.key for it in outcomes if not it.is_done}
        rows = [plan.row(archive, failed).values() for archive in archives]
        write_table(rows, os.path.join(plan.output, f"table{plan.ending}.csv"))
        charts = write_charts(rows, plan.output, plan.ending)
    done = [sums for task in tasks if (sums := task.done())]
    print(f"{len(done)} done, {len(tasks) - len(done)} failed; {', '.join([f'table{plan.ending}.csv', *charts])}")
    return PROGRAM if failed else FOUND if any(sums["status"] for sums in done) else DONE

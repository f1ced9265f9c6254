"""A static site from an archive's reports: one folder that opens from disk without a server."""
import argparse
import contextlib
import os
import tempfile

from ..command import DONE, Fault, parser_of
from ..program import add_program_option, program_or_fault, run

QUESTIONS = ("strong", "outdated", "challenged")
DESCRIPTION = """\
Writes a site about the archive of PACKAGES into FOLDER, which must not be there or be empty. Open its index.html;
it needs no server. Reports that are not given are made by the program, which also explains the packages that can't
be installed. With --later the overview shows the uploads of a later Packages file that break something."""


def parser() -> argparse.ArgumentParser:
    result = parser_of("site", DESCRIPTION)
    result.add_argument("packages", metavar="PACKAGES", help="a Packages file, not compressed")
    result.add_argument("folder", metavar="FOLDER")
    for kind in (*QUESTIONS, "classes"):
        result.add_argument(f"--{kind}", metavar="REPORT", help=f"the report of `distfuture {kind}` on PACKAGES; else the program makes it")
    result.add_argument("--later", metavar="LATER", help="a later Packages file, compressed or not: security updates, the next release")
    result.add_argument("--title", help="what the pages are headed with (default: the file's name and architecture)")
    result.add_argument("--jobs", metavar="N", type=int, default=os.cpu_count() or 1,
                        help="how many packages are explained side by side (default: as many as there are processors)")
    result.add_argument("--most", metavar="N", type=int, default=1000, help="explain no more packages than that (default 1000)")
    add_program_option(result)
    return result


def guard_folder(folder: str) -> None:
    if os.path.exists(folder) and (not os.path.isdir(folder) or os.listdir(folder)):
        raise Fault(f"{folder} is there and not empty: give a new folder")


def report_paths(asked: argparse.Namespace, work: str) -> dict[str, str]:
    """Where each report is; those that were not given are made."""
    paths = {}
    for kind in (*QUESTIONS, "classes"):
        paths[kind] = getattr(asked, kind)
        if not paths[kind]:
            paths[kind] = os.path.join(work, kind)
            run(program_or_fault(asked.program), [kind, asked.packages] + ([f"{work}/cert"] if kind in QUESTIONS else []), paths[kind])
    return paths


def main(words: list[str]) -> int:
    asked = parser().parse_args(words)
    from .building import build      # --help does not need matplotlib and jinja2
    guard_folder(asked.folder)
    place = os.path.dirname(os.path.abspath(asked.folder))
    with contextlib.ExitStack() as stack:
        work = stack.enter_context(tempfile.TemporaryDirectory())
        made = os.path.join(stack.enter_context(tempfile.TemporaryDirectory(dir=place, prefix=".new-")), "site")
        os.mkdir(made)
        print(build(asked, report_paths(asked, work), made))
        os.replace(made, asked.folder)
    return DONE

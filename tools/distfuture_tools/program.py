"""Finding the program distfuture, and running it."""
import argparse
import os
import shutil
import subprocess

from .command import PROGRAM, Fault
from .progress import Progress

NO_PROGRAM = "there is no program distfuture: name it by --program or DISTFUTURE, or build it as the README says"
BUILT = os.path.join(os.path.dirname(__file__), "..", "..", "crates", "distfuture", "out", "distfuture")


def add_program_option(parser: argparse.ArgumentParser) -> None:
    parser.add_argument("--program", metavar="FILE", help="distfuture itself; else $DISTFUTURE, the one on the path, or the one that is built here")


def find_program(given: str | None = None) -> str | None:
    """The program that was named, or the first one that is there, or None."""
    named = given or os.environ.get("DISTFUTURE")
    if named:
        return shutil.which(named)
    return shutil.which("distfuture") or shutil.which(os.path.normpath(BUILT))


def program_or_fault(given: str | None) -> str:
    program = find_program(given)
    if program is None:
        raise Fault(NO_PROGRAM, PROGRAM)
    return program


def run(program: str, words: list[str], output: str, allowed: tuple[int, ...] = (0, 1)) -> int:
    """Runs the program with its output in a file. Another status than those allowed is a fault, with the line that it prints."""
    with Progress(f"distfuture {words[0]} ..."), open(output, "wb") as out:
        done = subprocess.run([program, *words], stdout=out, stderr=subprocess.PIPE, check=False)
    if done.returncode not in allowed:
        told = done.stderr.decode("utf-8", "replace").strip()
        raise Fault(f"{told or 'distfuture failed'} (distfuture {' '.join(words)}, status {done.returncode})", PROGRAM)
    return done.returncode

"""An explanation as a tree: what a broken package needs, what could serve it, and why that doesn't help."""
import argparse
import contextlib
import sys
import tempfile
from typing import Iterator

from .checker.packages import Refusal, Repository, read_packages
from .command import DONE, FOUND, Fault, parser_of
from .explanation import Explanation, Node, TreeMaker, dot_lines, read_explanation, text_lines
from .program import add_program_option, program_or_fault, run
from .progress import Progress


def repository_of(path: str) -> Repository:
    with Progress(f"reading {path}"), open(path, "rb") as file:
        try:
            return read_packages(file.read())
        except Refusal as refusal:
            raise Fault(f"{path}: {refusal.text}", refusal.status) from refusal


def explained(program: str, packages: str, label: str) -> Explanation:
    """What the program says of a package."""
    with tempfile.TemporaryDirectory() as folder:
        run(program, ["explain", packages, f"{folder}/cert", "--package", label], f"{folder}/answer")
        with open(f"{folder}/answer", encoding="utf-8") as file:
            return read_explanation(file)


def title(explanation: Explanation) -> str:
    return {"broken": f"{explanation.package} can't be installed", "installable": f"{explanation.package} can be installed",
            "undecided": f"it is undecided whether {explanation.package} can be installed"}[explanation.answer]


def tree_lines(explanation: Explanation, tree: Node) -> Iterator[str]:
    tree.text = title(explanation)
    return text_lines(tree)


DESCRIPTION = """\
Prints why a package can't be installed as a tree: what it needs, what could serve that, and where each branch
ends. ANSWER is what `distfuture explain` printed (- is standard input); with --package the program makes it."""


def parser() -> argparse.ArgumentParser:
    result = parser_of("explain-tree", DESCRIPTION)
    result.add_argument("packages", metavar="PACKAGES")
    result.add_argument("answer", metavar="ANSWER", nargs="?")
    result.add_argument("--package", metavar="NAME=VERSION", help="let the program explain this package")
    result.add_argument("--dot", action="store_true", help="print a graph for dot")
    add_program_option(result)
    return result


def answer_of(asked: argparse.Namespace) -> Explanation:
    if (asked.package is None) == (asked.answer is None):
        raise Fault("one of ANSWER and --package is needed", 2)
    if asked.package:
        return explained(program_or_fault(asked.program), asked.packages, asked.package)
    with contextlib.ExitStack() as stack:
        file = sys.stdin if asked.answer == "-" else stack.enter_context(open(asked.answer, encoding="utf-8"))
        return read_explanation(file)


def main(words: list[str]) -> int:
    asked = parser().parse_args(words)
    explanation = answer_of(asked)
    tree = TreeMaker(repository_of(asked.packages)).tree(explanation)
    for line in dot_lines(tree) if asked.dot else tree_lines(explanation, tree):
        print(line)
    return FOUND if explanation.answer == "undecided" or not all(node.is_sure for node in tree.walk()) else DONE

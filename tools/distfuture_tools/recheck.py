"""An independent checker of certificates, explanations and repairs: it shares no code with the program, and follows its documents."""
import argparse
import contextlib
import os
import sys
from collections import Counter
from typing import BinaryIO, Iterator

from .checker.answers import AnswerJudge
from .checker.checking import Accepted, Checker
from .checker.lrat import LratWriter, Refuted, count_refuted
from .checker.packages import Refusal, read_packages
from .command import DONE, FOUND, Fault, parser_of
from .progress import Progress


DESCRIPTION = """\
Judges a file that the program wrote, or anybody else: a certificate of strong, outdated or challenged, an
explanation or a repair. Where it is accepted, prints what it claims in short, and with --report the lines that
`distfuture check`, `check-explain` and `check-repair` print. It shares no code with them."""


def parser() -> argparse.ArgumentParser:
    result = parser_of("recheck", DESCRIPTION)
    result.add_argument("packages", metavar="PACKAGES", help="the uncompressed Packages file that the certificate is about")
    result.add_argument("cert", metavar="CERT")
    result.add_argument("--report", action="store_true", help="print the whole report")
    result.add_argument("--dimacs", metavar="FILE", help="write the input clauses there, with a selector for each refuted question")
    result.add_argument("--lrat", metavar="FILE", help="write the d and f lines there as an LRAT proof over the clauses of --dimacs")
    return result


def read(path: str) -> bytes:
    with open(path, "rb") as file:
        return file.read()


class Proofs:
    """Where the files of --dimacs and --lrat go; the writer is made once the clauses are known."""

    def __init__(self, stack: contextlib.ExitStack, dimacs: str | None, lrat: str | None) -> None:
        self.files = [stack.enter_context(open(path, "w", encoding="ascii")) if path else None for path in (dimacs, lrat)]
        self.refuted = Refuted(0, 0)
        self.writer: LratWriter | None = None

    def is_wanted(self) -> bool:
        return any(self.files)

    def count(self, cert: BinaryIO) -> None:
        """The formula's head has the numbers of all clauses, so the certificate is read twice."""
        if not cert.seekable():
            raise Fault("--dimacs and --lrat read CERT twice: it must be a file, and no pipe")
        self.refuted = count_refuted(cert)
        cert.seek(0)

    def make(self, clauses: list, variables: int) -> LratWriter:
        self.writer = LratWriter(clauses, variables, self.refuted, *self.files)
        return self.writer

    def end(self) -> None:
        if self.writer:
            self.writer.end()


def summary(accepted: Accepted) -> Iterator[str]:
    """What an accepted file claims, in short."""
    judge, header = accepted.judge, accepted.header
    if isinstance(judge, AnswerJudge):
        yield from accepted.report()
        return
    letters = Counter(claim.letter for claim in judge.claims)
    first, second = sum(len(claim.first) for claim in judge.claims), sum(len(claim.second) for claim in judge.claims)
    yield f"accepted: {header.kind}, mode {'essential' if header.essential else 'plain'}, limit {header.limit}"
    yield f"packages: {judge.subject.packages}"
    if header.kind == "outdated":
        yield f"outdated: {letters['o']}"
    else:
        yield f"uninstallable: {letters['x']}"
        yield f"{'strong dependencies' if header.kind == 'strong' else 'challenges'}: {first}"
    yield f"undecided: {letters['y'] + second}"
    yield f"derived lines: {len(judge.clauses) - len(judge.inputs)}"


def main(words: list[str]) -> int:
    asked = parser().parse_args(words)
    with contextlib.ExitStack() as stack:
        cert = stack.enter_context(open(asked.cert, "rb"))
        proofs = Proofs(stack, asked.dimacs, asked.lrat)
        size = os.fstat(cert.fileno()).st_size
        try:
            with Progress(f"reading {asked.packages}"):
                checker = Checker(read_packages(read(asked.packages)))
            if proofs.is_wanted():
                proofs.count(cert)
            with Progress(f"checking {asked.cert}", size) as progress:
                accepted = checker.check(cert, make_proof=proofs.make if proofs.is_wanted() else None, tell=progress.tell)
            proofs.end()
        except Refusal as refusal:
            raise Fault(refusal.text, refusal.status) from refusal
        lines = accepted.report() if asked.report else summary(accepted)
        sys.stdout.writelines(line + "\n" for line in lines)
        return FOUND if accepted.is_undecided() else DONE

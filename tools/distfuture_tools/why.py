"""The refutation behind a claim, in words: which relations make an upload challenge a package, a pair strong, a package outdated."""
import argparse
from typing import Iterator

from .command import DONE, FOUND, Fault, parser_of
from .explain_tree import repository_of
from .explanation import quoted
from .progress import Progress
from .refutation import Refutation, Words, package_named, read_group, read_header, subject_of
from .reports import name_of


DESCRIPTION = """\
Prints the refutations behind the claim of a certificate on a package, in words, the shortest first: of strong,
why it can't be installed without another package; of outdated, why no future can install it; of challenged, why
an upload breaks it. OTHER names one other package, or a source or a package of it; without it all are listed."""


def parser() -> argparse.ArgumentParser:
    result = parser_of("why", DESCRIPTION)
    result.add_argument("packages", metavar="PACKAGES")
    result.add_argument("cert", metavar="CERT")
    result.add_argument("package", metavar="NAME[=VERSION]")
    result.add_argument("other", metavar="OTHER", nargs="?")
    result.add_argument("--most", metavar="N", type=int, default=0, help="print at most so many refutations")
    result.add_argument("--laws", action="store_true", help="print also the steps that only say what a future is")
    result.add_argument("--dot", action="store_true", help="print a graph for dot")
    return result


def is_about(words: Words, refutation: Refutation, other: str | None) -> bool:
    """Whether a refutation is about another package, or about a source or a package of it."""
    if other is None or len(refutation.question) < 2 or words.asks_of_today(refutation.question):
        return other is None
    variable = abs(refutation.question[1])
    space = words.subject.space
    if space is None:
        return words.variable(variable) == other or name_of(words.variable(variable)) == other
    meaning = space.meanings[variable - 1]
    members = [words.packages[number - 1] for number in space.classes.clusters[meaning.cluster].members]
    return other in {name.decode() for package in members for name in (package.name, package.source[0])}


def title(words: Words, refutation: Refutation) -> str:
    """What is refuted."""
    kind, question = words.subject.kind, refutation.question
    if kind == "outdated":
        return f"no future can install {words.variable(question[0])}"
    if kind == "strong" and len(question) == 2:
        return f"{words.variable(question[0])} can't be installed without {words.variable(-question[1])}"
    if kind == "challenged" and not words.asks_of_today(question):
        return f"{words.variable(question[0])} is broken by {words.variable(question[1])}"
    return f"{words.variable(question[-1])} can't be installed"


def text_lines(words: Words, refutation: Refutation, with_laws: bool, front: str = "    ") -> Iterator[str]:
    """Each step: what a relation asks for, and what is left by it. Of laws of futures only one that ends the refutation is told."""
    for step in words.steps(refutation):
        if step.literal and words.is_law(step.hint) and not with_laws:
            continue
        yield f"{front}{words.clause(step.hint)}{f': so {words.literal(step.literal)}' if step.literal else words.end(step.hint)}"
        derivation = words.derivation(step.hint)
        if derivation:
            yield from text_lines(words, derivation, with_laws, front + "    ")


def dot_lines(words: Words, refutations: list[Refutation]) -> Iterator[str]:
    """A graph: what is taken as true and what follows as nodes, and an edge from what a relation rests on to what it leaves."""
    yield "digraph refutation {"
    yield "  rankdir=LR; node [shape=box, fontname=sans]; edge [fontname=sans, fontsize=10];"
    for place, refutation in enumerate(refutations):
        node = lambda literal: quoted(f"{place}: {words.literal(literal) if literal else 'impossible'}")
        for literal in refutation.question:
            yield f"  {node(literal)} [color=blue, label={quoted(words.literal(literal))}];"
        for step in words.steps(refutation):
            yield f"  {node(step.literal)} [label={quoted(words.literal(step.literal) if step.literal else 'impossible')}];"
            for literal in words.clauses[step.hint - 1]:
                if literal != step.literal:
                    yield f"  {node(-literal)} -> {node(step.literal)} [label={quoted(words.clause(step.hint))}];"
    yield "}"


def main(words: list[str]) -> int:
    asked = parser().parse_args(words)
    repository = repository_of(asked.packages)
    with open(asked.cert, "rb") as file:
        header = read_header(file)
        with Progress("making the clauses ..."):
            subject = subject_of(repository, header)
        package = package_named(subject.repository, asked.package)
        with Progress(f"reading {asked.cert} ..."):
            group = read_group(file, header, package)
    said = Words(subject, group)
    its = (it for it in group.refutations if said.is_claimed(it.question, package) and is_about(said, it, asked.other))
    found = sorted(its, key=lambda it: len(it.hints))
    if not found:
        raise Fault(f"the certificate refutes nothing here: {asked.package} is claimed to be as installable as it can be", FOUND)
    found = found[:asked.most] if asked.most else found
    if asked.dot:
        print("\n".join(dot_lines(said, found)))
        return DONE
    for refutation in found:
        print(title(said, refutation))
        for line in text_lines(said, refutation, asked.laws):
            print(line)
    return DONE

"""The input clauses as DIMACS, and each step that follows by hints as a line of an LRAT proof.

A certificate refutes questions, and its clauses have models. So each refuted question gets a selector, a variable of its own: with the selector the
assumptions of the question are true, and the last clause says that some selector is true. The proof has a lemma for each `d` line, one for each `f`
line, which says that the selector of its question is false, and the empty clause at the end. It is accepted where all these questions are refuted.
"""
from array import array
from typing import BinaryIO, NamedTuple, Sequence, TextIO

from .derivation import follows
from .judging import Question
from .matching import Clause


class Refuted(NamedTuple):
    """How many questions a file closes by `f`, and how many literals these have."""
    questions: int
    literals: int


def count_refuted(file: BinaryIO) -> Refuted:
    questions = literals = asked = 0
    for line in file:
        if line.startswith(b"q"):
            asked = line.count(b" ")
        elif line.startswith(b"f"):
            questions, literals = questions + 1, literals + asked
    return Refuted(questions, literals)


class LratWriter:
    """Writes both files while a certificate is judged."""

    def __init__(self, clauses: list[Clause], variables: int, refuted: Refuted, dimacs: TextIO | None, proof: TextIO | None) -> None:
        self.clauses, self.inputs = clauses, len(clauses)
        self.dimacs, self.proof = dimacs, proof
        self.selector = variables                                      # the last one that was given
        self.first_selector = variables + 1
        self.asked = self.inputs                                       # the number of the last clause of a selector
        self.some = self.inputs + refuted.literals + 1                 # that of the clause of all selectors
        self.next = self.some
        self.derived_ids, self.refuted_ids = array("Q"), array("Q")
        self.to_dimacs("p cnf", variables + refuted.questions, self.some)
        for clause in clauses:
            self.to_dimacs(*clause, 0)

    def to_dimacs(self, *words: object) -> None:
        if self.dimacs:
            print(*words, file=self.dimacs)

    def lemma(self, clause: Clause, hints: Sequence[int]) -> None:
        self.next += 1
        if self.proof:
            print(self.next, *clause, 0, *hints, 0, file=self.proof)

    def ids_of(self, clause: Clause, hints: Sequence[int]) -> list[int]:
        """The hints up to the first clause that is false, as numbers of the proof."""
        false, ids = set(clause), list[int]()
        for hint in hints:
            ids.append(hint if hint <= self.inputs else self.derived_ids[hint - self.inputs - 1])
            if follows(false, [hint], self.clauses):
                break
        return ids

    def derived(self, clause: Clause, hints: Sequence[int]) -> None:
        self.lemma(clause, self.ids_of(clause, hints))
        self.derived_ids.append(self.next)

    def refuted(self, question: Question, hints: Sequence[int]) -> None:
        self.selector += 1
        for literal in question:
            self.to_dimacs(-self.selector, literal, 0)
        asked = range(self.asked + 1, self.asked + 1 + len(question))
        self.asked += len(question)
        self.lemma((-self.selector,), [*asked, *self.ids_of(tuple(-literal for literal in question), hints)])
        self.refuted_ids.append(self.next)

    def end(self) -> None:
        self.to_dimacs(*range(self.first_selector, self.selector + 1), 0)
        self.lemma((), [*self.refuted_ids, self.some])

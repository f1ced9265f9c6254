"""The rules of the lines that all files have: questions, derived lines, refutations, installations, and what stays undecided."""
from typing import Callable, Iterable, Protocol, Sequence

from .derivation import Cones, Propagation, follows, is_new
from .limits import room_for_lines
from .lines import is_too_great, record_of
from .matching import Clause
from .packages import Refusal

LINE_LIMIT, TEXT_LIMIT = 1073741824, 68719476736
RECENT = 1024
Question = tuple[int, ...]


class ProofWriter(Protocol):
    """Who wants to know of each step that follows by hints."""

    def derived(self, clause: Clause, hints: Sequence[int]) -> None: ...

    def refuted(self, question: Question, hints: Sequence[int]) -> None: ...


class Judge:
    """Takes the lines of a file one after another. Each method answers the cause of a refusal, or None.

    `fault_of` says what is wrong with the true variables of an `m` line.
    """

    def __init__(self, clauses: Sequence[Clause], variables: int, limit: int, fault_of: Callable[[frozenset[int]], str | None]) -> None:
        self.inputs, self.clauses = clauses, list(clauses)
        self.variables, self.limit, self.fault_of = variables, limit, fault_of
        self.proof: ProofWriter | None = None
        self.question: Question | None = None
        self.asked_at = 0                                  # how many clauses there were at the last question
        self.refuted: set[Question] = set()
        self.undecided: set[Question] = set()
        self.cones: Cones | None = None
        self.propagation = Propagation(self.clauses)
        self.room = room_for_lines()
        self.is_ended = False
        self.steps = {"q": self.take_question, "d": self.take_derived, "f": self.take_refutation, "m": self.take_model,
                      "u": self.take_undecided, "e": self.take_end}

    def follows(self, false: set[int], hints: list[int]) -> bool:
        try:
            return follows(false, hints, self.clauses)
        except IndexError:
            return False

    def fault_of_hints(self, hints: list[int]) -> str:
        """What is wrong with hints by which nothing follows."""
        return "UnknownLine" if max(hints, default=0) > len(self.clauses) else "BadLine"

    def take_question(self, literals: list[int]) -> str | None:
        if max(literals) > self.variables or min(literals) < -self.variables:
            return "OutOfRange"
        self.question, self.asked_at = tuple(literals), len(self.clauses)
        return None

    def take_derived(self, numbers: list[int]) -> str | None:
        end = numbers.index(0)
        literals, hints = numbers[:end], numbers[end + 1:]
        if any(abs(literal) > self.variables for literal in literals):
            return "OutOfRange"
        if not self.follows(set(literals), hints):
            return self.fault_of_hints(hints)
        self.room.take(len(literals))
        self.clauses.append(tuple(literals))
        if self.proof:
            self.proof.derived(self.clauses[-1], hints)
        return None

    def take_refutation(self, hints: list[int]) -> str | None:
        if self.question is None:
            return "OutOfOrder"
        if not self.follows({-literal for literal in self.question}, hints):
            return self.fault_of_hints(hints)
        if self.proof:
            self.proof.refuted(self.question, hints)
        self.close(self.question, True)
        self.question = None
        return None

    def take_model(self, members: list[int]) -> str | None:
        if members and members[-1] > self.variables:
            return "OutOfRange"
        model = frozenset(members)
        cause = self.fault_of(model)
        if cause is None:
            self.add_model(model)
        return cause

    def take_undecided(self, _: list[int]) -> str | None:
        if self.question is None:
            return "OutOfOrder"
        if len(self.clauses) - self.asked_at < self.limit:
            return "LimitNotReached"
        if self.cones is None:
            self.cones = Cones(self.inputs)
        cone = self.cones.of(self.question)
        for place in range(self.asked_at, len(self.clauses)):
            if not is_new(self.clauses[place], self.question, self.propagation, place, cone):
                return "NotNew"
        self.close(self.question, False)
        self.question = None
        return None

    def close(self, question: Question, is_refuted: bool) -> None:
        (self.refuted if is_refuted else self.undecided).add(question)

    def add_model(self, model: frozenset[int]) -> None:
        raise NotImplementedError

    def take_claim(self, letter: str, numbers: list[int]) -> str | None:
        raise NotImplementedError

    def take_end(self, _: list[int]) -> str | None:
        self.is_ended = True
        return None


def refused(line: int, cause: str) -> Refusal:
    return Refusal(4, f"certificate refused at line {line}: {cause}")


def whole_line(line: bytes, number: int, left: int, line_limit: int = LINE_LIMIT) -> None:
    """Raises what is wrong with a line before its words are read; left: the bytes of the text's limit that are left before it."""
    length = len(line) - line.endswith(b"\n")
    if length >= line_limit and min(length, left) >= line_limit:
        raise refused(number, "LineTooLong")
    if len(line) > left:
        raise Refusal(8, "too large: Certificate")
    if length >= line_limit:
        raise refused(number, "LineTooLong")
    if length == len(line):
        raise refused(number, "Truncated")


def judge_lines(judge: Judge, lines: Iterable[bytes], first_bytes: int, tell: Callable[[int], None] | None = None) -> None:
    """Takes all lines behind the first one, which has so many bytes; raises the first refusal. tell hears now and then how many bytes were read."""
    number, read, step_of = 1, first_bytes, judge.steps.get
    for number, line in enumerate(lines, 2):
        read += len(line)
        record = record_of(line)
        if record is None or read > TEXT_LIMIT or len(line) > LINE_LIMIT:
            whole_line(line, number, TEXT_LIMIT - read + len(line))
        if record is None or judge.is_ended:
            raise refused(number, "BadRecord")
        letter, numbers = record
        step = step_of(letter)
        cause = step(numbers) if step else judge.take_claim(letter, numbers)
        if cause is not None:
            raise refused(number, "BadRecord" if is_too_great(numbers) else cause)
        if tell and not number & 0xfff:
            tell(read)
    if not judge.is_ended:
        raise refused(number + 1, "Truncated")

"""Clauses in their order, what follows by hints, what is new, and which sets are models (CERTIFICATES.md, "What the lines before a line hold")."""
from array import array
from typing import Iterable, Sequence

from .matching import Clause


def follows(false: set[int], hints: Sequence[int], clauses: Sequence[Clause]) -> bool:
    """Whether the clause of these literals, which are taken as false, follows by hints, which are numbers from 1. The set grows."""
    is_false = False
    for hint in hints:
        left = [literal for literal in clauses[hint - 1] if literal not in false]
        is_false = not left
        if left:
            if len(left) > 1 or -left[0] in false:
                return False
            false.add(-left[0])
    return is_false


class Models:
    """Finds whether a set of true variables makes some clauses true.

    A clause is looked at where the set has the variable of a negative literal of it, the one that the fewest clauses have. So a test costs what the set
    touches.
    """

    def __init__(self, clauses: Iterable[Clause], variables: int) -> None:
        clauses = list(clauses)
        counts = array("I", bytes(4 * (variables + 1)))
        for clause in clauses:
            for literal in clause:
                if literal < 0:
                    counts[-literal] += 1
        self.positive: list[Clause] = []                                              # clauses without a negative literal
        self.implied: list[set[int] | None] = [None] * (variables + 1)                # of -a b, by a
        self.excluded: list[set[int] | None] = [None] * (variables + 1)               # of -a -b, by one of both
        self.others: list[list[Clause] | None] = [None] * (variables + 1)             # of -a b c .., by a: what is behind -a
        for clause in clauses:
            self.add(clause, counts)

    def add(self, clause: Clause, counts: array) -> None:
        negative = [-literal for literal in clause if literal < 0]
        if not negative:
            self.positive.append(clause)
            return
        variable = min(negative, key=counts.__getitem__)
        rest = tuple(literal for literal in clause if literal != -variable)
        if len(rest) == 1:
            table = self.implied if rest[0] > 0 else self.excluded
            if table[variable] is None:
                table[variable] = set()
            table[variable].add(abs(rest[0]))
        else:
            if self.others[variable] is None:
                self.others[variable] = []
            self.others[variable].append(rest)

    def has(self, members: frozenset[int]) -> bool:
        """Whether all clauses are true."""
        implied, excluded, others, is_apart = self.implied, self.excluded, self.others, members.isdisjoint
        for variable in members:
            needed, apart, rests = implied[variable], excluded[variable], others[variable]
            if needed is not None and not needed <= members:
                return False
            if apart is not None and not is_apart(apart):
                return False
            if rests is not None:
                for rest in rests:
                    if is_apart(rest) and not any(-literal not in members for literal in rest if literal < 0):
                        return False
        return all(not is_apart(clause) for clause in self.positive)


class Cones:
    """The cone of assumptions over the input clauses. A clause gives its variables once the cone has those of its negative literals."""

    def __init__(self, inputs: Sequence[Clause]) -> None:
        self.inputs = inputs
        self.missing = array("I", (sum(literal < 0 for literal in clause) for clause in inputs))
        self.by_negative: dict[int, list[int]] = {}
        for number, clause in enumerate(inputs):
            for literal in clause:
                if literal < 0:
                    self.by_negative.setdefault(-literal, []).append(number)
        self.always = {abs(literal) for clause, count in zip(inputs, self.missing) if count == 0 for literal in clause}

    def of(self, assumptions: Iterable[int]) -> set[int]:
        inside = self.always | {abs(literal) for literal in assumptions}
        left, missing = list(inside), dict[int, int]()
        while left:
            for number in self.by_negative.get(left.pop(), ()):
                missing[number] = missing.get(number, self.missing[number]) - 1
                if missing[number] == 0:
                    more = {abs(literal) for literal in self.inputs[number]} - inside
                    inside |= more
                    left += more
        return inside


class Propagation:
    """Unit propagation over a list of clauses that grows, by the places of each literal."""

    def __init__(self, clauses: Sequence[Clause]) -> None:
        self.clauses, self.known = clauses, 0
        self.with_literal: dict[int, list[int]] = {}
        self.units: list[int] = []         # the numbers of clauses of one literal or none

    def learn(self, count: int) -> None:
        """From now on the first `count` clauses count."""
        for number in range(self.known, count):
            clause = self.clauses[number]
            if len(clause) < 2:
                self.units.append(number)
            for literal in clause:
                self.with_literal.setdefault(literal, []).append(number)
        self.known = max(self.known, count)

    def closure(self, start: Iterable[int], count: int) -> set[int] | None:
        """The least set of true literals over the first `count` clauses that has these, or None where there is a conflict."""
        self.learn(count)
        true, left = set(start), list(start)
        if any(-literal in true for literal in true):
            return None
        queue = list(self.units)
        while queue or left:
            number = queue.pop() if queue else None
            if number is None:
                queue = list(self.with_literal.get(-left.pop(), ()))
                continue
            if number >= count:
                continue
            unset = [literal for literal in self.clauses[number] if -literal not in true]
            if not unset:
                return None
            if len(unset) == 1 and unset[0] not in true:
                true.add(unset[0])
                left.append(unset[0])
        return true


def is_new(clause: Clause, assumptions: Sequence[int], propagation: Propagation, count: int, cone: set[int]) -> bool:
    """Whether a clause is new under assumptions over the first `count` clauses."""
    variables = {abs(literal) for literal in clause}
    if not clause or len(variables) != len(clause) or not variables <= cone:
        return False
    true = propagation.closure({*assumptions, *(-literal for literal in clause[1:])}, count)
    return true is not None and clause[0] not in true and -clause[0] not in true

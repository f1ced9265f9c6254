"""Files that answer one question: explanations (EXPLANATIONS.md) and repairs (REPAIRS.md)."""
from typing import Iterator

from .derivation import Models
from .judging import Judge, Question
from .limits import guard_variables, room_for_inputs
from .lines import Header
from .matching import Clause, Present
from .packages import Repository
from .space import At, Space


class AnswerJudge(Judge):
    """A judge of lines that has no claims, and an answer at the end. Questions are the same in any order."""

    def __init__(self, clauses: list[Clause], variables: int, limit: int, package: int, repository: Repository) -> None:
        self.models: Models | None = None
        super().__init__(clauses, variables, limit, self.fault_of_model)
        self.package, self.repository = package, repository

    def fault_of_model(self, members: frozenset[int]) -> str | None:
        if self.models is None:
            self.models = Models(self.inputs, self.variables)
        return None if self.models.has(members) else "NotAnInstallation"

    def take_claim(self, letter: str, numbers: list[int]) -> str | None:
        return "WrongClaim"

    def take_end(self, numbers: list[int]) -> str | None:
        return super().take_end(numbers) if self.answer() else "Incomplete"

    def answer(self) -> list[str] | None:
        """The printed lines behind that of the package, or None where nothing is decided."""
        raise NotImplementedError

    def report(self) -> Iterator[str]:
        yield f"package {self.repository.packages[self.package - 1].label}"
        yield from self.answer() or ()

    def is_undecided(self) -> bool:
        return any(line == "undecided" or line.startswith("perhaps ") for line in self.answer() or ())


class ExplanationJudge(AnswerJudge):
    """Its variables are the packages, and a selector for each relation."""

    def __init__(self, present: Present, header: Header) -> None:
        packages, relations = len(present.repository.packages), len(present.clauses)
        guard_variables(packages + relations)
        room, clauses = room_for_inputs(), [(*clause, -(packages + number)) for number, clause in enumerate(present.clauses, 1)]
        for clause in clauses:
            room.take(len(clause))
        super().__init__(clauses, packages + relations, header.limit, header.numbers[2], present.repository)
        self.present, self.packages, self.relations = present, packages, relations
        self.selectors: frozenset[int] | None = None       # of the last refuted question of the package and selectors alone
        self.needed: set[int] = set()                      # those of them that later lines decide
        self.perhaps: set[int] = set()
        self.is_installable = self.is_open = False

    def selected(self, question: Question) -> frozenset[int] | None:
        """The selectors of a question of the package and selectors alone, or None."""
        others = frozenset(question) - {self.package}
        return others if self.package in question and all(literal > self.packages for literal in others) else None

    def close(self, question: Question, is_refuted: bool) -> None:
        selectors = self.selected(question)
        if selectors is None:
            return
        if is_refuted:
            self.selectors, self.needed, self.perhaps = selectors, set(), set()
        else:
            self.is_open = self.is_open or len(selectors) == self.relations
            if self.selectors is not None and selectors < self.selectors and len(selectors) == len(self.selectors) - 1:
                self.perhaps |= self.selectors - selectors

    def add_model(self, model: frozenset[int]) -> None:
        if self.package not in model:
            return
        if self.selectors is not None:
            missing = self.selectors - model
            self.needed |= missing if len(missing) == 1 else set()
        elif sum(variable > self.packages for variable in model) == self.relations:
            self.is_installable = True

    def answer(self) -> list[str] | None:
        if self.selectors is not None:
            if self.selectors != self.needed | self.perhaps:
                return None
            return ["broken", *(self.line_of(selector) for selector in sorted(self.selectors))]
        return ["installable"] if self.is_installable else ["undecided"] if self.is_open else None

    def line_of(self, selector: int) -> str:
        text = self.present.relations[selector - self.packages - 1].text(self.repository)
        return text if selector in self.needed else f"perhaps {text}"


class RepairJudge(AnswerJudge):
    """Its variables are those of the space of futures, and the counter: Moved of each cluster, and More."""

    def __init__(self, space: Space, header: Header) -> None:
        self.space, self.most = space, header.numbers[4]
        self.base, self.count = len(space.meanings), len(space.at)
        variables = self.base + self.count * (2 + self.most)
        guard_variables(variables)
        super().__init__([*space.clauses, *self.counter()], variables, header.limit, header.numbers[3], space.repository)
        self.present = self.package + 1
        self.closed: dict[frozenset[int], set[bool]] = {}      # questions, and whether they were refuted
        self.least: list[int] | None = None                    # the true variables At of the model that moves the fewest clusters

    def moved(self, cluster: int) -> int:
        return self.base + cluster

    def more(self, cluster: int, bound: int) -> int:
        """More than `bound` of the first clusters have moved."""
        return self.base + self.count + (cluster - 1) * (self.most + 1) + bound + 1

    def counter(self) -> Iterator[Clause]:
        for clause in self.counter_clauses():
            self.space.room.take(len(clause))
            yield clause

    def counter_clauses(self) -> Iterator[Clause]:
        for cluster, variables in enumerate(self.space.at, 1):
            for variable in variables:
                yield -variable, self.moved(cluster)
        for cluster in range(1, self.count + 1):
            for bound in range(self.most + 1):
                if cluster > 1:
                    yield -self.more(cluster - 1, bound), self.more(cluster, bound)
                if bound == 0:
                    yield -self.moved(cluster), self.more(cluster, 0)
                elif cluster > 1:
                    yield -self.moved(cluster), -self.more(cluster - 1, bound - 1), self.more(cluster, bound)

    def close(self, question: Question, is_refuted: bool) -> None:
        self.closed.setdefault(frozenset(question), set()).add(is_refuted)

    def add_model(self, model: frozenset[int]) -> None:
        if self.present not in model:
            return
        at = sorted(variable for variable in model if variable <= self.base and isinstance(self.space.meanings[variable - 1], At))
        if self.least is None or len(at) < len(self.least):
            self.least = at

    def was_closed(self, is_refuted: bool, *literals: int) -> bool:
        return is_refuted in self.closed.get(frozenset(literals), ())

    def answer(self) -> list[str] | None:
        questions = [(self.present, -self.more(self.count, bound)) for bound in range(self.most + 1)]
        if self.was_closed(True, self.present):
            return ["outdated"]
        low = max((bound + 1 for bound, question in enumerate(questions) if self.was_closed(True, *question)), default=0)
        is_open = self.was_closed(False, self.present)
        at_least, at_most = f"at least {low}", [] if self.least is None else [f"at most {len(self.least)}", *self.moves()]
        if self.least is not None and len(self.least) == low:
            return [f"least {low}", *self.moves()]
        if low == self.most + 1:
            return [at_least, *at_most] if at_most else [at_least, "undecided"] if is_open else None
        if self.was_closed(False, *questions[low]) and (at_most or is_open):
            return [at_least, "undecided", *at_most]
        return None

    def moves(self) -> Iterator[str]:
        for variable in self.least or ():
            cluster, place = self.space.meanings[variable - 1]
            its = self.space.classes.clusters[cluster]
            yield f"move {self.repository.packages[its.members[0] - 1].label} to {its.classes[place].example.decode()}"

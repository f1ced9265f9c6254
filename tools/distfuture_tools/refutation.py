"""The refutations behind a claim of a certificate: its questions that are closed by `f`, and what their hints say in the terms of packages."""
from dataclasses import dataclass, field
from typing import BinaryIO, Iterator, NamedTuple

from .checker.certificate import Subject
from .checker.checking import Checker
from .checker.derivation import follows
from .checker.lines import Header, header_of, record_of
from .checker.matching import Apart, Clause, Needs, Relation, Required
from .checker.packages import Package, Repository
from .checker.relation import spelled
from .checker.space import Against, At, Fresh, Installed, Kept, Law, New, Now, Source
from .command import Fault

CLAIMS = b"xysoac"
NOW = 1    # the variable of the archive as it is


@dataclass
class Refutation:
    """A question and the hints that refute it."""
    question: tuple[int, ...]
    hints: list[int]


@dataclass
class Group:
    """What a certificate has for one claim: its refutations, and all derived clauses before them with their hints."""
    header: Header
    refutations: list[Refutation] = field(default_factory=list)
    derived: list[tuple[Clause, list[int]]] = field(default_factory=list)


def read_header(file: BinaryIO) -> Header:
    header = header_of(file.readline().rstrip(b"\n"))
    if header is None or header.kind in ("explain", "repair"):
        raise Fault("this is no certificate of strong, outdated or challenged")
    return header


def read_group(file: BinaryIO, header: Header, package: int) -> Group:
    """The lines of the claim on a package, by its number; other lines are passed over but for derived ones."""
    group, claims, question = Group(header), 0, ()
    for line in file:
        letter = line[0]
        if letter in CLAIMS:
            claims += 1
            if claims == package:
                return group
        elif letter == ord("d"):
            numbers = whole_record(line)
            end = numbers.index(0)
            group.derived.append((tuple(numbers[:end]), numbers[end + 1:]))
        elif claims == package - 1 and letter == ord("q"):
            question = tuple(whole_record(line))
        elif claims == package - 1 and letter == ord("f"):
            group.refutations.append(Refutation(question, whole_record(line)))
    raise Fault("the certificate ends before the claim on this package")


def whole_record(line: bytes) -> list[int]:
    record = record_of(line)
    if record is None:
        raise Fault(f"this is no line of a certificate: {line[:60]!r}")
    return record[1]


class Step(NamedTuple):
    """What a hint says, and what follows of it: a literal, or None where nothing is left."""
    hint: int
    literal: int | None


class Words:
    """Variables and clauses of a subject in the terms of packages."""

    def __init__(self, subject: Subject, group: Group) -> None:
        self.subject, self.group = subject, group
        self.packages = subject.repository.packages
        self.clauses = [*subject.clauses, *(clause for clause, _ in group.derived)]

    # ---- variables

    def variable(self, variable: int) -> str:
        if self.subject.space is None:
            return self.packages[variable - 1].label
        meaning = self.subject.space.meanings[variable - 1]
        classes = self.subject.space.classes
        match meaning:
            case Now():
                return "the archive is as it is"
            case Installed(package):
                return self.packages[package - 1].label
            case At(cluster, place):
                return f"{self.source_of(cluster)} at {classes.clusters[cluster].classes[place].text}"
            case New(package, cluster, place):
                return f"{self.name_of(package)} at {classes.clusters[cluster].classes[place].text}"
            case Kept(package, cluster, place, entry):
                provided = self.packages[package - 1].provides[entry].name.decode()
                return f"{provided} provided by {self.name_of(package)} at {classes.clusters[cluster].classes[place].text}"
            case Fresh(name, place):
                return f"a new {classes.names[name].name.decode()} at {classes.names[name].classes[place].text}"

    def name_of(self, package: int) -> str:
        return self.packages[package - 1].name.decode()

    def source_of(self, cluster: int) -> str:
        return "source " + self.packages[self.subject.space.classes.clusters[cluster].members[0] - 1].source[0].decode()

    def literal(self, literal: int) -> str:
        return self.variable(abs(literal)) if literal > 0 else f"no {self.variable(-literal)}"

    # ---- clauses

    def source(self, number: int) -> Relation | Source | None:
        """Where a clause comes from, or None of a derived one."""
        its = self.subject.space.sources if self.subject.space else self.subject.present.relations
        return its[number - 1] if number <= len(its) else None

    def clause(self, number: int) -> str:
        """What a clause asks for, by its number."""
        match self.source(number):
            case None:
                return "derived: " + " or ".join(map(self.literal, self.clauses[number - 1]))
            case Needs(package, item):
                return f"{self.packages[package - 1].label} needs {spelled(item)}"
            case Apart(first, second):
                return f"{self.packages[first - 1].label} and {self.packages[second - 1].label} exclude each other"
            case Against(package, variable):
                return f"{self.packages[package - 1].label} and {self.variable(variable)} exclude each other"
            case Required(name):
                return f"{name.decode()} is essential"
            case Law(text):
                return text

    def end(self, number: int) -> str:
        """Why a clause is false where a refutation ends."""
        source = self.source(number)
        if isinstance(source, (Needs, Required)):
            return ", and nothing is left that serves it"
        return ", and both are there" if isinstance(source, (Apart, Against)) else ", and here it can't be so"

    def is_law(self, number: int) -> bool:
        """Whether a clause only says what a future is."""
        return isinstance(self.source(number), Law)

    # ---- refutations

    def is_claimed(self, question: tuple[int, ...], package: int) -> bool:
        """Whether a question is one that the claim on a package is about; a certificate may ask others."""
        if question == self.subject.question(package):
            return True
        if len(question) != 2 or question[0] != self.subject.variable(package):
            return False
        space = self.subject.space
        return question[1] < 0 if space is None else question[1] > 0 and isinstance(space.meanings[question[1] - 1], At)

    def asks_of_today(self, question: tuple[int, ...]) -> bool:
        """Whether a question is about the archive as it is, at kind challenged."""
        return self.subject.kind == "challenged" and question[0] == NOW

    def steps(self, refutation: Refutation) -> Iterator[Step]:
        """The hints one after another, each with what follows."""
        false = {-literal for literal in refutation.question}
        for hint in refutation.hints:
            if not 1 <= hint <= len(self.clauses):
                raise Fault(f"the certificate hints at {hint}, and there is no such clause")
            left = [literal for literal in self.clauses[hint - 1] if literal not in false]
            if follows(false, [hint], self.clauses):
                yield Step(hint, None)
                return
            if len(left) != 1 or -left[0] not in false:
                break
            yield Step(hint, left[0])
        raise Fault("the hints don't refute the question: let recheck judge the certificate")

    def derivation(self, hint: int) -> Refutation | None:
        """How a derived clause came to be: the refutation of its negation."""
        number = hint - len(self.subject.clauses)
        if number <= 0:
            return None
        clause, hints = self.group.derived[number - 1]
        return Refutation(tuple(-literal for literal in clause), hints)


def package_named(repository: Repository, text: str) -> int:
    """The number of a package by NAME or NAME=VERSION; of a name alone the greatest version."""
    name, _, version = text.partition("=")
    its = [number for number, package in enumerate(repository.packages, 1) if is_named(package, name, version)]
    if not its:
        raise Fault(f"the archive has no package {text}")
    return its[-1]


def is_named(package: Package, name: str, version: str) -> bool:
    return package.name == name.encode() and (not version or package.text == version.encode())


def subject_of(repository: Repository, header: Header) -> Subject:
    subject = Checker(repository).subject(header.kind, header.essential)
    if subject.numbers != header.numbers:
        raise Fault("the certificate is about another archive")
    return subject

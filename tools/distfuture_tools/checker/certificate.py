"""Certificates of the kinds strong, outdated and challenged: what they are about, and the rules of their claims (CERTIFICATES.md, "Claims")."""
from array import array
from typing import NamedTuple, Sequence

from .derivation import Models
from .judging import RECENT, Judge
from .lines import Claim, claim_of, rises
from .matching import Present
from .packages import Repository
from .space import Space

LETTERS = {"strong": "xys", "outdated": "oay", "challenged": "xyc"}


class Installation(NamedTuple):
    """The true variables of an `m` line, and for kind challenged the clusters that it uses, from 0."""
    members: frozenset[int]
    used: frozenset[int]


class Claimed(NamedTuple):
    """What an accepted claim says: its letter, and its lists, of packages or of pairs of a cluster and a class."""
    letter: str
    first: Sequence
    second: Sequence


class Subject:
    """What the certificates of a kind and a mode are about."""

    def __init__(self, everything: Repository, kind: str, essential: bool) -> None:
        self.kind, self.essential = kind, essential
        self.repository = everything if kind == "strong" else everything.newest()
        self.space = None if kind == "strong" else Space(self.repository, essential)
        self.present = Present(self.repository, essential) if kind == "strong" else None
        self.clauses = (self.space or self.present).clauses
        self.packages = len(self.repository.packages)
        self.variables = len(self.space.meanings) if self.space else self.packages
        self.models: Models | None = None
        self.futures: Models | None = None

    @property
    def numbers(self) -> tuple[int, int, int]:
        """N, V and M of the first line."""
        return self.packages, self.variables, len(self.clauses)

    def variable(self, package: int) -> int:
        return package if self.kind == "strong" else package + 1

    def question(self, package: int) -> tuple[int, ...]:
        return (1, package + 1) if self.kind == "challenged" else (self.variable(package),)

    def fault_of_model(self, members: frozenset[int]) -> str | None:
        """What is wrong with an installation. It is healthy and stands for a future exactly where it makes all clauses true."""
        if self.models is None:
            self.models = Models(self.clauses, self.variables)
        if self.models.has(members):
            return None
        if self.space is None:
            return "NotAnInstallation"
        if self.futures is None:
            self.futures = Models(self.space.future_clauses(), self.variables)
        return "NotAnInstallation" if self.futures.has(members) else "NotAFuture"


class CertificateJudge(Judge):
    """Judges the lines of a certificate, and keeps what its claims say."""

    def __init__(self, subject: Subject, limit: int) -> None:
        super().__init__(subject.clauses, subject.variables, limit, subject.fault_of_model)
        self.subject = subject
        self.claims: list[Claimed] = []
        self.installations: dict[int, Installation] = {}
        self.count = self.dropped = 0
        self.group: list[Installation] = []        # those of the group that have the variable of the next claim
        self.rules = {"s": self.fault_of_strong, "c": self.fault_of_challenged}

    def add_model(self, model: frozenset[int]) -> None:
        used = self.subject.space.used_clusters(model) if self.subject.kind == "challenged" else frozenset()
        self.count += 1
        self.installations[self.count] = Installation(model, used)
        if self.subject.variable(len(self.claims) + 1) in model:
            self.group.append(self.installations[self.count])

    def take_claim(self, letter: str, numbers: list[int]) -> str | None:
        claim = claim_of(letter, numbers)
        if claim.package != len(self.claims) + 1 or claim.package > self.subject.packages:
            return "OutOfOrder"
        cause = self.fault_of_claim(claim)
        if cause is None:
            self.end_group(claim)
        return cause

    def take_end(self, numbers: list[int]) -> str | None:
        if len(self.claims) < self.subject.packages:
            return "Incomplete"
        return super().take_end(numbers)

    def end_group(self, claim: Claim) -> None:
        pairs = claim.letter == "c"
        self.claims.append(Claimed(claim.letter, *((pairs_of(its) if pairs else array("I", its)) for its in (claim.first, claim.second))))
        self.question, self.group = None, []
        self.refuted.clear()
        self.undecided.clear()
        while self.dropped < self.count - RECENT:
            self.dropped += 1
            del self.installations[self.dropped]

    # ---- rules

    def fault_of_claim(self, claim: Claim) -> str | None:
        subject = self.subject
        if claim.letter not in LETTERS[subject.kind]:
            return "WrongClaim"
        if claim.letter in self.rules:
            return self.rules[claim.letter](claim)
        if claim.letter == "a":
            return None if self.recent(claim.installations[0], claim.package) else "WrongClaim"
        closed = self.undecided if claim.letter == "y" else self.refuted
        return None if subject.question(claim.package) in closed else "WrongClaim"

    def recent(self, number: int, package: int) -> Installation | None:
        """An installation by its number, where it is recent and has a package."""
        its = self.installations.get(number) if number > self.count - RECENT else None
        return its if its and self.subject.variable(package) in its.members else None

    def installations_of(self, claim: Claim) -> list[Installation] | None:
        """Those of a claim, or None where it names one that it may not."""
        named = [self.recent(number, claim.package) for number in claim.installations]
        return None if None in named else named + self.group

    def fault_of_strong(self, claim: Claim) -> str | None:
        its, package = self.installations_of(claim), claim.package
        first, second = set(claim.first), set(claim.second)
        if its is None or not rises(claim.first) or not rises(claim.second) or first & second:
            return "WrongClaim"
        if package in first or package in second or any(part and part[-1] > self.subject.packages for part in (claim.first, claim.second)):
            return "WrongClaim"
        common = frozenset.intersection(*(it.members for it in its))
        if not second <= common or any((package, -other) not in self.undecided for other in second):
            return "WrongClaim"
        if any((package, -other) not in self.refuted for other in first):
            return "WrongClaim"
        return None if len(common) == 1 + len(common & first) + len(second) else "Incomplete"

    def fault_of_challenged(self, claim: Claim) -> str | None:
        its, space = self.installations_of(claim), self.subject.space
        if its is None or not any(1 in it.members for it in its) or len(claim.first) % 2 or len(claim.second) % 2:
            return "WrongClaim"
        first, second = pairs_of(claim.first), pairs_of(claim.second)
        if not rises(first) or not rises(second) or set(first) & set(second):
            return "WrongClaim"
        own, present = space.cluster_of[claim.package], claim.package + 1
        for cluster, place in first + second:
            if cluster > len(space.at) or cluster - 1 == own or place > len(space.at[cluster - 1]):
                return "WrongClaim"
        question = lambda pair: (present, space.at[pair[0] - 1][pair[1] - 1])
        if any(question(pair) not in self.refuted for pair in first):
            return "WrongClaim"
        uncovered = set(self.uncovered(its, own))
        if any(question(pair) not in self.undecided or pair not in uncovered for pair in second):
            return "WrongClaim"
        return None if uncovered <= {*first, *second} else "Incomplete"

    def uncovered(self, its: list[Installation], own: int) -> list[tuple[int, int]]:
        """The pairs of other clusters and their classes, from 1, that no installation covers: each uses the cluster, and none has it at the class."""
        at = self.subject.space.at
        clusters = frozenset.intersection(*(it.used for it in its)) - {own}
        return [(cluster + 1, place) for cluster in clusters for place, variable in enumerate(at[cluster], 1)
                if not any(variable in it.members for it in its)]


def pairs_of(numbers: Sequence[int]) -> list[tuple[int, int]]:
    return list(zip(numbers[::2], numbers[1::2]))

"""Judging a file of any kind over a repository: its first line, the judge that it asks for, and what an accepted file says."""
from typing import BinaryIO, Callable, Iterator

from .answers import AnswerJudge, ExplanationJudge, RepairJudge
from .certificate import CertificateJudge, Subject
from .judging import TEXT_LIMIT, ProofWriter, judge_lines, refused, whole_line
from .lines import KINDS, Header, header_of
from .matching import Present
from .packages import Repository
from .report import ReportWriter
from .space import Space

ANSWERS = ("explain", "repair")
MakeProof = Callable[[list, int], ProofWriter]    # of the input clauses and the number of variables


class Checker:
    """Judges files over one repository; what a kind and a mode are about is made once."""

    def __init__(self, repository: Repository) -> None:
        self.repository = repository
        self.subjects: dict[tuple[str, bool], Subject] = {}

    def subject(self, kind: str, essential: bool) -> Subject:
        if (kind, essential) not in self.subjects:
            self.subjects[kind, essential] = Subject(self.repository, kind, essential)
        return self.subjects[kind, essential]

    def check(self, file: BinaryIO, kinds: tuple[str, ...] = KINDS + ANSWERS, make_proof: MakeProof | None = None,
              tell: Callable[[int], None] | None = None) -> "Accepted":
        """What an accepted file says. Another one is refused; kinds: those that it may be of."""
        line = file.readline()
        whole_line(line, 1, TEXT_LIMIT)
        header = header_of(line[:-1])
        if header is None or header.kind not in kinds:
            raise refused(1, "BadHeader")
        judge = self.judge_of(header, make_proof)
        judge_lines(judge, file, len(line), tell)
        return Accepted(header, judge)

    def judge_of(self, header: Header, make_proof: MakeProof | None) -> CertificateJudge | AnswerJudge:
        make = {"explain": self.explanation_judge, "repair": self.repair_judge}.get(header.kind, self.certificate_judge)
        judge = make(header)
        judge.proof = make_proof(judge.clauses, judge.variables) if make_proof else None
        return judge

    def certificate_judge(self, header: Header) -> CertificateJudge:
        subject = self.subject(header.kind, header.essential)
        guard(header.numbers == subject.numbers)
        return CertificateJudge(subject, header.limit)

    def explanation_judge(self, header: Header) -> ExplanationJudge:
        packages, relations, package = header.numbers
        judge = ExplanationJudge(Present(self.repository, False), header)
        guard((packages, relations) == (judge.packages, judge.relations) and 1 <= package <= packages)
        return judge

    def repair_judge(self, header: Header) -> RepairJudge:
        packages, variables, clauses, package, most = header.numbers
        guard(most <= 64)
        space = Space(self.repository.newest(), False)
        judge = RepairJudge(space, header)
        guard((packages, variables, clauses) == (len(space.repository.packages), judge.variables, len(judge.inputs)) and 1 <= package <= packages)
        return judge


def guard(is_right: bool) -> None:
    """The numbers of a first line are those of the archive."""
    if not is_right:
        raise refused(1, "BadHeader")


class Accepted:
    """An accepted file: its first line, and the judge that took its lines."""

    def __init__(self, header: Header, judge: CertificateJudge | AnswerJudge) -> None:
        self.header, self.judge = header, judge

    def is_undecided(self) -> bool:
        """Whether something is left undecided: then the program ends with status 1."""
        if isinstance(self.judge, AnswerJudge):
            return self.judge.is_undecided()
        return any(claim.letter == "y" or claim.second for claim in self.judge.claims)

    def report(self) -> Iterator[str]:
        """The lines that the program prints."""
        if isinstance(self.judge, AnswerJudge):
            return self.judge.report()
        return ReportWriter(self.judge.subject, self.header.limit, self.judge.claims).lines()

"""What the comparisons take of tools/recheck, a checker that shares no code with the program: over packages and their architecture."""
import io
import os
import sys

sys.path.insert(0, os.path.join(os.path.dirname(os.path.abspath(__file__)), "..", "tools"))

from distfuture_tools.checker import matching, packages as reading, report
from distfuture_tools.checker.certificate import Subject as CheckedSubject
from distfuture_tools.checker.checking import Checker
from distfuture_tools.checker.clusters import Classes, cuts_of, greatest, has_own_version, members_of_clusters
from distfuture_tools.checker.lines import KINDS
from distfuture_tools.checker.packages import Refusal, Repository
from distfuture_tools.checker.relation import is_name
from distfuture_tools.checker.version import fault_of, just_above, key_of

End, BY_VERSION, after, top_of, clusters_of = Refusal, key_of, just_above, greatest, members_of_clusters


def answer_of(refusal):
    """(status, standard output, standard error) of a run that is refused so."""
    return refusal.status, "", f"distfuture: {refusal.text}\n"


def read_version(text):
    """A version's key and None, or None and its first fault."""
    fault = fault_of(text)
    return (None, fault) if fault else (key_of(text), None)


def compare_versions(first, second):
    return (first > second) - (first < second)


def same_version(first, second):
    return key_of(first) == key_of(second)


def satisfies(version, bound):
    return bound.allows(version)


def read_packages(data):
    repository = reading.read_packages(data)
    return repository.packages, repository.architecture


def is_usable(qualifier, arch):
    return Repository([], arch).is_usable(matching.Atom(b"", qualifier, None))


def matches(atom, package, arch):
    return matching.matches(atom, package, Repository([], arch))


def in_conflict(p, q, arch):
    return any(matches(atom, q, arch) for atom in p.conflicts) or any(matches(atom, p, arch) for atom in q.conflicts)


def newest(packages):
    return Repository(packages, None).newest().packages


def usable_atoms(packages, arch):
    atoms = [atom for p in packages for item in p.items for atom in item] + [atom for p in packages for atom in p.conflicts]
    return [atom for atom in atoms if is_usable(atom.qualifier, arch)]


def classes_of(packages, arch):
    """The classes of each cluster of the newest versions."""
    return [cluster.classes for cluster in Classes(Repository(packages, arch).newest()).clusters]


def new_names(packages, arch):
    return Classes(Repository(packages, arch)).new_names()


def classes_report(packages, arch):
    return "".join(line + "\n" for line in report.classes_report(Repository(packages, arch)))


def Subject(packages, arch, kind, essential):
    return CheckedSubject(Repository(packages, arch), kind, essential)


def check_read(packages, arch, cert, subjects=None, kinds=KINDS):
    """(status, standard output, standard error, and of an accepted certificate its subject, limit and claims)."""
    checker = Checker(Repository(packages, arch))
    checker.subjects = {} if subjects is None else subjects
    try:
        accepted = checker.check(io.BytesIO(cert), kinds)
    except Refusal as refusal:
        return (*answer_of(refusal), None)
    judge = accepted.judge
    claims = (judge.subject, accepted.header.limit, judge.claims) if accepted.header.kind in KINDS else None
    return int(accepted.is_undecided()), "".join(line + "\n" for line in accepted.report()), "", claims

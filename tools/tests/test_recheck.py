"""recheck: stored files of all kinds, the examples of the documents with their edits, and proofs for a checker of LRAT."""
import io
import os
import shutil
import subprocess
import tempfile
import unittest
from unittest import mock

from distfuture_tools import recheck
from distfuture_tools.checker import limits, version
from distfuture_tools.checker.checking import Checker
from distfuture_tools.checker.packages import Refusal, read_packages
from distfuture_tools.command import Fault

from . import lrat_reader
from .support import run, stored, text_of

KINDS = ("strong", "outdated", "challenged")
NAMES = ("addon", "theme", "desktop", "lost", "old", "p")

# The first example of docs/CERTIFICATES.md, and its edits: the line that changes, its text (None: it goes), the refusal.
TWO = b"Package: a\nVersion: 1\nDepends: b\n\nPackage: b\nVersion: 1\n"
STRONG = "distfuture-certificate 1 strong plain 10000 2 2 1\nq 1\nm 1 2\nq 1 -2\nf 1\ns 1 1 0 2 0\nq 2\nm 2\ns 2 2 0 0\ne\n"
EDITS_OF_STRONG = [
    (1, "distfuture-certificate 1 strong plain 10000 2 2 2", 1, "BadHeader"), (2, "q 1 1", 2, "BadRecord"), (2, "q 3", 2, "OutOfRange"),
    (2, "f 1", 2, "OutOfOrder"), (3, "m 1", 3, "NotAnInstallation"), (4, "d 2 0 2", 4, "UnknownLine"), (5, "f", 5, "BadLine"),
    (5, "u", 5, "LimitNotReached"), (6, "s 1 1 0 0", 6, "Incomplete"), (6, "s 1 2 0 2 0", 6, "WrongClaim"), (9, None, 9, "Incomplete"),
    (10, "e\ne", 11, "BadRecord"), (2, "q 4294967296", 2, "BadRecord"), (5, "f 4294967296", 5, "BadRecord"), (2, "q 01", 2, "BadRecord"),
    (10, "e\n", 11, "BadRecord"), (3, "m 2 1", 3, "BadRecord"), (2, "", 2, "BadRecord"), (10, None, 10, "Truncated"),
]
LIBRARY = b"Package: libx\nVersion: 1\n\nPackage: p\nVersion: 1\nDepends: libx (<< 2)\n"
CHALLENGED = ("distfuture-certificate 1 challenged plain 10000 2 11 16\nq 1 2\nm 1 2\nc 1 1 0 0\nq 1 3\nm 1 2 3\nq 3 4\nm 3 4 5\nq 3 6\nf 6 12 5 1\n"
              "q 3 8\nf 8 12 5 2\nc 2 2 3 0 1 2 1 3 0\ne\n")
EDITS_OF_CHALLENGED = [(6, "m 1 4", 6, "NotAFuture"), (6, "m 1 3", 6, "NotAnInstallation"), (13, "c 2 2 3 0 1 2 0", 13, "Incomplete"),
                       (13, "c 2 2 3 0 1 2 1 4 0", 13, "WrongClaim"), (13, "x 2", 13, "WrongClaim")]


def judged(packages: bytes, cert: str):
    return Checker(read_packages(packages)).check(io.BytesIO(cert.encode()))


def edited(cert: str, line: int, text: str | None) -> str:
    lines = cert.splitlines(keepends=True)
    lines[line - 1:line] = [] if text is None else [text + "\n"]
    return "".join(lines)


class StoredFiles(unittest.TestCase):
    def test_certificates_give_the_reports_of_the_program(self):
        for kind in KINDS:
            for name in (f"today.{kind}", f"today.{kind}-essential"):
                with self.subTest(name):
                    self.assertEqual(run(recheck.main, stored("today.txt"), stored(name + ".cert"), "--report"), (0, text_of(stored(name))))

    def test_explanations_and_repairs_give_what_the_program_prints(self):
        for name in NAMES:
            for kind, printed in (("explain", "explanation"), ("repair", "repaired")):
                with self.subTest(f"{kind} {name}"):
                    wanted = text_of(stored(f"today.{name}.{printed}"))
                    self.assertEqual(run(recheck.main, stored("today.txt"), stored(f"today.{name}.{kind}")), (0, wanted))

    def test_derived_lines_and_what_is_undecided(self):
        for name, status in (("hard.strong", 0), ("hard.limit", 1), ("hard.outdated", 0)):
            self.assertEqual(run(recheck.main, stored("hard.txt"), stored(name + ".cert"), "--report"), (status, text_of(stored(name))))

    def test_tells_in_short_what_is_claimed(self):
        _, text = run(recheck.main, stored("today.txt"), stored("today.challenged.cert"))
        self.assertEqual(text.splitlines()[:5], ["accepted: challenged, mode plain, limit 10000", "packages: 12", "uninstallable: 5", "challenges: 5",
                                                 "undecided: 0"])

    def test_refuses_another_archive(self):
        with self.assertRaisesRegex(Fault, "certificate refused at line 1: BadHeader") as raised:
            run(recheck.main, stored("later.txt"), stored("today.strong.cert"))
        self.assertEqual(raised.exception.status, 4)

    def test_refuses_a_bad_archive(self):
        with self.assertRaisesRegex(Fault, "bad packages at line 1: NoColon") as raised:
            run(recheck.main, stored("today.strong.cert"), stored("today.strong.cert"))
        self.assertEqual(raised.exception.status, 3)


class Documents(unittest.TestCase):
    def check_edits(self, packages, cert, edits):
        judged(packages, cert)
        for line, text, refused_at, cause in edits:
            with self.subTest(f"line {line} as {text}"), self.assertRaises(Refusal) as raised:
                judged(packages, edited(cert, line, text))
            self.assertEqual(raised.exception.text, f"certificate refused at line {refused_at}: {cause}")

    def test_the_first_example_and_its_edits(self):
        self.check_edits(TWO, STRONG, EDITS_OF_STRONG)

    def test_the_example_of_futures_and_its_edits(self):
        self.check_edits(LIBRARY, CHALLENGED, EDITS_OF_CHALLENGED)

    def test_texts_without_an_end(self):
        for cert, line in (("", 1), (STRONG[:-1], 10), (STRONG + "x", 11)):
            with self.assertRaisesRegex(Refusal, f"at line {line}: Truncated"):
                judged(TWO, cert)

    def test_the_least_certificate(self):
        self.assertFalse(judged(b"", "distfuture-certificate 1 strong plain 10000 0 0 0\ne\n").is_undecided())

    def test_an_explanation_needs_each_of_its_lines(self):
        two = b"Package: a\nVersion: 1\nDepends: b\n\nPackage: b\nVersion: 1\nConflicts: a\n"
        lines = "distfuture-explain 1 10000 2 2 1\nq 1 3 4\nf 1 2\nq 1 4\nm 1 4\nq 1 3\nm 1 2 3\ne\n"
        self.assertEqual(list(judged(two, lines).report()), ["package a=1", "broken", "needs a=1: b", "apart a=1 b=1"])
        with self.assertRaisesRegex(Refusal, "at line 7: Incomplete"):
            judged(two, edited(lines, 7, None))

    def test_a_repair_by_its_counter(self):
        packages = LIBRARY.replace(b"<<", b"=")
        lines = "distfuture-repair 1 10000 2 15 23 2 0\nq 3 -15\nf 12 7 18 21 22\nm 3 6 7 12 14 15\ne\n"
        self.assertEqual(list(judged(packages, lines).report()), ["package p=1", "least 1", "move libx=1 to 2"])
        with self.assertRaisesRegex(Refusal, "at line 4: Incomplete"):
            judged(packages, edited(lines, 3, None))

    def test_what_is_undecided_needs_new_lines(self):
        """At limit 1 the question is left open by one derived line, which is new where propagation does not find it."""
        packages = (b"Package: a\nVersion: 1\nDepends: b | c\n\nPackage: b\nVersion: 1\nDepends: d\n\n"
                    b"Package: c\nVersion: 1\nDepends: d\n\nPackage: d\nVersion: 1\n")
        front = "distfuture-certificate 1 strong plain 1 4 4 3\nq 1\n"
        rest = "u\ny 1\nq 2\nm 2 4\nq 2 -4\nf 2\ns 2 1 0 4 0\nq 3\nm 3 4\nq 3 -4\nf 3\ns 3 2 0 4 0\nq 4\nm 4\ns 4 3 0 0\ne\n"
        self.assertTrue(judged(packages, front + "d 4 -1 0 2 3 1\n" + rest).is_undecided())
        with self.assertRaisesRegex(Refusal, "at line 4: NotNew"):
            judged(packages, front + "d 2 3 -1 0 1\n" + rest)


class Limits(unittest.TestCase):
    """What is too large for the checker, at limits that small archives pass."""

    EXPLAIN = (b"Package: a\nVersion: 1\nDepends: b\n\nPackage: b\nVersion: 1\nConflicts: a\n",
               "distfuture-explain 1 10000 2 2 1\nq 1 3 4\nf 1 2\nq 1 4\nm 1 4\nq 1 3\nm 1 2 3\ne\n")
    REPAIR = LIBRARY.replace(b"<<", b"="), "distfuture-repair 1 10000 2 15 23 2 0\nq 3 -15\nf 12 7 18 21 22\nm 3 6 7 12 14 15\ne\n"
    DERIVED = TWO, STRONG.replace("q 1\n", "q 1\nd -1 2 0 1\nd -1 2 0 1\n", 1)

    def check(self, files, name, least):
        """The least limit that the files keep, and what is said where it is one less."""
        with mock.patch.object(limits, name, least):
            judged(*files)
        text = {"VARIABLES": "Variables", "CLAUSES": "Clauses", "LITERALS": "Literals", "LINES": "Lines", "LINE_LITERALS": "LineLiterals"}[name]
        with mock.patch.object(limits, name, least - 1), self.assertRaises(Refusal) as raised:
            judged(*files)
        self.assertEqual((raised.exception.status, raised.exception.text), (8, f"too large: {text}"))

    def test_clauses_of_the_present(self):
        two = b"Package: a\nVersion: 1\n\nPackage: a\nVersion: 2\nConflicts: a, b\n\nPackage: b\nVersion: 1\nConflicts: a\n"
        files = two, "distfuture-certificate 1 strong plain 1 3 3 3\nq 1\nm 1\ns 1 1 0 0\nq 2\nm 2\ns 2 2 0 0\nq 3\nm 3\ns 3 3 0 0\ne\n"
        self.check(files, "CLAUSES", 3)
        self.check(files, "LITERALS", 6)
        with mock.patch.object(limits, "CLAUSES", 1):       # the pairs in conflict alone are more: they are not all kept
            self.assertRaisesRegex(Refusal, "too large: Clauses", judged, *files)

    def test_futures(self):
        for name, least in (("VARIABLES", 11), ("CLAUSES", 16), ("LITERALS", 33)):
            self.check((LIBRARY, CHALLENGED), name, least)

    def test_explanations_and_repairs(self):
        for name, least in (("VARIABLES", 4), ("CLAUSES", 2), ("LITERALS", 6)):
            self.check(self.EXPLAIN, name, least)
        for name, least in (("VARIABLES", 15), ("CLAUSES", 23), ("LITERALS", 46)):
            self.check(self.REPAIR, name, least)

    def test_derived_lines(self):
        self.check(self.DERIVED, "LINES", 2)
        self.check(self.DERIVED, "LINE_LITERALS", 4)
        packages, cert = self.DERIVED
        with mock.patch.object(limits, "LINES", 1), self.assertRaisesRegex(Refusal, "at line 4: BadLine"):
            judged(packages, edited(cert, 4, "d 1 0 1"))

    def test_clauses_come_before_the_numbers_of_the_first_line(self):
        packages, cert = self.REPAIR
        with mock.patch.object(limits, "CLAUSES", 22):
            self.assertRaisesRegex(Refusal, "too large: Clauses", judged, packages, edited(cert, 1, "distfuture-repair 1 10000 3 15 23 2 0"))
            self.assertRaisesRegex(Refusal, "at line 1: BadHeader", judged, packages, edited(cert, 1, "distfuture-repair 1 10000 2 15 23 2 65"))

    def test_numbers_out_of_range(self):
        for (packages, cert), fronts in ((self.EXPLAIN, ("explain 1 0 2 2 1", "explain 1 1000001 2 2 1", "explain 1 10000 2 2 0", "explain 1 10000 2 2 3")),
                                         (self.REPAIR, ("repair 1 10000 2 15 23 0 0", "repair 1 10000 2 15 23 3 0", "repair 1 10000 2 15 23 2 65"))):
            for front in fronts:
                with self.subTest(front):
                    self.assertRaisesRegex(Refusal, "at line 1: BadHeader", judged, packages, edited(cert, 1, f"distfuture-{front}"))


class Versions(unittest.TestCase):
    def test_rising_versions(self):
        rising = [b"~~", b"~~a", b"~", b"0", b"1~rc1", b"1", b"1A", b"1+b1", b"1.0+a", b"1.a", b"2", b"10", b"10-1~", b"10-1", b"9" * 5000, b"1" + b"0" * 5000,
                  b"1:0"]
        self.assertEqual(sorted(reversed(rising), key=version.key_of), rising)

    def test_equal_versions(self):
        for first, second in ((b"1", b"1-0"), (b"1.0", b"1."), (b"0:01", b"1"), (b"a", b"a0"), (b"1.00", b"1.0")):
            self.assertEqual(version.key_of(first), version.key_of(second), (first, second))

    def test_faults(self):
        for text, fault in ((b"", "Empty"), (b":1", "BadEpoch"), (b"x:1", "BadEpoch"), (b"2147483648:1", "EpochTooLarge"), (b"1:", "EmptyUpstream"),
                            (b"1-", "EmptyRevision"), (b"1_0", "BadByte"), (b"1:2:3-4-5", None)):
            self.assertEqual(version.fault_of(text), fault, text)

    def test_rebuilds(self):
        for text, wanted in ((b"1+b1", b"1"), (b"1+b1+b2", b"1+b1"), (b"1+b", b"1+b"), (b"+b1", b"+b1"), (b"1-+b1", b"1-+b1")):
            self.assertEqual(version.without_rebuild(text), wanted)


class Proofs(unittest.TestCase):
    def proofs(self):
        """Of each stored file its formula and its proof, by their paths."""
        names = [f"today.{kind}{mode}.cert" for kind in KINDS for mode in ("", "-essential")]
        names += [f"today.{name}.{kind}" for name in NAMES for kind in ("explain", "repair")]
        for name in names + ["hard.strong.cert", "hard.outdated.cert"]:
            with tempfile.TemporaryDirectory() as folder, self.subTest(name):
                paths = os.path.join(folder, "cnf"), os.path.join(folder, "lrat")
                run(recheck.main, stored(name.split(".")[0] + ".txt"), stored(name), "--dimacs", paths[0], "--lrat", paths[1])
                yield name, paths

    def test_a_small_reader_accepts_them(self):
        for _, (dimacs, lrat) in self.proofs():
            self.assertTrue(lrat_reader.is_refutation(text_of(dimacs), text_of(lrat)))

    def test_the_small_reader_refuses_what_does_not_follow(self):
        formula = "p cnf 2 3\n1 2 0\n-1 0\n-2 0\n"
        for proof, wanted in (("4 2 0 2 1 0\n5 0 3 4 0\n", True), ("4 2 0 1 0\n5 0 3 4 0\n", False), ("4 2 0 2 1 0\n", False),
                              ("4 0 2 3 1 0\n", True), ("4 0 2 3 1 2 0\n", False)):
            self.assertEqual(lrat_reader.is_refutation(formula, proof), wanted, proof)

    @unittest.skipUnless(shutil.which("lrat-check"), "not installed: lrat-check (Debian's drat-trim, from trixie on)")
    def test_lrat_check_accepts_them(self):
        for _, paths in self.proofs():
            done = subprocess.run(["lrat-check", *paths], capture_output=True, text=True, check=False)
            self.assertIn("\nc VERIFIED\n", done.stdout)


if __name__ == "__main__":
    unittest.main()

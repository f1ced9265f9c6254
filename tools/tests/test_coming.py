"""coming: the uploads of a later file that break something, and the journals of its proof."""
import tempfile
import unittest

from .support import program_or_skip, require, run, stored, text_of

require("apt_pkg", "debian")

from distfuture_tools import coming, uploads, versions
from distfuture_tools.archive import newest, packages_of
from distfuture_tools.command import Fault

REPORTS = ["--challenged", stored("today.challenged"), "--classes", stored("today.classes")]
LISTED = """\
2 of 4 uploads break something
x 1 to 2+b1 breaks 2
    p=1
    q=1 (comes too)
x 1 to 2 breaks 2
    p=1
    q=1 (comes too)
"""


def found_in_stored_files():
    later = newest(packages_of(stored("later.txt")))
    its = list(uploads.uploads_of(coming.read_clusters(stored("today.classes")), later))
    return later, coming.breaking_uploads(its, coming.read_breaks(stored("today.challenged")), later)


class Listing(unittest.TestCase):
    def test_lists_what_breaks_most_first(self):
        self.assertEqual(run(coming.main, stored("today.txt"), stored("later.txt"), *REPORTS), (0, LISTED))

    def test_leaves_out_what_comes_anew(self):
        _, text = run(coming.main, stored("today.txt"), stored("later.txt"), *REPORTS, "--stays")
        self.assertEqual(text.count("breaks 1\n    p=1\n"), 2)
        self.assertNotIn("q=1", text)

    def test_nothing_comes_from_the_same_file(self):
        self.assertEqual(run(coming.main, stored("today.txt"), stored("today.txt"), *REPORTS), (0, "0 of 0 uploads break something\n"))

    def test_refuses_another_report(self):
        with self.assertRaisesRegex(Fault, "this is a report of outdated, and one of challenged"):
            run(coming.main, stored("today.txt"), stored("later.txt"), "--challenged", stored("today.outdated"), "--classes", stored("today.classes"))

    def test_refuses_what_is_no_report(self):
        with self.assertRaisesRegex(Fault, "this is no report"):
            coming.read_breaks(stored("today.txt"))

    def test_refuses_another_architecture(self):
        with tempfile.NamedTemporaryFile("w", encoding="utf-8") as other:
            other.write(text_of(stored("later.txt")).replace("amd64", "i386"))
            other.flush()
            with self.assertRaisesRegex(Fault, "one file is for amd64, the other for i386"):
                run(coming.main, stored("today.txt"), other.name, *REPORTS)

    def test_a_proof_needs_the_certificate(self):
        with self.assertRaisesRegex(Fault, "--cert"):
            run(coming.main, stored("today.txt"), stored("later.txt"), *REPORTS, "--proof")


class Classes(unittest.TestCase):
    def test_versions_in_classes(self):
        for version, text, wanted in [("3.12", "= 3.12", True), ("3.12-1", "= 3.12", False), ("1.5", ">> 1, << 2", True), ("2", ">> 1, << 2", False),
                                      ("1:0", ">> 2", True), ("0", "any", True), ("1~", "<< 1", True)]:
            self.assertEqual(versions.is_in_class(version, text), wanted, (version, text))


class Journals(unittest.TestCase):
    def test_a_step_keeps_known_provides_and_tells_the_rest(self):
        later, found = found_in_stored_files()
        step = uploads.Journal(newest(packages_of(stored("today.txt"))), later).step(found[1].upload)
        self.assertEqual(step.text.splitlines()[:6], ["= upload libx 2", "Package: libx", "Source: x", "Version: 2", "Architecture: amd64",
                                                      "Provides: x-abi (= 2), x-plain"])
        self.assertEqual(list(uploads.by_reason(step.deviations)), [
            "without the new entry of Provides x-more: libx", "at 2+b1, a stanza without relations stands for it: libx-dev",
            "not there any more, a stanza without relations stands for it: x-doc", "a new name of the source, left out: libx-tools"])

    def test_entries_go_on_in_their_order(self):
        old = [("a", None, "1"), ("b", None, None), ("c", "any", "1")]
        new = [("c", "any", "2"), ("b", None, None), ("a", None, "1"), ("b", None, None)]
        self.assertEqual(uploads.carried(old, "1", new, "2"), ([("b", None, None), ("c", "any", "2")], [("a", None, "1"), ("b", None, None)]))

    def test_one_cluster_stands_once_in_a_journal(self):
        _, found = found_in_stored_files()
        self.assertEqual([len(its) for its in coming.rounds_of(found)], [1, 1])

    def test_follow_proves_each_line(self):
        program = program_or_skip()
        with tempfile.TemporaryDirectory() as folder:
            status, text = run(coming.main, stored("today.txt"), stored("later.txt"), "--proof", "--program", program, "--keep", folder)
            self.assertEqual(status, 0)
            self.assertTrue(text.startswith(LISTED))
            self.assertIn("\nbroken p=1 by libx=1 at 2\n", text)
            self.assertTrue(text.endswith("proved: 4 lines, not proved: 0\n"))
            self.assertIn("= upload libx 2\n", text_of(f"{folder}/journal.2"))


if __name__ == "__main__":
    unittest.main()

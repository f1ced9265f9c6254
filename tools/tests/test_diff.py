"""diff: two reports of one kind side by side."""
import io
import unittest

from .support import require, run, stored

require("apt_pkg")

from distfuture_tools import report_diff
from distfuture_tools.command import Fault
from distfuture_tools.reports import Report

NAMES_ALONE = """\
- uninstallable addon
- uninstallable desktop
+ uninstallable p
+ uninstallable r
- uninstallable theme
+ strong addon: mail
+ strong desktop: libx
+ strong desktop: libx-dev
+ strong desktop: mail
+ strong desktop: q
- strong mail: libx
- strong p: libx
- strong r: libx
+ strong theme: libx
+ strong theme: mail
"""
SEVERAL_VERSIONS = """\
report: "strong"
limit: 7
packages: 4
uninstallable: []
strong:
  - package: "a=1"
    on:
      - "b=1"
  - package: "a=2"
    on:
      - "b=1"
      - "c=1"
impact: []
undecided: []
undecided_pairs: []
"""


class Diff(unittest.TestCase):
    def test_names_alone(self):
        self.assertEqual(run(report_diff.main, stored("today.strong"), stored("merged.strong")), (1, NAMES_ALONE))

    def test_turned_round(self):
        _, text = run(report_diff.main, stored("merged.strong"), stored("today.strong"))
        swapped = sorted({"+": "-", "-": "+"}[line[0]] + line[1:] for line in NAMES_ALONE.splitlines())
        self.assertEqual(sorted(text.splitlines()), swapped)

    def test_with_versions_and_classes(self):
        _, text = run(report_diff.main, stored("today.challenged"), stored("merged.challenged"), "--versions")
        self.assertIn("- challenged libx=1: = 2: p=1\n", text)
        self.assertIn("+ challenged libx=2: >> 2: q=2\n", text)

    def test_a_report_and_itself(self):
        for kind in ("strong", "outdated", "challenged", "classes"):
            self.assertEqual(run(report_diff.main, stored(f"today.{kind}"), stored(f"today.{kind}"), "--versions"), (0, ""))

    def test_versions_of_one_name_are_one_where_names_count(self):
        self.assertEqual([sorted(row.items) for row in report_diff.rows_of(Report(io.StringIO(SEVERAL_VERSIONS)), False)], [["b", "c"]])
        self.assertEqual(len(list(report_diff.rows_of(Report(io.StringIO(SEVERAL_VERSIONS)), True))), 2)

    def test_counts(self):
        _, text = run(report_diff.main, stored("today.strong"), stored("merged.strong"), "--count")
        self.assertEqual(text, "uninstallable: +2 -3\nstrong: +7 -3\nundecided: +0 -0\nundecided_pairs: +0 -0\n")

    def test_refuses_two_kinds(self):
        with self.assertRaisesRegex(Fault, "a report of strong, the other of outdated"):
            run(report_diff.main, stored("today.strong"), stored("today.outdated"))


if __name__ == "__main__":
    unittest.main()

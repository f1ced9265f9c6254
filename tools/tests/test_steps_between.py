"""steps-between: what of a later file is a step."""
import unittest

from .support import Files, program_or_skip, require, run, stored, text_of

require("apt_pkg", "debian")

from distfuture_tools import steps_between
from distfuture_tools.archive import packages_of
from distfuture_tools.command import Fault

TODAY = """\
Package: a
Source: s
Version: 1
Provides: va (= 1), vb

Package: b
Source: s
Version: 1

Package: c
Version: 1

Package: d
Version: 1

Package: e
Version: 1
Depends: a

Package: f
Version: 2
"""
LATER = """\
Package: a
Source: s
Version: 2
Provides: va (= 2), vb

Package: b
Source: s
Version: 2

Package: c
Version: 2
Provides: more

Package: e
Version: 1
Depends: a, b

Package: f
Version: 2
Description: a field that does not count

Package: fresh
Version: 1

Package: vb
Version: 1

Package: other
Version: 1
Provides: vc
"""


class StepsBetween(Files):
    TOLD = ("uploads 1\nremovals 1\nnew 1\nleft out, provides what it did not before: 1\n    c (c=1)\n"
            "left out, changed without a later version, or gone back: 1\n    e (e=1)\n"
            "left out, a new name that provides something: 1\n    other=1\nleft out, a new name that was provided before: 1\n    vb=1\n")

    def test_what_is_a_step_and_what_is_not(self):
        today, later = self.file("today", TODAY), self.file("later", LATER)
        status, text = run(steps_between.main, today, later, "--list", "--output", self.path("out"))
        self.assertEqual(status, 0)
        self.assertEqual(sorted(text.split("left out")), sorted(self.TOLD.split("left out")))
        found = {package.name: package for package in packages_of(self.path("out"))}
        self.assertEqual({name: package.version for name, package in found.items()}, {"a": "2", "b": "2", "c": "1", "e": "1", "f": "2", "fresh": "1"})
        self.assertNotIn("b", found["e"].stanza()["Depends"])

    def test_sources_that_move_in_part(self):
        later = TODAY.replace("Package: a\nSource: s\nVersion: 1", "Package: a\nSource: s\nVersion: 2").replace("va (= 1)", "va (= 2)")
        _, text = run(steps_between.main, self.file("today", TODAY), self.file("later", later))
        self.assertIn("uploads 0\nremovals 0\nnew 0\nleft out, some packages of the source moved, and others stayed: 1\n", text)
        later = later.replace("Package: b\nSource: s\nVersion: 1", "Package: b\nSource: s\nVersion: 2+b1")
        _, text = run(steps_between.main, self.file("today", TODAY), self.file("later", later))
        self.assertIn("left out, packages of the source are at several versions: 1\n", text)

    def test_refuses_another_architecture(self):
        other = self.file("other", text_of(stored("later.txt")).replace("amd64", "i386"))
        with self.assertRaisesRegex(Fault, "another architecture"):
            run(steps_between.main, stored("today.txt"), other)

    def test_the_program_makes_the_same_steps(self):
        program = program_or_skip()
        for today, later in ((self.file("today", TODAY), self.file("later", LATER)), (stored("today.txt"), stored("later.txt"))):
            _, text = run(steps_between.main, today, later, "--output", self.path("out"), "--check", "--program", program)
            self.assertRegex(text, r"distfuture steps: \d+ steps lead there\n\Z")


if __name__ == "__main__":
    unittest.main()

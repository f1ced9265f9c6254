"""join: several Packages files as one."""
import os
import unittest

from .support import Files, require, run, stored, text_of

require("apt_pkg", "debian")

from distfuture_tools import join
from distfuture_tools.archive import packages_of
from distfuture_tools.command import Fault

OLD = "Package: e\nVersion: 1\nDepends: a\n"
NEW = "Package: e\nVersion: 1\nDepends: a, b\n"


class Join(Files):
    def test_joins_and_counts(self):
        later = self.file("later.xz", text_of(stored("later.txt")))
        status, text = run(join.main, stored("today.txt"), later)
        self.assertEqual((status, text.count("Package: "), self.errors.getvalue()), (0, 17, "17 stanzas of 2 files, 1 stood twice\n"))

    def test_refuses_two_architectures(self):
        other = self.file("other", text_of(stored("later.txt")).replace("amd64", "i386"))
        with self.assertRaisesRegex(Fault, "for i386, and .*today.txt for amd64"):
            run(join.main, stored("today.txt"), other)

    def test_refuses_two_packages_under_one_label(self):
        with self.assertRaisesRegex(Fault, "e=1 is another package"):
            run(join.main, self.file("one", OLD), self.file("two", NEW))

    def test_refuses_an_empty_file(self):
        with self.assertRaisesRegex(Fault, "has no stanza"):
            run(join.main, stored("today.txt"), self.file("none", ""))

    def test_refuses_a_sources_file(self):
        sources = self.file("sources", "Package: a\nVersion: 1\nArchitecture: any\nFiles:\n 0 1 a_1.dsc\n")
        with self.assertRaisesRegex(Fault, "is a Sources file: take binary-ARCH/Packages"):
            run(join.main, stored("today.txt"), sources)

    def test_output_is_whole_or_not_there(self):
        with self.assertRaises(Fault):
            run(join.main, stored("today.txt"), self.file("none", ""), "--output", self.path("out"))
        self.assertEqual(os.listdir(self.folder), ["none"])
        run(join.main, stored("today.txt"), "--output", self.path("out"))
        self.assertEqual(sum(1 for _ in packages_of(self.path("out"))), 12)


if __name__ == "__main__":
    unittest.main()

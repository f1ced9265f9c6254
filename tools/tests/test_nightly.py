"""nightly: guards of the list, and what is kept."""
import os
import unittest

from .support import Files, program_or_skip, require, run, stored, text_of

require("apt_pkg", "debian")

from distfuture_tools import nightly
from distfuture_tools.command import Fault

LIST = "".join(f"Package: {name}\nVersion: 1\n\n" for name in "abcdef")


class Nightly(Files):
    def test_fetches_plain_and_compressed_lists(self):
        for name in ("list", "list.xz"):
            nightly.fetch(self.file(name, LIST), self.folder, self.path("packages"))
            self.assertEqual(text_of(self.path("packages")), LIST)

    def test_refuses_a_cut_list(self):
        whole = self.file("list.xz", LIST)
        with open(whole, "rb+") as file:
            file.truncate(60)
        with self.assertRaisesRegex(Fault, "is cut"):
            nightly.fetch(whole, self.folder, self.path("packages"))

    def test_guards_the_number_of_stanzas(self):
        self.assertEqual(nightly.guard_list(self.file("list", LIST), 1, self.folder), 6)
        with self.assertRaisesRegex(Fault, "has 0 stanzas"):
            nightly.guard_list(self.file("none", ""), 1, self.folder)
        with self.assertRaisesRegex(Fault, "at least 7"):
            nightly.guard_list(self.path("list"), 7, self.folder)
        with self.assertRaisesRegex(Fault, "is a Sources file"):
            nightly.guard_list(self.file("sources", "Package: a\nVersion: 1\nArchitecture: any\nFiles:\n 0 1 a_1.dsc\n"), 1, self.folder)
        self.file("2026-01-01.packages", LIST * 3)
        with self.assertRaisesRegex(Fault, "may be cut"):
            nightly.guard_list(self.path("list"), 1, self.folder)

    def stub(self, body: str) -> str:
        """A program of a few lines of shell in place of distfuture: its words are KIND PACKAGES CERT."""
        path = self.file("stub", f"#!/bin/sh\n{body}\n")
        os.chmod(path, 0o755)
        return path

    def night(self, body: str, *words: str) -> tuple[int, str]:
        return run(nightly.main, self.file("list", LIST), self.path("kept"), "--name", "n", "--kind", "strong", "--program", self.stub(body), *words)

    def test_keeps_what_is_checked(self):
        wanted = "packages: 6 stanzas\nstrong: status 1, report 7 bytes, certificate 5 bytes, checked\n"
        self.assertEqual(self.night('echo report; [ "$1" = check ] || echo cert > "$3"; exit 1'), (1, wanted))
        self.assertEqual(sorted(os.listdir(self.path("kept"))), ["n.packages", "n.strong.cert", "n.strong.report"])
        with self.assertRaisesRegex(Fault, "is there already"):
            self.night("exit 0")

    def test_keeps_nothing_that_is_not(self):
        for body, told in (("exit 8", "status 8"), ('echo $1; [ "$1" = check ] || : > "$3"', "does not give the report"),
                           ('if [ "$1" = check ]; then exit 4; fi; : > "$3"', "status 4")):
            with self.assertRaisesRegex(Fault, told):
                self.night(body)
            self.assertEqual(os.listdir(self.path("kept")), [])

    def test_with_the_program(self):
        program = program_or_skip()
        status, text = run(nightly.main, stored("today.txt"), self.path("kept"), "--name", "n", "--program", program)
        self.assertEqual((status, text.count("checked")), (0, 3))
        self.assertEqual(text_of(self.path("kept/n.strong.report")), text_of(stored("today.strong")))


if __name__ == "__main__":
    unittest.main()

"""one: all that reports say of one package."""
import unittest

from distfuture_tools import one

from .support import run, stored


class One(unittest.TestCase):
    def test_what_an_upload_of_its_source_breaks(self):
        status, text = run(one.main, "x-doc", stored("today.classes"), stored("today.challenged"))
        self.assertEqual(status, 0)
        self.assertIn("x-doc=1 is of the source x, which moves as a whole:\n    libx=1\n    libx-dev=1\n", text)
        self.assertIn("libx=1 breaks, at = 2 (2):\n    p=1\n    q=1\n", text)

    def test_both_directions_of_strong(self):
        _, text = run(one.main, "libx-dev", stored("today.strong"), "--count")
        self.assertEqual(text, "libx-dev=1 can't be installed without (1):\nlibx-dev=1 is needed by (1):\n")

    def test_what_breaks_it(self):
        _, text = run(one.main, "p=1", stored("today.challenged"))
        self.assertEqual(text, "p=1 is broken by libx=1 at = 2\np=1 is broken by libx=1 at >> 2\n")

    def test_single_names(self):
        _, text = run(one.main, "old", stored("today.outdated"), stored("today.strong"))
        self.assertEqual(text, "old=1 is outdated: no future can install it\nold=1 can't be installed\n")

    def test_nothing_is_said(self):
        self.assertEqual(run(one.main, "zz", stored("today.strong")), (1, "the reports say nothing of zz\n"))


if __name__ == "__main__":
    unittest.main()

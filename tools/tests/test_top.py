"""top: the greatest entries of reports."""
import tempfile
import unittest

from distfuture_tools import top
from distfuture_tools.command import Fault

from .support import run, stored


class Top(unittest.TestCase):
    def test_impact_sets(self):
        self.assertEqual(run(top.main, stored("today.strong"))[1], "packages that can't be installed without\n5 libx=1\n1 libx-dev=1\n")

    def test_uploads_by_their_sources(self):
        wanted = "packages that are broken by\n2 x at = 2\n2 x at >> 2\n"
        self.assertEqual(run(top.main, stored("today.challenged"), "--classes", stored("today.classes"), "-n", "2")[1], wanted)

    def test_classes(self):
        self.assertEqual(run(top.main, stored("today.classes"), "-n", "3")[1], "classes of later versions of\n3 addon\n3 theme\n3 x\n")

    def test_refuses_what_has_no_order(self):
        with self.assertRaisesRegex(Fault, "a report of outdated"):
            run(top.main, stored("today.outdated"))

    def test_refuses_what_is_no_report(self):
        with tempfile.NamedTemporaryFile("w", suffix=".report") as file:
            with self.assertRaisesRegex(Fault, "this is no report"):
                run(top.main, file.name)


if __name__ == "__main__":
    unittest.main()

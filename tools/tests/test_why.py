"""why: refutations in words, and as a graph."""
import unittest

from .support import require, run, stored

require("apt_pkg", "debian")

from distfuture_tools import why
from distfuture_tools.command import Fault

Q_WITHOUT = """\
q=1 can't be installed without libx-dev=1
    q=1 needs libx-dev (= 1), and nothing is left that serves it
q=1 can't be installed without libx=1
    q=1 needs libx-dev (= 1): so libx-dev=1
    libx-dev=1 needs libx (= 1), and nothing is left that serves it
"""


def asked(kind: str, *words: str) -> str:
    return run(why.main, stored("today.txt"), stored(f"today.{kind}.cert"), *words)[1]


class Why(unittest.TestCase):
    def test_strong_pairs_the_shortest_first(self):
        self.assertEqual(asked("strong", "q"), Q_WITHOUT)

    def test_one_pair(self):
        self.assertEqual(asked("strong", "q=1", "libx"), "".join(Q_WITHOUT.splitlines(keepends=True)[2:]))

    def test_the_first_package(self):
        text = asked("strong", "addon")
        self.assertTrue(text.startswith("addon=1 can't be installed\n"))
        _, text = run(why.main, stored("merged.txt"), stored("merged.strong.cert"), "addon", "mail")
        self.assertTrue(text.startswith("addon=1 can't be installed without mail=3\n"))

    def test_essential_mode(self):
        self.assertEqual(asked("strong-essential", "q"), Q_WITHOUT)

    def test_what_is_not_installable(self):
        self.assertEqual(asked("strong", "theme"), "theme=1 can't be installed\n    mail=2 and theme=1 exclude each other: so no mail=2\n"
                                                   "    theme=1 needs mail, and nothing is left that serves it\n")

    def test_outdated(self):
        self.assertEqual(asked("outdated", "old"), "no future can install old=1\n    old=1 needs libx (<< 1), and nothing is left that serves it\n")

    def test_challenges_by_source_or_package(self):
        for other in ("x", "libx", "x-doc"):
            text = asked("challenged", "p", other, "--most", "1")
            self.assertEqual(text.splitlines()[:2], ["p=1 is broken by source x at = 2", "    p=1 needs libx (<< 2): so libx at >> 1, << 2"])

    def test_laws_on_demand(self):
        self.assertIn("a package is as it is, or its source moves: so no libx=1", asked("challenged", "p", "--laws"))

    def test_a_graph(self):
        lines = asked("challenged", "p", "--dot", "--most", "1").splitlines()
        self.assertEqual((lines[0], lines[-1]), ("digraph refutation {", "}"))
        self.assertIn('  "0: p=1" -> "0: libx at >> 1, << 2" [label="p=1 needs libx (<< 2)"];', lines)

    def test_derived_lines_are_told(self):
        _, text = run(why.main, stored("hard.txt"), stored("hard.strong.cert"), "p")
        self.assertIn("p=1 can't be installed\n    derived: ", text)

    def test_nothing_to_tell(self):
        with self.assertRaisesRegex(Fault, "refutes nothing here") as raised:
            asked("outdated", "p")
        self.assertEqual(raised.exception.status, 1)

    def test_faults(self):
        for words, told in ((["strong", "nobody"], "no package nobody"), (["strong", "q=7"], "no package q=7")):
            with self.assertRaisesRegex(Fault, told):
                asked(*words)
        with self.assertRaisesRegex(Fault, "another archive"):
            run(why.main, stored("later.txt"), stored("today.strong.cert"), "q")
        with self.assertRaisesRegex(Fault, "no certificate of strong"):
            run(why.main, stored("today.txt"), stored("today.old.explain"), "q")


if __name__ == "__main__":
    unittest.main()

"""explain-tree and why-all: explanations as trees, and what broken packages come down to."""
import unittest

from .support import program_or_skip, require, run, stored

require("apt_pkg", "debian")

from distfuture_tools import explain_tree, why_all
from distfuture_tools.command import Fault
from distfuture_tools.explanation import TreeMaker, read_explanation

DESKTOP = """\
desktop=1 can't be installed
└─ needs theme | addon
   ├─ addon=1
   │  ├─ needs mail (>= 1)
   │  │  └─ mail=2
   │  │     ├─ excludes addon=1: declared by mail as addon (<< 2)
   │  │     └─ excludes theme=1: declared by mail as theme (<< 3)
   │  └─ excludes mail=2: declared by mail as addon (<< 2)
   └─ theme=1
      ├─ needs mail
      │  └─ mail=2
      │     ├─ excludes addon=1: declared by mail as addon (<< 2)
      │     └─ excludes theme=1: declared by mail as theme (<< 3)
      └─ excludes mail=2: declared by mail as theme (<< 3)
"""
GROUPS = """\
mail: 3
    addon=1 and mail=2 exclude each other: declared by mail as addon (<< 2)
        addon=1
    addon=1 and mail=2 exclude each other: declared by mail as addon (<< 2); mail=2 and theme=1 exclude each other: declared by mail as theme (<< 3)
        desktop=1
    mail=2 and theme=1 exclude each other: declared by mail as theme (<< 3)
        theme=1
libx: 1
    nothing serves libx (<< 1): libx is there at 1
        old=1
nobody: 1
    nothing serves nobody: no package is named nobody or provides it
        lost=1
"""


def tree_of(name: str, *options: str) -> str:
    return run(explain_tree.main, stored("today.txt"), stored(f"today.{name}.explanation"), *options)[1]


def stored_explanation(name: str):
    with open(stored(f"today.{name}.explanation"), encoding="utf-8") as file:
        return read_explanation(file)


class Trees(unittest.TestCase):
    def test_a_tree_with_two_branches(self):
        self.assertEqual(tree_of("desktop"), DESKTOP)

    def test_what_nothing_serves(self):
        self.assertEqual(tree_of("lost"), "lost=1 can't be installed\n└─ needs nobody\n"
                                          "   └─ nothing serves this: no package is named nobody or provides it\n")
        self.assertIn("nothing serves this: libx is there at 1\n", tree_of("old"))

    def test_what_can_be_installed(self):
        self.assertEqual(tree_of("p"), "p=1 can be installed\n")

    def test_a_graph_has_each_node_once(self):
        lines = tree_of("desktop", "--dot").splitlines()
        self.assertEqual(sum("[label=" in line for line in lines), 14)
        self.assertEqual(sum("->" in line for line in lines), 13)

    def test_marked_relations(self):
        found = read_explanation(["package a=1", "broken", "perhaps needs a=1: b | c (>= 2)", "perhaps apart a=1 b=1"])
        self.assertFalse(found.needs[0].is_sure or found.apart[0].is_sure)
        self.assertEqual([atom.spelled() for atom in found.needs[0].item], ["b", "c (>= 2)"])

    def test_faults(self):
        for lines in ([], ["package a=1"], ["report: x", "y"], ["package a=1", "broken", "nonsense"]):
            with self.assertRaises(Fault):
                read_explanation(lines)
        with self.assertRaisesRegex(Fault, "of another one"):
            run(explain_tree.main, stored("later.txt"), stored("today.lost.explanation"))
        with self.assertRaisesRegex(Fault, "ANSWER and --package"):
            run(explain_tree.main, stored("today.txt"))


class Groups(unittest.TestCase):
    def test_uninstallable_packages_of_reports(self):
        for kind in ("strong", "challenged"):
            self.assertEqual(why_all.uninstallable(stored(f"today.{kind}")), ["addon=1", "desktop=1", "lost=1", "old=1", "theme=1"])

    def test_grouped_by_root(self):
        trees = TreeMaker(explain_tree.repository_of(stored("today.txt")))
        groups = why_all.grouped(map(stored_explanation, ("addon", "desktop", "lost", "old", "theme")), trees)
        self.assertEqual("".join(line + "\n" for line in why_all.listed(groups)), GROUPS)

    def test_with_the_program(self):
        program = program_or_skip()
        for options in ([], ["--report", stored("today.strong"), "--jobs", "2"]):
            self.assertEqual(run(why_all.main, stored("today.txt"), "--program", program, *options), (0, "5 packages can't be installed\n" + GROUPS))
        self.assertEqual(run(explain_tree.main, stored("today.txt"), "--program", program, "--package", "desktop=1"), (0, DESKTOP))


if __name__ == "__main__":
    unittest.main()

"""What all tools have in common: help, statuses, pages."""
import os
import re
import subprocess
import sys
import unittest

from .support import require, stored, text_of

require("apt_pkg", "debian")

FOLDER = os.path.dirname(os.path.dirname(os.path.abspath(__file__)))
NO_TOOLS = ("setup", "test", "install", "deb")
TOOLS = sorted(name for name in os.listdir(FOLDER)
               if name not in NO_TOOLS and os.access(f"{FOLDER}/{name}", os.X_OK) and not os.path.isdir(f"{FOLDER}/{name}"))


def run_tool(name: str, *words: str, **options) -> subprocess.CompletedProcess:
    return subprocess.run([sys.executable, f"{FOLDER}/{name}", *words], capture_output="stdout" not in options, text=True, check=False, **options)


class Pages(unittest.TestCase):
    def test_each_tool_has_help_a_section_and_a_man_page(self):
        sections = re.findall(r"^## (\S+)$", text_of(f"{FOLDER}/README.md"), re.MULTILINE)
        self.assertEqual(sorted(sections), TOOLS)
        for name in TOOLS:
            with self.subTest(name):
                done = run_tool(name, "--help")
                self.assertEqual(done.returncode, 0)
                page = text_of(f"{FOLDER}/man/{name}.1").replace("\\-", "-")
                for option in set(re.findall(r"--[a-z]+", done.stdout)) - {"--help"}:
                    self.assertIn(option, page)


    def test_the_others_have_help(self):
        for name in NO_TOOLS:
            done = subprocess.run([f"{FOLDER}/{name}", "--help"], capture_output=True, text=True, check=False)
            self.assertEqual((done.returncode, done.stderr, done.stdout != ""), (0, "", True), name)


class Statuses(unittest.TestCase):
    def test_wrong_words(self):
        for name in TOOLS:
            self.assertEqual(run_tool(name, "--nonsense").returncode, 2, name)

    def test_files_that_are_not_there(self):
        for words in (("top", "/none"), ("diff", "/none", "/none"), ("recheck", "/none", "/none"), ("join", "/none"), ("one", "a", "/none"),
                      ("why", "/none", "/none", "a"), ("steps-between", "/none", "/none"), ("explain-tree", "/none", "/none")):
            self.assertEqual(run_tool(*words).returncode, 5, words)

    def test_files_that_are_something_else(self):
        packages, report, cert = stored("today.txt"), stored("today.strong"), stored("today.strong.cert")
        reports = ("--challenged", stored("today.challenged"), "--classes", stored("today.classes"))
        for words in (("top", packages), ("diff", report, packages), ("one", "a", cert), ("join", packages, report), ("why", packages, report, "q"),
                      ("coming", packages, report, *reports), ("coming", packages, os.devnull, *reports), ("explain-tree", packages, sys.executable),
                      ("steps-between", packages, report), ("recheck", report, cert)):
            done = run_tool(*words)
            self.assertEqual((done.returncode, done.stderr.count("\n")), (3, 1), (words, done.stderr))
        self.assertEqual(run_tool("recheck", packages, report).returncode, 4)

    def test_no_program(self):
        environment = {**os.environ, "DISTFUTURE": "/none"}
        for words in (("coming", stored("today.txt"), stored("later.txt")), ("why-all", stored("today.txt")), ("nightly", stored("today.txt"), "/tmp")):
            done = run_tool(*words, env=environment)
            self.assertEqual((done.returncode, "there is no program distfuture" in done.stderr), (20, True), words)

    @unittest.skipUnless(os.path.exists("/dev/full"), "there is no /dev/full")
    def test_a_full_disk(self):
        with open("/dev/full", "w", encoding="utf-8") as full:
            self.assertEqual(run_tool("top", stored("today.strong"), stdout=full, stderr=subprocess.DEVNULL).returncode, 6)


if __name__ == "__main__":
    unittest.main()

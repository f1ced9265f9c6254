"""tools/install, tools/deb and the completions: what they put where, and what they say where they can't."""
import os
import re
import shutil
import subprocess
import unittest

from .support import Files, require, text_of

FOLDER = os.path.dirname(os.path.dirname(os.path.abspath(__file__)))
PAGES = sorted(name.removesuffix(".1") for name in os.listdir(f"{FOLDER}/man"))
COMPILED = "/bin/true"      # a compiled program that each machine has, in place of distfuture


def call(*words: str, **environment: str) -> subprocess.CompletedProcess:
    return subprocess.run(words, capture_output=True, text=True, check=False, env={**os.environ, **environment})


def commands() -> set[str]:
    """The commands that the synopsis of the man page has."""
    synopsis = text_of(f"{FOLDER}/../docs/distfuture.1").partition(".SH SYNOPSIS")[2].partition(".SH")[0]
    return set(re.findall(r"^\\fBdistfuture ([a-z-]+)", synopsis.replace("\\-", "-"), re.MULTILINE))


class Install(Files):
    def installed(self) -> str:
        prefix = self.path("prefix")
        done = call(f"{FOLDER}/install", prefix, "--program", COMPILED)
        self.assertEqual((done.returncode, done.stdout, done.stderr), (0, "", ""))
        return prefix

    def test_all_is_there(self):
        prefix = self.installed()
        self.assertEqual(sorted(os.listdir(f"{prefix}/bin")), ["distfuture", *(f"distfuture-{name}" for name in PAGES)])
        self.assertEqual(sorted(os.listdir(f"{prefix}/share/man/man1")), sorted(["distfuture.1", *(f"distfuture-{name}.1" for name in PAGES)]))
        self.assertEqual(call(f"{prefix}/bin/distfuture").returncode, 0)
        for path in ("bash-completion/completions/distfuture", "zsh/site-functions/_distfuture", "distfuture/tools/distfuture_tools/command.py"):
            self.assertTrue(os.path.isfile(f"{prefix}/share/{path}"), path)

    def test_tools_run_by_their_new_names(self):
        require("apt_pkg", "debian")
        report = f"{FOLDER}/tests/data/today.challenged"
        done = call(f"{self.installed()}/bin/distfuture-diff", report, report, PYTHONDONTWRITEBYTECODE="1")
        self.assertEqual((done.returncode, done.stdout, done.stderr), (0, "", ""))
        done = call(f"{self.path('prefix')}/bin/distfuture-why-all", "--help", PYTHONDONTWRITEBYTECODE="1")
        self.assertTrue(done.stdout.startswith("usage: distfuture-why-all "), done.stdout)

    def test_pages_have_their_new_names(self):
        page = text_of(f"{self.installed()}/share/man/man1/distfuture-why-all.1")
        self.assertTrue(page.startswith(".TH DISTFUTURE-WHY-ALL 1\n.SH NAME\ndistfuture\\-why\\-all \\- "))
        self.assertIn("\\fBdistfuture\\-why\\-all\\fR \\fIPACKAGES\\fR", page)
        self.assertIn(".BR distfuture\\-explain\\-tree (1)", page)

    def test_a_folder_in_front(self):
        done = call(f"{FOLDER}/install", "/usr", "--program", COMPILED, DESTDIR=self.path("root"))
        self.assertEqual(done.returncode, 0)
        self.assertTrue(os.path.exists(self.path("root/usr/bin/distfuture")))

    def test_a_second_time(self):
        self.installed()
        self.installed()

    def test_statuses(self):
        blocked = self.file("file", "")
        self.assertEqual(call(f"{FOLDER}/install", "--help").returncode, 0)
        for tool, words, status in (("install", (), 2), ("install", ("--what",), 2), ("install", ("a", "b"), 2), ("deb", ("--what",), 2),
                                    ("install", (self.path("p"), "--program", "/none"), 20), ("deb", (self.folder, "--program", "/none"), 20),
                                    ("install", (f"{blocked}/p", "--program", COMPILED), 6), ("deb", ("/none", "--program", COMPILED), 6)):
            with self.subTest(tool=tool, words=words):
                self.assertEqual(call(f"{FOLDER}/{tool}", *words).returncode, status)


@unittest.skipUnless(shutil.which("dpkg-deb"), "dpkg-deb is not installed")
class Deb(Files):
    def package(self) -> str:
        done = call(f"{FOLDER}/deb", self.folder, "--program", COMPILED, DEBFULLNAME="A Maintainer", DEBEMAIL="maintainer@debian.org")
        self.assertEqual((done.returncode, done.stderr), (0, ""))
        return done.stdout.strip()

    def test_what_it_has(self):
        package = self.package()
        paths = set(re.findall(r"\./(usr/\S*[^/\s])(?: ->|$)", call("dpkg-deb", "--contents", package).stdout, re.MULTILINE))
        for path in ("bin/distfuture", "bin/distfuture-coming", "share/man/man1/distfuture.1.gz", "share/doc/distfuture/README.md",
                     "share/doc/distfuture/docs/USING.md", "share/zsh/vendor-completions/_distfuture", "share/bash-completion/completions/distfuture",
                     "share/doc/distfuture/copyright"):
            self.assertIn(f"usr/{path}", paths)
        self.assertFalse([path for path in paths if "__pycache__" in path])
        self.assertRegex(call("dpkg-deb", "--field", package, "Version").stdout, r"^1\.0")

    @unittest.skipUnless(shutil.which("lintian"), "lintian is not installed")
    def test_lintian_has_no_errors(self):
        done = call("lintian", "--fail-on", "error", self.package())
        self.assertEqual(done.returncode, 0, done.stdout)


class Completion(unittest.TestCase):
    def test_both_have_all_commands(self):
        for name in ("distfuture.bash", "_distfuture"):
            text = text_of(f"{FOLDER}/completion/{name}")
            self.assertEqual([command for command in commands() if not re.search(rf"(?<![\w-]){command}(?![\w-])", text)], [], name)

    def complete(self, *words: str) -> list[str]:
        """What bash would offer for the last word."""
        script = f'. {FOLDER}/completion/distfuture.bash; COMP_WORDS=("$@"); COMP_CWORD=$(($# - 1)); _distfuture; printf "%s\\n" "${{COMPREPLY[@]}}"'
        return sorted(call("bash", "-c", script, "bash", "distfuture", *words).stdout.split())

    @unittest.skipUnless(shutil.which("bash"), "bash is not installed")
    def test_bash(self):
        self.assertEqual(set(self.complete("")), commands())
        self.assertEqual(self.complete("check-"), ["check-explain", "check-repair"])
        self.assertEqual(self.complete("repair", "--"), ["--limit", "--most", "--package"])
        self.assertEqual(self.complete("repair", "--limit", "7", "--"), ["--most", "--package"])
        self.assertEqual(self.complete("strong", "--essential", "--"), ["--limit"])
        self.assertEqual(self.complete("strong", f"{FOLDER}/RE"), [f"{FOLDER}/README.md"])
        self.assertEqual(self.complete("classes", "PACKAGES", f"{FOLDER}/RE"), [])
        self.assertEqual(self.complete("check", "--"), [])
        self.assertEqual(self.complete("explain", "--package", "=", "a", "=", "1", "--"), ["--limit"])
        self.assertEqual(self.complete("explain", "--package", "a", "=", "1", "PACKAGES", f"{FOLDER}/RE"), [f"{FOLDER}/README.md"])

    @unittest.skipUnless(shutil.which("zsh"), "zsh is not installed")
    def test_zsh_reads_its_file(self):
        done = call("zsh", "-n", f"{FOLDER}/completion/_distfuture")
        self.assertEqual((done.returncode, done.stderr), (0, ""))


if __name__ == "__main__":
    unittest.main()

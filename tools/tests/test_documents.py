"""The documents: links lead somewhere, the theorem's into the sources too, small examples come out as they stand, and whole files
of evidence are accepted."""
import os
import re
import shutil
import subprocess
import sys
import unittest
from typing import Iterator

from .support import Files, program_or_skip, require, run, text_of

TOP = os.path.dirname(os.path.dirname(os.path.dirname(os.path.abspath(__file__))))
PAGES = ["README.md", "NEWS.md", "CONTRIBUTING.md", "tools/README.md", *(f"docs/{name}" for name in sorted(os.listdir(f"{TOP}/docs")) if name.endswith(".md"))]

CONFLICT = "Package: a\nVersion: 1\nDepends: b\n\nPackage: b\nVersion: 1\nConflicts: a\n"
DEPENDENCY = "Package: a\nVersion: 1\nDepends: b\n\nPackage: b\nVersion: 1\n"
OLDER = "Package: libx\nVersion: 1\n\nPackage: p\nVersion: 1\nDepends: libx (<< 2)\n"
NEWER = "Package: libx\nVersion: 1\n\nPackage: p\nVersion: 1\nDepends: libx (= 2)\n"
MISSING = "Package: p\nVersion: 1\nDepends: q\n"


def page(name: str) -> str:
    return text_of(f"{TOP}/{name}")


def blocks(name: str) -> list[str]:
    """What stands between fences, without the indent of lists."""
    found = re.findall(r"^( *)```\w*\n(.*?)^ *```$", page(name), re.MULTILINE | re.DOTALL)
    return [re.sub(rf"^{indent}", "", text, flags=re.MULTILINE) for indent, text in found]


def anchors(name: str) -> set[str]:
    """The places of a page that links may name."""
    plain = re.sub(r"^ *```.*?^ *```$", "", page(name), flags=re.MULTILINE | re.DOTALL)
    return {re.sub(r"[^\w\- ]", "", title.lower()).strip().replace(" ", "-") for title in re.findall(r"^#+ (.*)$", plain, re.MULTILINE)}


def commands(block: str) -> Iterator[tuple[str, str]]:
    """Each command of a block, and what stands behind it."""
    for part in re.split(r"^\$ ", block, flags=re.MULTILINE)[1:]:
        command, _, answer = part.partition("\n")
        yield command, answer


class Links(unittest.TestCase):
    def test_they_lead_somewhere(self):
        for name in PAGES:
            for link in re.findall(r"\]\(([^)\s]+)\)", page(name)):
                path, _, anchor = link.partition("#")
                target = os.path.normpath(os.path.join(os.path.dirname(name), path)) if path else name
                if path.startswith("http"):
                    continue
                with self.subTest(page=name, link=link):
                    self.assertTrue(os.path.exists(f"{TOP}/{target}"))
                    self.assertTrue(not anchor or anchor in anchors(target))


class Theorem(unittest.TestCase):
    def test_its_links_stand_in_the_sources(self):
        done = subprocess.run([sys.executable, f"{TOP}/bench/theorem.py"], capture_output=True, text=True, check=False)
        self.assertEqual(done.returncode, 0, done.stdout + done.stderr)


class Examples(Files):
    def setUp(self):
        super().setUp()
        os.symlink(os.path.abspath(program_or_skip()), self.path("distfuture"))

    def check(self, block: str) -> None:
        """Runs a block's commands in the test's folder. `cat NAME` says what a file has."""
        environment = {**os.environ, "PATH": f"{self.folder}:{os.environ['PATH']}"}
        for command, answer in commands(block):
            if command.startswith("cat "):
                self.file(command.removeprefix("cat "), answer)
                continue
            done = subprocess.run(command, shell=True, cwd=self.folder, env=environment, capture_output=True, text=True, check=False)
            with self.subTest(command=command):
                self.assertEqual((done.stdout, done.stderr), (answer, ""))

    def test_questions_on_one_package(self):
        found = [block for block in blocks("docs/USING.md") if re.match(r"\$ distfuture (explain|repair) ", block)]
        self.assertEqual(len(found), 3)
        for packages, block in zip((CONFLICT, NEWER, MISSING), found):
            self.file("PACKAGES", packages)
            self.check(block)

    def test_steps_and_a_journal(self):
        steps, journal = (block for block in blocks("docs/USING.md") if "\n$ distfuture steps" in block or "\n$ distfuture follow" in block)
        self.check(steps)
        self.check(journal)

    def test_a_package_that_an_upload_drops(self):
        self.file("PACKAGES", OLDER + "\nPackage: libx-dev\nVersion: 1\nSource: libx\n")
        whole = next(block for block in blocks("docs/USING.md") if block.startswith("= upload"))
        self.file("JOURNAL", whole)
        self.check("$ distfuture challenged PACKAGES CERT > REPORT\n"
                   "$ distfuture follow PACKAGES CERT JOURNAL\nsteps 1\npackages 3\nbroken p=1 by libx=1 at 2\n")
        self.file("JOURNAL", whole.partition("\n\n")[0] + "\n")
        self.check("$ distfuture follow PACKAGES CERT JOURNAL\nsteps 1\npackages 2\n")

    def test_a_stanza_that_is_left_out(self):
        self.file("PACKAGES", "Package: a\nVersion: 1\n\nPackage: bad\nVersion: 1\nDepends: ${misc:Depends}\n\nPackage: c\nVersion: 1\n")
        recipe = next(block for block in blocks("docs/USING.md") if block.startswith("awk -v line="))
        subprocess.run(recipe, shell=True, cwd=self.folder, check=True)
        self.assertEqual(text_of(self.path("CLEAN")), "Package: a\nVersion: 1\n\nPackage: c\nVersion: 1\n")

    def test_what_differs_from_dose3(self):
        block = next(block for block in blocks("docs/DOSE3.md") if block.startswith("$ cat PACKAGES"))
        for command, answer in commands(block):
            if not command.startswith("dose-") or shutil.which("dose-challenged"):
                self.check(f"$ {command}\n{answer}")


class Evidence(Files):
    def test_whole_files_are_accepted(self):
        require("apt_pkg", "debian")
        from distfuture_tools.recheck import main
        for name, archives in (("CERTIFICATES", (DEPENDENCY, "", OLDER)), ("EXPLANATIONS", (CONFLICT,)), ("REPAIRS", (NEWER,))):
            found = [block for block in blocks(f"docs/{name}.md") if block.startswith("distfuture-")]
            self.assertEqual(len(found), len(archives), name)
            for packages, block in zip(archives, found):
                status, printed = run(main, self.file("packages", packages), self.file("cert", block))
                self.assertEqual((status, "accepted" in printed or name != "CERTIFICATES"), (0, True), printed)


if __name__ == "__main__":
    unittest.main()

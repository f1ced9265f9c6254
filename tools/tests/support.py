"""What tests share: stored files, a tool's run, and what is missing on the machine."""
import contextlib
import importlib.util
import io
import lzma
import os
import shutil
import tempfile
import unittest
from typing import Callable

HERE = os.path.dirname(os.path.abspath(__file__))
DATA = os.path.join(HERE, "data")
BUILT = os.path.join(HERE, "..", "..", "crates", "distfuture", "out", "distfuture")


def require(*modules: str) -> None:
    """Skips a file of tests where a library is not installed."""
    missing = [module for module in modules if importlib.util.find_spec(module) is None]
    if missing:
        raise unittest.SkipTest(f"not installed: {' '.join(missing)} (tools/setup installs it)")


def stored(name: str) -> str:
    return os.path.join(DATA, name)


def text_of(path: str) -> str:
    with open(path, encoding="utf-8") as file:
        return file.read()


def run(main: Callable[[list[str]], int], *words: str) -> tuple[int, str]:
    """A tool's status, and what it prints."""
    out = io.StringIO()
    with contextlib.redirect_stdout(out):
        status = main(list(words))
    return status, out.getvalue()


def program_or_skip() -> str:
    """The program that DISTFUTURE names or that is built here, or the test is skipped."""
    program = shutil.which(os.environ.get("DISTFUTURE", BUILT))
    if program is None:
        raise unittest.SkipTest("there is no built program: name it by DISTFUTURE")
    return program


class Files(unittest.TestCase):
    """A test with a folder of its own; what tools say on standard error is kept."""

    def setUp(self):
        self.folder = self.enterContext(tempfile.TemporaryDirectory())
        self.errors = self.enterContext(contextlib.redirect_stderr(io.StringIO()))

    def file(self, name: str, text: str) -> str:
        path = os.path.join(self.folder, name)
        with (lzma.open if name.endswith(".xz") else open)(path, "wt", encoding="utf-8") as file:
            file.write(text)
        return path

    def path(self, name: str) -> str:
        return os.path.join(self.folder, name)

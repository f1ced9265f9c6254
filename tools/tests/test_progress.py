"""Progress: one line on a terminal, and nothing elsewhere."""
import io
import unittest

from distfuture_tools.progress import Progress


class Terminal(io.StringIO):
    def isatty(self) -> bool:
        return True


class Progresses(unittest.TestCase):
    def test_a_terminal_sees_a_line_that_goes_at_the_end(self):
        stream = Terminal()
        with Progress("reading", 200, stream) as progress:
            progress.told_at = 0
            progress.tell(100)
            progress.tell(150)
        self.assertEqual(stream.getvalue(), "\r\033[Kreading 0 %\r\033[Kreading 50 %\r\033[K")

    def test_a_file_sees_nothing(self):
        stream = io.StringIO()
        with Progress("reading", 200, stream) as progress:
            progress.tell(100)
        self.assertEqual(stream.getvalue(), "")


if __name__ == "__main__":
    unittest.main()

"""Progress on a terminal: one line on standard error that is written again and again, and goes at the end."""
import sys
import time
from typing import Iterable, Iterator, TextIO, TypeVar

Item = TypeVar("Item")


class Progress:
    """Says how far a work is, at most five times a second. Where the stream is no terminal it says nothing."""

    def __init__(self, label: str, total: int = 0, stream: TextIO | None = None) -> None:
        self.label, self.total = label, total
        self.stream = sys.stderr if stream is None else stream
        self.is_shown = self.stream.isatty()
        self.told_at = 0.0

    def __enter__(self) -> "Progress":
        self.tell(0)
        return self

    def __exit__(self, *_: object) -> None:
        if self.is_shown:
            self.stream.write("\r\033[K")
            self.stream.flush()

    def tell(self, done: int) -> None:
        now = time.monotonic()
        if not self.is_shown or now - self.told_at < 0.2:
            return
        self.told_at = now
        share = f" {100 * done // self.total} %" if self.total else f" {done}" if done else ""
        self.stream.write(f"\r\033[K{self.label}{share}")
        self.stream.flush()


def counted(items: Iterable[Item], label: str, total: int = 0, every: int = 1000) -> Iterator[Item]:
    """The same items, with progress by their number."""
    with Progress(label, total) as progress:
        for number, item in enumerate(items):
            if number % every == 0:
                progress.tell(number)
            yield item

"""Small things that tools do with files."""
import hashlib
import os
from typing import Iterator


def hash_of(path: str) -> str:
    """The SHA-256 of a file, in hexadecimal digits."""
    with open(path, "rb") as file:
        return hashlib.file_digest(file, "sha256").hexdigest()


def sizes_below(folder: str) -> Iterator[int]:
    """The size of each file in a folder and below it."""
    for place, _, names in os.walk(folder):
        yield from (os.path.getsize(os.path.join(place, name)) for name in names)

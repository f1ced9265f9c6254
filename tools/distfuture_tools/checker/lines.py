"""The lines of a certificate: their forms, and what they say (CERTIFICATES.md, "Lines")."""
import re
from typing import NamedTuple

GREATEST = 4294967295
NUMBER = rb"[1-9][0-9]{0,9}"
KINDS = ("strong", "outdated", "challenged")

FORMS = {
    letter: re.compile(form.replace(b"N", NUMBER) + rb"\n") for letter, form in {
        "q": rb"q(?: -?N)+", "d": rb"d(?: -?N)* 0(?: N)*", "f": rb"f(?: N)*", "m": rb"m(?: N)*", "u": rb"u", "e": rb"e",
        "x": rb"x N", "y": rb"y N", "o": rb"o N", "a": rb"a N N",
        "s": rb"s N(?: N)+ 0(?: N)* 0(?: N)*", "c": rb"c N(?: N)+ 0(?: N N)* 0(?: N N)*",
    }.items()
}
FORM_OF_BYTE = {ord(letter): (letter, form.fullmatch) for letter, form in FORMS.items()}


class Header(NamedTuple):
    """The first line: what the file is of, and the numbers that stand in it."""
    kind: str
    essential: bool
    limit: int
    numbers: tuple[int, ...]


class Claim(NamedTuple):
    """A claim: its letter, its package, the installations that it names, and its two lists."""
    letter: str
    package: int
    installations: list[int]
    first: list[int]
    second: list[int]


def number_of(word: bytes) -> int | None:
    """A number from 0, or None."""
    if not re.fullmatch(rb"0|[1-9][0-9]{0,9}", word) or int(word) > GREATEST:
        return None
    return int(word)


def header_of(line: bytes) -> Header | None:
    """The first line of a file of any kind, without its line feed, or None where it has not the form."""
    words = line.split(b" ")
    front = words[:4] if words[0] == b"distfuture-certificate" else words[:2]
    numbers = [number_of(word) for word in words[len(front):]]
    if None in numbers or not numbers or not 1 <= numbers[0] <= 1000000:
        return None
    if words[:2] == [b"distfuture-explain", b"1"] and len(numbers) == 4:
        return Header("explain", False, numbers[0], tuple(numbers[1:]))
    if words[:2] == [b"distfuture-repair", b"1"] and len(numbers) == 6:
        return Header("repair", False, numbers[0], tuple(numbers[1:]))
    if len(front) == 4 and front[1] == b"1" and front[2].decode("latin-1") in KINDS and front[3] in (b"plain", b"essential") and len(numbers) == 4:
        return Header(front[2].decode(), front[3] == b"essential", numbers[0], tuple(numbers[1:]))
    return None


def record_of(line: bytes) -> tuple[str, list[int]] | None:
    """The letter of a whole line and its numbers, with the zeros between lists; None where it has no form.

    A number that is too great is let pass: each such line has a fault, and `is_too_great` finds it then.
    """
    form = FORM_OF_BYTE.get(line[0])
    if form is None or form[1](line) is None:
        return None
    letter = form[0]
    numbers = list(map(int, line[2:].split()))
    if letter == "q":
        is_right = len(numbers) == 1 or are_distinct(numbers)
    elif letter == "d":
        is_right = are_distinct(numbers[:numbers.index(0)])
    else:
        is_right = letter != "m" or rises(numbers)
    return (letter, numbers) if is_right else None


def is_too_great(numbers: list[int]) -> bool:
    return max(map(abs, numbers), default=0) > GREATEST


def are_distinct(literals: list[int]) -> bool:
    """Whether no variable is named twice."""
    return len(set(map(abs, literals))) == len(literals)


def rises(numbers: list[int]) -> bool:
    return numbers == sorted(numbers) and len(set(numbers)) == len(numbers)


def claim_of(letter: str, numbers: list[int]) -> Claim:
    if letter in "sc":
        first = numbers.index(0)
        second = numbers.index(0, first + 1)
        return Claim(letter, numbers[0], numbers[1:first], numbers[first + 1:second], numbers[second + 1:])
    return Claim(letter, numbers[0], numbers[1:], [], [])

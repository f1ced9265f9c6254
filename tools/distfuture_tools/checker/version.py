"""Versions by Debian Policy 5.6.12: whether a text spells one, and a key by which they compare."""
import functools
import re

Key = tuple[int, tuple[int, ...], tuple[int, ...]]

GREATEST_EPOCH = 2147483647
UPSTREAM = re.compile(rb"[A-Za-z0-9.+\-~:]+")
REVISION = re.compile(rb"[A-Za-z0-9.+~]+")
TURN = re.compile(rb"([^0-9]*)([0-9]*)")
REBUILD = re.compile(rb"(.*)\+b[0-9]+", re.DOTALL)


def split(text: bytes) -> tuple[bytes | None, bytes, bytes | None]:
    """Epoch, upstream version and revision as they are written. The epoch ends at the first colon, the revision begins behind the last hyphen."""
    front, colon, rest = text.partition(b":")
    epoch, rest = (front, rest) if colon else (None, text)
    upstream, hyphen, revision = rest.rpartition(b"-")
    return (epoch, upstream, revision) if hyphen else (epoch, rest, None)


@functools.cache
def fault_of(text: bytes) -> str | None:
    """The first fault of a text, or None where it is a version."""
    if not text:
        return "Empty"
    epoch, upstream, revision = split(text)
    if epoch is not None:
        if not re.fullmatch(rb"[0-9]+", epoch):
            return "BadEpoch"
        digits = epoch.lstrip(b"0")
        if len(digits) > 10 or int(digits or b"0") > GREATEST_EPOCH:
            return "EpochTooLarge"
    if not upstream:
        return "EmptyUpstream"
    if revision == b"":
        return "EmptyRevision"
    is_right = UPSTREAM.fullmatch(upstream) and (revision is None or REVISION.fullmatch(revision))
    return None if is_right else "BadByte"


@functools.cache
def key_of(text: bytes) -> Key:
    """A version's key: keys are equal where versions are, and compare as they do."""
    epoch, upstream, revision = split(text)
    return int(epoch or b"0"), part_key(upstream), part_key(revision or b"")


def weights_of(part: bytes) -> list[int]:
    """Turn by turn the weights of what is no digit, a 0, and the number of the digits. Zeros without end follow.

    Digits are read to base 16: that keeps the order, and takes time by their number alone.
    """
    weights: list[int] = []
    for text, digits in TURN.findall(part):
        weights += [-1 if byte == 0x7e else byte if chr(byte).isalpha() else byte + 256 for byte in text]
        weights += [0, int(digits or b"0", 16)]
    return weights


def part_key(part: bytes) -> tuple[int, ...]:
    """Weights as numbers that compare as tuples do: for each that is not 0 its sign, how many zeros stand before it, and itself.

    Of two that are positive the one with fewer zeros before it is greater, of two that are negative it is less.
    """
    key: list[int] = []
    zeros = 0
    for weight in weights_of(part):
        if weight == 0:
            zeros += 1
        else:
            sign = 1 if weight > 0 else -1
            key += [sign, -sign * zeros, weight]
            zeros = 0
    return (*key, 0)


HOLDS = {
    "<<": lambda version, bound: version < bound, "<=": lambda version, bound: version <= bound,
    "=": lambda version, bound: version == bound, ">=": lambda version, bound: version >= bound,
    ">>": lambda version, bound: version > bound,
}


def without_rebuild(text: bytes) -> bytes:
    """A version without the suffix of a rebuild, where a version is left."""
    rebuilt = REBUILD.fullmatch(text)
    return rebuilt[1] if rebuilt and fault_of(rebuilt[1]) is None else text


def just_above(text: bytes, tildes: int) -> bytes:
    """A version above one, and below each greater one that has at most so many bytes."""
    revision = split(text)[2]
    ends_in_digit = bool(revision) and chr(revision[-1]).isdigit()
    return text + (b"" if revision else b"-") + (b"" if ends_in_digit else b"0") + b"A" + b"~" * tildes

"""Debian's order of versions, by apt's library, and the classes of versions that reports name."""
import functools
from typing import Callable

import apt_pkg

apt_pkg.init_system()

HOLDS: dict[str, Callable[[int], bool]] = {
    "<<": lambda order: order < 0, "<=": lambda order: order <= 0, "=": lambda order: order == 0,
    ">=": lambda order: order >= 0, ">>": lambda order: order > 0,
}
KEY = functools.cmp_to_key(apt_pkg.version_compare)


def compare(first: str, second: str) -> int:
    """Below 0, 0 or above 0, as the first version is below, equal to or above the second one."""
    return apt_pkg.version_compare(first, second)


def is_in_class(version: str, text: str) -> bool:
    """Whether a version is of a class as reports write it: `= 3.12`, `>> 1, << 2`, `any`."""
    if text == "any":
        return True
    bounds = (bound.split(" ", 1) for bound in text.split(", "))
    return all(HOLDS[operator](compare(version, limit)) for operator, limit in bounds)

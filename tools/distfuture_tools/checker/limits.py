"""A checker's own limits (CERTIFICATES.md): a file that passes one of them is neither accepted nor refused."""
from .packages import too_large

VARIABLES, CLAUSES, LITERALS = 16000000, 16000000, 64000000
LINES, LINE_LITERALS = 16000000, 64000000


def guard_variables(count: int) -> None:
    if count > VARIABLES:
        raise too_large("Variables")


class Room:
    """How many clauses a checker still takes, and literals in them. Both have names, by which it says that they are too many."""

    def __init__(self, clauses: int, literals: int, names: tuple[str, str]) -> None:
        self.clauses, self.literals, self.names = clauses, literals, names

    def take(self, literals: int) -> None:
        """One more clause of so many literals."""
        self.clauses -= 1
        self.literals -= literals
        if self.clauses < 0:
            raise too_large(self.names[0])
        if self.literals < 0:
            raise too_large(self.names[1])


def room_for_inputs() -> Room:
    return Room(CLAUSES, LITERALS, ("Clauses", "Literals"))


def room_for_lines() -> Room:
    return Room(LINES, LINE_LITERALS, ("Lines", "LineLiterals"))

"""A second small reader of LRAT proofs: an addition follows by its hints, each of which is a unit clause or, the last one, false."""


def clauses_of(dimacs: str) -> dict[int, list[int]]:
    """The clauses of a formula, by their numbers from 1."""
    head, *lines = dimacs.splitlines()
    clauses = {number: [int(word) for word in line.split()[:-1]] for number, line in enumerate(lines, 1)}
    if head.split()[:2] != ["p", "cnf"] or int(head.split()[3]) != len(clauses):
        raise ValueError("the head of the formula")
    return clauses


def follows(clause: list[int], hints: list[list[int]]) -> bool:
    true = {-literal for literal in clause}
    for place, hint in enumerate(hints, 1):
        left = [literal for literal in hint if -literal not in true]
        if not left:
            return place == len(hints)
        if len(left) > 1 or left[0] in true:
            return False
        true.add(left[0])
    return False


def is_refutation(dimacs: str, proof: str) -> bool:
    """Whether each lemma of a proof follows, and the last one is the empty clause."""
    clauses, clause = clauses_of(dimacs), [0]
    for line in proof.splitlines():
        words = [int(word) for word in line.split()]
        end = words.index(0)
        clause, hints = words[1:end], words[end + 1:-1]
        if words[-1] != 0 or words[0] <= max(clauses) or not follows(clause, [clauses[hint] for hint in hints]):
            return False
        clauses[words[0]] = clause
    return clause == []

"""Why the broken packages of an archive are broken, and what must move so that they can be installed, by the program."""
import tempfile
from concurrent.futures import ThreadPoolExecutor
from dataclasses import dataclass
from typing import Any

from ..command import Fault
from ..explain_tree import explained, repository_of, title
from ..explanation import Explanation, Node, TreeMaker
from ..program import run
from ..progress import counted
from ..why_all import Group, grouped
from .reading import Clusters, Data


@dataclass
class Answer:
    """What the program says of a package: its explanation, and where it is among the newest, the lines of its repair."""
    explanation: Explanation
    repair: list[str]


class Asking:
    """Asks the program for the answers on packages of a file."""

    def __init__(self, program: str, packages: str, newest: set[str]) -> None:
        self.program, self.packages, self.newest = program, packages, newest

    def answer(self, label: str) -> Answer:
        return Answer(explained(self.program, self.packages, label), self.repaired(label) if label in self.newest else [])

    def repaired(self, label: str) -> list[str]:
        with tempfile.TemporaryDirectory() as folder:
            run(self.program, ["repair", self.packages, f"{folder}/cert", "--package", label], f"{folder}/answer")
            with open(f"{folder}/answer", encoding="utf-8") as file:
                return file.read().splitlines()[1:]

    def answers(self, labels: list[str], jobs: int) -> list[Answer]:
        with ThreadPoolExecutor(max(1, jobs)) as pool:
            return list(counted(pool.map(self.answer, labels), "explaining package", len(labels), 1))


def tree_record(node: Node, data: Data) -> list[Any]:
    """A tree as a page draws it: kind, text or the number of a package, whether it is sure, and what follows."""
    text: str | int = data.packages.number(node.text) if node.kind == "package" else node.text
    return [node.kind, text, int(node.is_sure), [tree_record(child, data) for child in node.children]]


def repair_record(lines: list[str], clusters: Clusters, data: Data) -> dict[str, Any]:
    """A repair as a page tells it: its words with their numbers, and the sources that move."""
    record: dict[str, Any] = {"moves": []}
    for line in lines:
        word, _, rest = line.partition(" ")
        if word == "move":
            label, _, version = rest.partition(" to ")
            cluster = clusters.by_label[label]
            record["moves"].append([data.sources.number(cluster.source), cluster.top, version])
        elif line in ("outdated", "undecided"):
            record[line] = 1
        elif word in ("least", "at") and rest.split(" ")[-1].isdigit():
            key, number = line.rsplit(" ", 1)
            record[key] = int(number)
        else:
            raise Fault(f"this is no line of a repair: {line}")
    return record


def write_answers(answers: list[Answer], packages: str, clusters: Clusters, data: Data) -> list[Group]:
    """The records of the answers, and the packages by what they come down to."""
    if not answers:
        return []
    trees = TreeMaker(repository_of(packages))
    for answer in answers:
        label, tree = answer.explanation.package, trees.tree(answer.explanation)
        data.put(label, "explanation", [title(answer.explanation), tree_record(tree, data)[3]])
        if answer.repair:
            data.put(label, "repair", repair_record(answer.repair, clusters, data))
    return grouped((answer.explanation for answer in answers), trees)

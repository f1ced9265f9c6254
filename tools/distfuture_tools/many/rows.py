"""What is known of an archive, as a row of the table."""
from dataclasses import dataclass
from typing import Any

from .archives import Archive

Sums = dict[str, dict[str, Any]]    # of an archive, by the question

MEASURES = {
    "packages": "packages", "uninstallable": "can't be installed", "outdated": "outdated", "challenges": "classes of uploads that break others",
    "challenged": "packages that some upload breaks", "strong dependencies": "strong dependencies", "greatest impact set": "greatest impact set",
    "undecided": "undecided",
}
UNDECIDED = ("undecided", "undecided_pairs", "undecided_classes")
COLUMNS = ["archive", "suite", "architecture", "day", *MEASURES, "greatest impact set of", "failed", "sha256"]


@dataclass
class Row:
    """What is known of an archive; a question that is not answered leaves its places empty."""
    archive: Archive
    sums: Sums
    failed: list[str]

    def values(self) -> dict[str, Any]:
        strong, outdated, challenged = (self.sums.get(kind) for kind in ("strong", "outdated", "challenged"))
        some = next(iter(self.sums.values()), None)
        broken = strong or challenged
        return {
            "archive": self.archive.name, "suite": self.archive.suite, "day": self.archive.day, "sha256": self.archive.hash, "failed": " ".join(self.failed),
            "architecture": some["architecture"] if some else None,
            "packages": some["stanzas"] if some else None,
            "uninstallable": entries(broken, "uninstallable"),
            "outdated": entries(outdated, "outdated"),
            "challenges": entries(challenged, "challenged"),
            "challenged": challenged["challenged"] if challenged else None,
            "strong dependencies": strong["items"].get("strong", 0) if strong else None,
            "greatest impact set": strong["greatest"][0] if strong else None,
            "greatest impact set of": strong["greatest"][1] if strong else None,
            "undecided": sum(entries(its, section) for its in self.sums.values() for section in UNDECIDED) if some else None,
        }


def entries(sums: dict[str, Any] | None, section: str) -> int | None:
    return sums["entries"].get(section, 0) if sums else None

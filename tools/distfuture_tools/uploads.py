"""The uploads that a later Packages file holds, and the steps of a journal that `follow` takes for them."""
from dataclasses import dataclass, field
from typing import Iterable, Iterator

from .archive import Package, Relation, provides_of, spelled
from .reports import Entry, Report, name_of, version_of
from .versions import KEY, compare


@dataclass
class Cluster:
    """Packages of one source that move together."""
    label: str
    source: str
    top: str
    members: list[str]

    def names(self) -> list[str]:
        return [name_of(member) for member in self.members]


@dataclass
class Upload:
    """A cluster at a version that a later file brings it at."""
    cluster: Cluster
    version: str

    @property
    def title(self) -> str:
        return f"{self.cluster.source} {self.cluster.top} to {self.version}"


@dataclass(frozen=True)
class Deviation:
    """Where a step of a journal is not what the later file has."""
    package: str
    reason: str


@dataclass
class Step:
    """The text of a step, how many stanzas it has, and how it deviates."""
    text: str
    stanzas: int
    deviations: list[Deviation] = field(default_factory=list)


def cluster_of(entry: Entry) -> Cluster:
    return Cluster(entry.keys["cluster"], entry.keys["source"], entry.keys["top"], entry.items)


def clusters_of(report: Report) -> list[Cluster]:
    """The clusters of a report of `classes`."""
    return [cluster_of(entry) for entry in report if entry.section == "clusters"]


def uploads_of(clusters: Iterable[Cluster], later: dict[str, Package]) -> Iterator[Upload]:
    """Each cluster at each version above its top that a later file has one of its names at, the greatest first."""
    for cluster in clusters:
        versions = {later[name].version for name in cluster.names() if name in later}
        for version in sorted((it for it in versions if compare(it, cluster.top) > 0), key=KEY, reverse=True):
            yield Upload(cluster, version)


class Journal:
    """Writes steps by today's packages and those of the later file."""

    def __init__(self, today: dict[str, Package], later: dict[str, Package]) -> None:
        self.today, self.later = today, later
        self.of_source: dict[str, list[Package]] = {}
        for package in later.values():
            self.of_source.setdefault(package.source, []).append(package)

    def step(self, upload: Upload) -> Step:
        """An upload as `follow` takes it: each package of the cluster at the one version, with Provides that it has today."""
        deviations: list[Deviation] = []
        stanzas = [self.stanza(label, upload, deviations) for label in upload.cluster.members]
        for package in self.of_source.get(upload.cluster.source, []):
            if package.name not in self.today and compare(package.version, upload.version) == 0:
                deviations.append(Deviation(package.name, "a new name of the source, left out"))
        head = f"= upload {name_of(upload.cluster.label)} {upload.version}\n"
        return Step(head + "\n\n".join(stanzas) + "\n\n", len(stanzas), deviations)

    def stanza(self, label: str, upload: Upload, deviations: list[Deviation]) -> str:
        name = name_of(label)
        package = self.later.get(name)
        bare = f"Package: {name}\nVersion: {upload.version}"
        if package is None:
            deviations.append(Deviation(name, "not there any more, a stanza without relations stands for it"))
            return bare
        if compare(package.version, upload.version) != 0:
            deviations.append(Deviation(name, f"at {package.version}, a stanza without relations stands for it"))
            return bare
        if package.source != upload.cluster.source:
            deviations.append(Deviation(name, f"from the source {package.source}"))
        return self.with_known_provides(package, version_of(label), deviations)

    def with_known_provides(self, package: Package, old_version: str, deviations: list[Deviation]) -> str:
        """The stanza without the entries of Provides that its package does not have today."""
        stanza = package.stanza()
        entries = provides_of(stanza)
        kept, dropped = carried(provides_of(self.today[package.name].stanza()), old_version, entries, package.version)
        if not dropped:
            return package.text
        deviations.extend(Deviation(package.name, f"without the new entry of Provides {spelled(entry)}") for entry in dropped)
        if kept:
            stanza["Provides"] = ", ".join(map(spelled, kept))
        else:
            del stanza["Provides"]
        return str(stanza).strip("\n")


def by_reason(deviations: Iterable[Deviation]) -> Iterator[str]:
    """Each reason with its packages."""
    packages: dict[str, list[str]] = {}
    for deviation in deviations:
        packages.setdefault(deviation.reason, []).append(deviation.package)
    for reason, names in packages.items():
        yield f"{reason}: {' '.join(names)}"


def carried(old: list[Relation], old_version: str, new: list[Relation], version: str) -> tuple[list[Relation], list[Relation]]:
    """The new entries that an old one becomes, in the order of the old ones, and the others."""
    kept: list[Relation] = []
    left = list(new)
    for entry in old:
        found = next((it for it in left if becomes(entry, old_version, it, version)), None)
        if found:
            kept.append(found)
            left.remove(found)
    return kept, left


def becomes(old: Relation, old_version: str, new: Relation, version: str) -> bool:
    """Whether an entry goes on: the same one, or at the version of its package before and after."""
    if old[:2] != new[:2]:
        return False
    if old[2] is None or new[2] is None:
        return old[2] == new[2]
    if compare(old[2], old_version) == 0:
        return compare(new[2], version) == 0
    return old[2] == new[2]

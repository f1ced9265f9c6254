"""The pages of a site, by templates of jinja2. What they say of a single package stands in shards."""
import os
import shutil
from dataclasses import dataclass
from typing import Iterable, NamedTuple
from urllib.parse import quote

from jinja2 import Environment, FileSystemLoader, StrictUndefined
from markupsafe import Markup

from ..charts import Bar, bar_chart
from ..coming import Breaking
from ..reports import name_of
from ..why_all import Group
from .reading import Broken, Clusters, Sums

TEMPLATES = os.path.join(os.path.dirname(__file__), "templates")
PAGES = ("index", "uploads", "broken", "package", "source", "search")
KEPT = ("site.css", "site.js", "pages.js")
WIDE, NARROW = 10.6, 3.7    # inches; a page shows the one that fits
LONGEST = 25               # letters of a name in a narrow chart


class Upload(NamedTuple):
    """A source with the class of its later versions that breaks the most packages."""
    source: str
    top: str
    versions: str
    breaks: int


class Chart(NamedTuple):
    wide: Markup
    narrow: Markup


@dataclass
class Overview:
    """What the pages show of the archive as a whole."""
    title: str
    hash: str
    packages: int
    sources: int
    sums: Sums
    clusters: Clusters
    coming: list[Breaking] | None
    groups: list[Group]
    unexplained: list[str]

    def uploads(self) -> list[Upload]:
        """The sources whose uploads break something, those that break the most first."""
        of_source: dict[str, list[Broken]] = {}
        for it in self.sums.broken:
            if it.is_sure:
                of_source.setdefault(it.cluster, []).append(it)
        found = []
        for label, its in of_source.items():
            cluster, worst = self.clusters.by_label[label], max(its, key=lambda it: len(it.packages))
            found.append(Upload(cluster.source, cluster.top, worst.versions, len(worst.packages)))
        return sorted(found, key=lambda it: (-it.breaks, it.source, it.top))

    def impact_chart(self) -> Chart:
        return chart_of((name_of(label), count, package_link(label)) for count, label in self.sums.greatest_impact())

    def uploads_chart(self) -> Chart:
        """Of each source the upload that comes first in the lists; of coming ones what stays as it is counts."""
        ranked = [(it.source, it.breaks) for it in self.uploads()]
        if self.coming is not None:
            ranked = [(it.upload.cluster.source, len(it.broken) - len(it.moving)) for it in self.coming]
        most = dict(reversed(ranked))
        its = sorted(most.items(), key=lambda its: (-its[1], its[0]))
        return chart_of((source, count, source_link(source)) for source, count in its[:15])


def package_link(label: str) -> str:
    return f"package.html#{quote(label, safe='=:~+')}"


def source_link(source: str) -> str:
    return f"source.html#{quote(source, safe='+')}"


def shortened(name: str) -> str:
    return name if len(name) <= LONGEST else name[:LONGEST - 1] + "…"


def chart_of(its: Iterable[tuple[str, int, str]]) -> Chart:
    bars = [Bar(*it) for it in its]
    narrow = [Bar(shortened(bar.name), bar.value, bar.link) for bar in bars]
    return Chart(Markup(bar_chart(bars, WIDE)), Markup(bar_chart(narrow, NARROW)))


def environment() -> Environment:
    result = Environment(loader=FileSystemLoader(TEMPLATES), autoescape=True, undefined=StrictUndefined, trim_blocks=True, lstrip_blocks=True)
    result.filters.update(package_link=package_link, source_link=source_link, name_of=name_of, grouped=lambda number: f"{number:,}")
    return result


def write_pages(overview: Overview, folder: str) -> None:
    templates = environment()
    for name in PAGES:
        text = templates.get_template(f"{name}.html").render(site=overview, page=name)
        with open(os.path.join(folder, f"{name}.html"), "w", encoding="utf-8") as file:
            file.write(text)
    for name in KEPT:
        shutil.copyfile(os.path.join(TEMPLATES, name), os.path.join(folder, name))

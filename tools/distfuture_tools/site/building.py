"""Builds a site: reads the archive and its reports one after another, asks for explanations, and writes the pages."""
import argparse
import os

from ..archive import guard_architectures, newest, packages_of
from ..coming import Breaking, breaking_uploads
from ..files import hash_of, sizes_below
from ..program import NO_PROGRAM, find_program
from ..reports import name_of
from ..uploads import uploads_of
from .answers import Asking, write_answers
from .pages import Overview, write_pages
from .reading import (Clusters, Data, Row, Sums, count_newest, entries, of_this_archive, read_challenged, read_outdated, read_strong, rows_of,
                      write_broken)
from .shards import script_text


def read_reports(rows: list[Row], paths: dict[str, str], data: Data) -> tuple[Sums, Clusters]:
    """Every report on the archive; that of strong speaks of all versions, the others of the newest."""
    sums, count = Sums(), count_newest(rows)
    with of_this_archive(paths["classes"]):
        clusters = Clusters(entries(paths["classes"], "classes", count))
    with of_this_archive(paths["challenged"]):
        read_challenged(entries(paths["challenged"], "challenged", count), sums)
        write_broken(clusters, data, sums)
    with of_this_archive(paths["outdated"]):
        read_outdated(entries(paths["outdated"], "outdated", count), data, sums)
    with of_this_archive(paths["strong"]):
        read_strong(entries(paths["strong"], "strong", len(rows)), data, sums)
    return sums, clusters


def read_coming(path: str, rows: list[Row], sums: Sums, clusters: Clusters, data: Data) -> list[Breaking]:
    """The uploads of a later file that break something; their sources' records get them."""
    later = newest(packages_of(path))
    guard_architectures((row.architecture for row in rows), (package.architecture for package in later.values()))
    breaks: dict[str, list[tuple[str, list[str]]]] = {}
    for it in sums.broken:
        if it.is_sure:
            breaks.setdefault(it.cluster, []).append((it.versions, it.packages))
    found = breaking_uploads(list(uploads_of(clusters.by_label.values(), later)), breaks, later)
    for breaking in found:
        cluster = breaking.upload.cluster
        record = [breaking.upload.version, data.numbers(breaking.broken), data.numbers(sorted(breaking.moving))]
        data.of_sources.put(data.sources.number(cluster.source), f"coming {cluster.label} {breaking.upload.version}", script_text(record))
    return found


def newest_labels(rows: list[Row]) -> set[str]:
    """The rows come in the order of versions: of each name the last one."""
    return set({name_of(row.label): row.label for row in rows}.values())


def title_of(asked: argparse.Namespace, rows: list[Row]) -> str:
    architectures = sorted({row.architecture for row in rows} - {"all"})
    return asked.title or " ".join([os.path.basename(asked.packages), *architectures])


def build(asked: argparse.Namespace, paths: dict[str, str], folder: str) -> str:
    """Writes the whole site into a folder, and says what was made."""
    rows = rows_of(asked.packages)
    data = Data(rows, os.path.join(folder, "data"))
    sums, clusters = read_reports(rows, paths, data)
    coming = read_coming(asked.later, rows, sums, clusters, data) if asked.later else None
    program, wanted = find_program(asked.program), sums.uninstallable[:max(0, asked.most)]
    answers = Asking(program, asked.packages, newest_labels(rows)).answers(wanted, asked.jobs) if program else []
    groups = write_answers(answers, asked.packages, clusters, data)
    data.write()
    unexplained = sums.uninstallable[len(answers):]
    overview = Overview(title_of(asked, rows), hash_of(asked.packages), len(rows), len(data.sources), sums, clusters, coming, groups, unexplained)
    write_pages(overview, folder)
    told = [f"{len(rows)} packages, {len(data.sources)} sources, {len(answers)} explained, {sum(sizes_below(folder)) / 1e6:.0f} MB"]
    if unexplained:
        reason = "--most" if program else NO_PROGRAM
        told.append(f"not explained: {len(unexplained)} ({reason})")
    return "\n".join(told)

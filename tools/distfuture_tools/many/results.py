"""The table and the charts of what is done."""
import csv
import os
from typing import Any, Iterable, Sequence

from ..charts import Bar, Line, bar_panels, line_panels
from .rows import COLUMNS, MEASURES


def write_table(rows: Sequence[dict[str, Any]], path: str) -> None:
    with open(path, "w", encoding="utf-8", newline="") as file:
        table = csv.DictWriter(file, COLUMNS, lineterminator="\n")
        table.writeheader()
        table.writerows(rows)


def line_name(row: dict[str, Any]) -> str:
    return f"{row['suite']} {row['architecture'] or ''}".strip()


def latest(rows: Iterable[dict[str, Any]]) -> list[dict[str, Any]]:
    """Of each suite and architecture the row of the last day."""
    found: dict[str, dict[str, Any]] = {}
    for row in sorted(rows, key=lambda row: (row["day"], row["archive"])):
        found[line_name(row)] = row
    return sorted(found.values(), key=line_name)


def known(rows: Iterable[dict[str, Any]], measure: str) -> list[dict[str, Any]]:
    """The rows that have an answer on a measure."""
    return [row for row in rows if row[measure] is not None]


def suites_chart(rows: list[dict[str, Any]]) -> str | None:
    """Of each measure bars over suites, at their last days."""
    its = latest(rows)
    panels = {title: [Bar(line_name(row), row[measure]) for row in known(its, measure)] for measure, title in MEASURES.items()}
    panels = {title: bars for title, bars in panels.items() if bars}
    return bar_panels(panels) if panels else None


def days_chart(rows: list[dict[str, Any]]) -> str | None:
    """Of each measure lines over days, where some suite has several."""
    lines: dict[str, list[dict[str, Any]]] = {}
    for row in sorted(rows, key=lambda row: row["day"]):
        if row["day"]:
            lines.setdefault(line_name(row), []).append(row)
    if not any(len({row["day"] for row in its}) > 1 for its in lines.values()):
        return None
    panels = {title: [Line(name, [(row["day"], row[measure]) for row in known(its, measure)]) for name, its in sorted(lines.items())]
              for measure, title in MEASURES.items()}
    panels = {title: its for title, its in panels.items() if any(line.points for line in its)}
    return line_panels(panels) if panels else None


def write_charts(rows: list[dict[str, Any]], folder: str, ending: str) -> list[str]:
    """Writes the charts that there is something for, and says their names."""
    charts = {f"suites{ending}.svg": suites_chart(rows), f"days{ending}.svg": days_chart(rows)}
    written = [name for name, text in charts.items() if text]
    for name in written:
        with open(os.path.join(folder, name), "w", encoding="utf-8") as file:
            file.write(charts[name])
    return written

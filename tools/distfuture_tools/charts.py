"""Charts as SVG, by matplotlib. Their text stays text, so that it can be read aloud and found, and names may be links."""
import datetime
import io
from dataclasses import dataclass
from typing import Sequence

import matplotlib
from matplotlib.axes import Axes
from matplotlib.dates import AutoDateLocator, DateFormatter
from matplotlib.figure import Figure
from matplotlib.ticker import MaxNLocator, StrMethodFormatter

INK, MUTED, BAR = "#1b1f24", "#57606a", "#1f6f8b"
COLOURS = ("#1f6f8b", "#b3521e", "#5b4b9a", "#2f7d32", "#a02c5d", "#6b5d00")    # each at least 4.5 to 1 on white
MARKS = ("o", "s", "^", "D")
SETTINGS = {"svg.fonttype": "none", "svg.hashsalt": "distfuture", "text.parse_math": False}
METADATA = {"Date": None, "Creator": None, "Format": None, "Type": None}


@dataclass(frozen=True)
class Bar:
    """A bar: its name, how long it is, and where its name leads."""
    name: str
    value: int
    link: str | None = None


def svg_of(figure: Figure) -> str:
    """The element `svg` of a figure, without what stands before it in a file, so that it can stand in a page."""
    out = io.StringIO()
    with matplotlib.rc_context(SETTINGS):
        figure.savefig(out, format="svg", metadata=METADATA)
    text = out.getvalue()
    return text[text.index("<svg"):]


def bar_chart(bars: Sequence[Bar], width: float, size: float = 9) -> str:
    """Horizontal bars, the first one at the top, each with its number behind it. The width is in inches, that of text in points."""
    letter, row = 0.6 * size / 72, 1.9 * size / 72
    left = letter * max((len(bar.name) for bar in bars), default=0) + 0.1
    right = letter * max((len(f"{bar.value:,}") for bar in bars), default=0) + 0.1
    with matplotlib.rc_context(SETTINGS):
        figure = Figure(figsize=(width, row * max(1, len(bars))))
        axes = figure.add_axes((left / width, 0, 1 - (left + right) / width, 1))
        axes.axis("off")
        axes.set_ylim(len(bars) - 0.5, -0.5)
        axes.set_xlim(0, max((bar.value for bar in bars), default=0) or 1)
        for place, bar in enumerate(bars):
            draw_bar(axes, place, bar, size)
    return svg_of(figure)


def draw_bar(axes: Axes, place: int, bar: Bar, size: float) -> None:
    drawn = axes.barh(place, bar.value, height=0.66, color=BAR)[0]
    name = axes.annotate(bar.name, (0, place), xytext=(-5, 0), textcoords="offset points", ha="right", va="center", size=size, color=INK)
    axes.annotate(f"{bar.value:,}", (bar.value, place), xytext=(4, 0), textcoords="offset points", va="center", size=size, color=MUTED)
    if bar.link:
        name.set_url(bar.link)
        drawn.set_url(bar.link)


# ---- several measures at once

@dataclass(frozen=True)
class Line:
    """A line over days (YYYY-MM-DD): its name, and its points in their order."""
    name: str
    points: list[tuple[str, int]]


def panels(count: int, height: float) -> tuple[Figure, list[Axes]]:
    """A figure of so many panels, two beside each other; the height is that of a row, in inches."""
    rows = (count + 1) // 2
    figure = Figure(figsize=(11, rows * height), layout="constrained")
    figure.get_layout_engine().set(w_pad=0.15, h_pad=0.12)
    axes = [figure.add_subplot(rows, 2, place + 1) for place in range(count)]
    for its in axes:
        its.tick_params(length=0, labelsize=9, labelcolor=INK)
        for side in ("top", "right", "left"):
            its.spines[side].set_visible(False)
    return figure, axes


def bar_panels(measures: dict[str, list[Bar]]) -> str:
    """A panel of horizontal bars for each measure."""
    with matplotlib.rc_context(SETTINGS):
        figure, places = panels(len(measures), 0.6 + 0.28 * max(map(len, measures.values()), default=1))
        for axes, (title, bars) in zip(places, measures.items()):
            axes.set_title(title, loc="left", size=11, color=INK)
            axes.spines["bottom"].set_visible(False)
            axes.set_xticks([])
            axes.set_yticks(range(len(bars)), [bar.name for bar in bars])
            axes.set_ylim(len(bars) - 0.5, -0.5)
            drawn = axes.barh(range(len(bars)), [bar.value for bar in bars], height=0.6, color=BAR)
            axes.bar_label(drawn, [f"{bar.value:,}" for bar in bars], padding=4, size=9, color=MUTED)
            axes.set_xlim(0, 1.18 * max((bar.value for bar in bars), default=0) or 1)
        return svg_of(figure)


def line_panels(measures: dict[str, list[Line]]) -> str:
    """A panel of lines over days for each measure; one legend for all."""
    with matplotlib.rc_context(SETTINGS):
        figure, places = panels(len(measures), 2.6)
        for axes, (title, lines) in zip(places, measures.items()):
            axes.set_title(title, loc="left", size=11, color=INK)
            axes.grid(axis="y", color="#d0d7de", linewidth=0.6)
            for place, line in enumerate(lines):
                colour, mark = COLOURS[place % len(COLOURS)], MARKS[place // len(COLOURS) % len(MARKS)]
                days = [datetime.date.fromisoformat(day) for day, _ in line.points]
                axes.plot(days, [value for _, value in line.points], label=line.name, color=colour, marker=mark, markersize=4, linewidth=1.6)
            mark_whole_numbers(axes)
        add_legend(figure, places)
        return svg_of(figure)


def mark_whole_numbers(axes: Axes) -> None:
    """Marks of whole days and whole numbers, however close the points are."""
    first, last = axes.get_xlim()
    axes.set_xlim(first - max(0, 2 - (last - first) / 2), last + max(0, 2 - (last - first) / 2))
    axes.xaxis.set_major_locator(AutoDateLocator(minticks=2, maxticks=5))
    axes.xaxis.set_major_formatter(DateFormatter("%Y-%m-%d"))
    least, greatest = axes.get_ylim()
    axes.set_ylim(max(least, -0.05 * greatest), max(greatest, 1))
    axes.yaxis.set_major_locator(MaxNLocator(5, integer=True))
    axes.yaxis.set_major_formatter(StrMethodFormatter("{x:,.0f}"))


def add_legend(figure: Figure, places: list[Axes]) -> None:
    """Below the panels, which leave it its place."""
    handles, names = places[0].get_legend_handles_labels()
    share = 0.3 * ((len(names) + 3) // 4) / figure.get_figheight()
    figure.get_layout_engine().set(rect=(0, share, 1, 1 - share))
    figure.legend(handles, names, loc="lower center", ncol=4, frameon=False, fontsize=9)

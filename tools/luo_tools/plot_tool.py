"""luo-plot: pictures of reports, by matplotlib."""

from __future__ import annotations

import os
from collections.abc import Sequence
from math import sqrt
from typing import TYPE_CHECKING

from .command import Failure, Parser, read_input
from .reports import Table, read_report

if TYPE_CHECKING:
    from matplotlib.axes import Axes
    from matplotlib.figure import Figure

FORMS = (".png", ".svg")


def sheet(columns: int, rows: int, width: float = 6.4, height: float = 4.2) -> Figure:
    """An empty sheet with room for so many pictures."""
    import matplotlib

    matplotlib.use("Agg")
    matplotlib.rcParams["svg.hashsalt"] = "luo"
    from matplotlib.figure import Figure

    return Figure(figsize=(width * columns, height * rows), layout="constrained")


def save(figure: Figure, path: str) -> None:
    """Writes a sheet as PNG or SVG, by its name; the same picture has the same bytes."""
    form = os.path.splitext(path)[1]
    metadata = {"Date": None} if form == ".svg" else {"Software": None}
    try:
        figure.savefig(path, dpi=120, metadata=metadata)
    except OSError as error:
        raise Failure(f"{path}: {error.strerror}") from error


def picture_name(path: str) -> str:
    """The name of a picture, which has to be one of a form that is known."""
    if os.path.splitext(path)[1] not in FORMS:
        raise Failure(f"{path}: a picture's name ends with .png or .svg")
    return path


def label_of(table: Table, name: str, several: bool) -> str:
    """How a table is called in a picture."""
    label = f"{table.procedure} on {table.type}"
    return f"{name}: {label}" if several else label


def draw_averages(axes: Axes, table: Table, label: str, bands: bool) -> None:
    """The averages; with bands, one standard deviation to each side."""
    rows = [row for row in table.rows if row.average is not None]
    sizes = [row.size for row in rows]
    line = axes.plot(sizes, [float(row.average or 0) for row in rows], marker="o", markersize=3, label=label)[0]
    if bands:
        known = [row for row in rows if row.variance is not None]
        middle = [float(row.average or 0) for row in known]
        spread = [sqrt(row.variance or 0) for row in known]
        low = [m - s for m, s in zip(middle, spread, strict=True)]
        high = [m + s for m, s in zip(middle, spread, strict=True)]
        axes.fill_between([row.size for row in known], low, high, alpha=0.2, color=line.get_color(), linewidth=0)


def draw_counts(axes: Axes, table: Table, label: str) -> None:
    """The counts; a size with none has no point on a log scale."""
    rows = [row for row in table.rows if row.count]
    axes.plot([row.size for row in rows], [float(row.count) for row in rows], marker="o", markersize=3, label=label)


def finish(axes: Axes, title: str, scale: str) -> None:
    """Names the axes."""
    from matplotlib.ticker import MaxNLocator

    axes.set_title(title)
    axes.set_xlabel("size")
    axes.set_ylabel(title)
    axes.set_yscale(scale)
    axes.xaxis.set_major_locator(MaxNLocator(integer=True))
    axes.grid(alpha=0.3)
    axes.legend(fontsize="small", loc="upper left")


def main(words: Sequence[str]) -> int:
    """Draws reports on one sheet."""
    parser = Parser(prog="luo-plot", description="A picture of reports or moments: averages, counts on a log scale, variance bands.")
    parser.add_argument("picture", help="the picture, NAME.png or NAME.svg")
    parser.add_argument("file", nargs="*", default=["-"], help="reports of luo; standard input without any")
    parser.add_argument("--what", action="append", choices=("averages", "counts", "bands"), help="averages and counts without it")
    given = parser.parse_intermixed_args(words)
    picture = picture_name(given.picture)
    named = [(os.path.basename(path).split(".")[0], table) for path in given.file for table in read_report(read_input(path)).tables]
    if "bands" in (given.what or []) and not all(table.has_moments for _, table in named):
        raise Failure("bands need a table of moments; a report has no variances")
    chosen = list(dict.fromkeys(given.what or ["averages", "counts"]))
    figure = sheet(len(chosen), 1)
    for place, what in enumerate(chosen, 1):
        axes = figure.add_subplot(1, len(chosen), place)
        for name, table in named:
            label = label_of(table, name, len(given.file) > 1)
            if what == "counts":
                draw_counts(axes, table, label)
            else:
                draw_averages(axes, table, label, what == "bands")
        title = {"averages": "average", "counts": "count", "bands": "average and standard deviation"}[what]
        finish(axes, title, "log" if what == "counts" else "linear")
    save(figure, picture)
    return 0

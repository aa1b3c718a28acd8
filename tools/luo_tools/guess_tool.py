"""luo-guess: a recurrence and a growth that the rows of a report may have."""

from __future__ import annotations

from collections.abc import Sequence
from fractions import Fraction

from .command import Failure, Parser, read_input
from .growth import fits
from .recurrences import Search, search
from .reports import Table, one_table, read_report

COLUMNS = ("count", "total", "average")
LEAST_ROWS = 7


def column_of(table: Table, column: str) -> tuple[int, list[int | Fraction]]:
    """The first size and the numbers of a column; sizes before the first average are left out."""
    values = [getattr(row, column) for row in table.rows]
    start = next((n for n, value in enumerate(values) if value is not None), len(values))
    if None in values[start:]:
        raise Failure(f"the column {column} has gaps, where no structure has the size")
    return start, values[start:]


def guess_lines(table: Table, column: str, order: int, degree: int) -> list[str]:
    """What is said of a column."""
    start, values = column_of(table, column)
    if len(values) < LEAST_ROWS:
        raise Failure(f"{len(values)} rows are too few for a guess: {LEAST_ROWS} are needed, and some 40 do well")
    return [f"{column} of {table.procedure} on {table.type}, a(n) = {column} at size n{f'+{start}' if start else ''}:"] + [
        "  " + line for line in recurrence_lines(search(values, order, degree), order, degree)
    ]


def recurrence_lines(found: Search, order: int, degree: int) -> list[str]:
    """The recurrence, how it was checked, and what was not tried."""
    lines = []
    if found.found:
        r = found.found
        lines.append(f"{r.text()}  (for n >= 0)")
        lines.append(f"order {r.order}, degree {r.degree}: found from {r.used} rows, and right on {r.checked} more. A guess, not a proof.")
    else:
        lines.append(f"none up to order {order}, degree {degree}")
    if found.untried and not found.found:
        lines.append("too few rows for " + ", ".join(f"({r}, {d})" for r, d in found.untried) + " (order, degree): ask luo for larger sizes")
    return lines


def growth_lines(table: Table) -> list[str]:
    """The fits of the averages."""
    rows = [(row.size, row.average) for row in table.rows if row.average is not None]
    found = fits(rows)
    if not found:
        return []
    return ["growth of the average, fitted to the later half of the rows. A guess, not an analysis:"] + [
        f"  {'best: ' if place == 0 else '      '}{fit.text()}" for place, fit in enumerate(found[:4])
    ]


def main(words: Sequence[str]) -> int:
    """Reads a report, and writes what its rows may meet."""
    parser = Parser(prog="luo-guess", description="Recurrences and growth that the rows of a report may have.")
    parser.add_argument("file", nargs="?", default="-", help="a report; standard input without it")
    parser.add_argument("--column", choices=COLUMNS, action="append", help="count, total or average; all three without it")
    parser.add_argument("--procedure", help="the procedure, where the report has several tables")
    parser.add_argument("--order", type=int, default=4, help="the greatest order tried (4)")
    parser.add_argument("--degree", type=int, default=4, help="the greatest degree tried (4)")
    given = parser.parse_args(words)
    if not (0 <= given.order <= 20 and 0 <= given.degree <= 20):
        raise Failure("--order and --degree take 0 to 20")
    table = one_table(read_report(read_input(given.file)), given.procedure)
    chosen = given.column or [c for c in COLUMNS if c != "average" or all(row.count for row in table.rows[1:])]
    for column in chosen:
        print("\n".join(guess_lines(table, column, given.order, given.degree)))
    if not given.column or "average" in given.column:
        for line in growth_lines(table):
            print(line)
    return 0

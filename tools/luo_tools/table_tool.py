"""luo-table: outputs of luo as CSV, TSV, Markdown, LaTeX, JSON or a b-file."""

from __future__ import annotations

import csv
import io
import json
import sys
from collections.abc import Callable, Sequence
from dataclasses import dataclass
from fractions import Fraction

from .command import Failure, Parser, read_input
from .reports import Certificate, Listing, Output, Report, Row, Summary, one_table, read_output, read_report

Cell = int | str | Fraction | None
B_FILE_COLUMNS = ("count", "total", "numerator", "denominator")


@dataclass
class Sheet:
    """A table of any form: what its rows share, its columns and its rows."""

    shared: dict[str, str]
    columns: list[str]
    rows: list[list[Cell]]


def decimal(value: Fraction | None, places: int) -> str:
    """The decimal fraction of so many places that is nearest, half up, computed in whole numbers."""
    if value is None:
        return "-"
    scaled = (2 * value.numerator * 10**places + value.denominator) // (2 * value.denominator)
    digits = str(scaled).rjust(places + 1, "0")
    return f"{digits[:-places]}.{digits[-places:]}" if places else digits


def cell_text(cell: Cell) -> str:
    """A cell as luo writes it."""
    return "-" if cell is None else str(cell)


def row_cells(row: Row, places: int | None) -> dict[str, Cell]:
    """The columns of a row, with decimals where places are asked for."""
    cells: dict[str, Cell] = {"size": row.size, "count": row.count, "total": row.total, "average": row.average}
    if places is not None:
        cells["average_decimal"] = decimal(row.average, places)
    if row.square is not None:
        cells |= {"square": row.square, "variance": row.variance}
        if places is not None:
            cells["variance_decimal"] = decimal(row.variance, places)
    return cells


def sheets_of(output: Output, places: int | None) -> list[Sheet]:
    """The tables of an output."""
    if isinstance(output, Report):
        sheets = []
        for table in output.tables:
            rows = [row_cells(row, places) for row in table.rows]
            shared = {"procedure": table.procedure, "type": table.type}
            sheets.append(Sheet(shared, list(rows[0]), [list(row.values()) for row in rows]))
        return sheets
    if isinstance(output, Summary):
        rows = [{"procedure": name, **row_cells(row, places)} for name, row in output.rows]
        shared = {"number": str(output.number), "universe": output.universe, "bytes": str(output.bytes)}
        return [Sheet(shared, list(rows[0]), [list(row.values()) for row in rows])]
    if isinstance(output, Listing):
        return [Sheet({}, ["place", "structure"], [[place, text] for place, text in output.lines])]
    return [certificate_sheet(output)]


def certificate_sheet(certificate: Certificate) -> Sheet:
    """A row for each size, a column for each series."""
    names = [f"{kind}_{name}" for kind, name, _ in certificate.series]
    rows: list[list[Cell]] = [[n, *(numbers[n] for _, _, numbers in certificate.series)] for n in range(certificate.last + 1)]
    return Sheet({}, ["size", *names], rows)


def separated(sheets: list[Sheet], delimiter: str) -> str:
    """CSV or TSV: what the rows of a table share stands in columns of its own before the others."""
    out = io.StringIO()
    writer = csv.writer(out, delimiter=delimiter, lineterminator="\n")
    writer.writerow([*sheets[0].shared, *sheets[0].columns])
    for sheet in sheets:
        writer.writerows([*sheet.shared.values(), *map(cell_text, row)] for row in sheet.rows)
    return out.getvalue()


def heading_of(sheet: Sheet) -> str:
    """What the rows of a table share, in words."""
    if "type" in sheet.shared:
        return f"{sheet.shared['procedure']} on {sheet.shared['type']}"
    return ", ".join(f"{key} {value}" for key, value in sheet.shared.items())


def markdown(sheets: list[Sheet]) -> str:
    """A table of Markdown for each table, below its heading."""
    out = []
    for sheet in sheets:
        lines = [f"**{heading_of(sheet)}**", ""] if sheet.shared else []
        lines.append(f"| {' | '.join(name.replace('_', ' ') for name in sheet.columns)} |")
        lines.append("|" + "".join("---|" if name in ("structure", "procedure") else "---:|" for name in sheet.columns))
        lines += [f"| {' | '.join(map(cell_text, row))} |" for row in sheet.rows]
        out.append("\n".join(lines) + "\n")
    return "\n".join(out)


def latex_text(text: str) -> str:
    """A text with the signs escaped that LaTeX reads as its own."""
    return "".join("\\" + sign if sign in "#_&%$" else sign for sign in text)


def latex(sheets: list[Sheet]) -> str:
    """A tabular of the package booktabs for each table."""
    out = []
    for sheet in sheets:
        aligned = "".join("l" if name in ("structure", "procedure") else "r" for name in sheet.columns)
        lines = [f"% {heading_of(sheet)}"] if sheet.shared else []
        lines += [f"\\begin{{tabular}}{{{aligned}}}", "\\toprule"]
        lines += [" & ".join(name.replace("_", " ") for name in sheet.columns) + " \\\\", "\\midrule"]
        lines += [" & ".join(latex_text(cell_text(cell)) for cell in row) + " \\\\" for row in sheet.rows]
        out.append("\n".join([*lines, "\\bottomrule", "\\end{tabular}"]) + "\n")
    return "\n".join(out)


def json_cell(cell: Cell, column: str) -> object:
    """Sizes are numbers; all others are texts, since they may be larger than a reader of JSON keeps exact."""
    if cell is None or column == "size":
        return cell
    return cell_text(cell)


def json_text(output: Output, sheets: list[Sheet]) -> str:
    """The whole output as JSON."""
    whole: dict[str, object] = {}
    if isinstance(output, Report):
        whole = {"universe": output.universe, "equations": list(output.equations)}
    tables: list[dict[str, object]] = []
    for sheet in sheets:
        rows = [{c: json_cell(v, c) for c, v in zip(sheet.columns, row, strict=True)} for row in sheet.rows]
        tables.append({**sheet.shared, "rows": rows})
    whole["tables"] = tables
    return json.dumps(whole, indent=1) + "\n"


def b_file(text: bytes, column: str, procedure: str | None) -> str:
    """A b-file of the OEIS: on each line a size and a number; sizes before the first average are left out."""
    table = one_table(read_report(text), procedure)
    averaged = column in ("numerator", "denominator")
    rows = list(table.rows)
    while averaged and rows and rows[0].average is None:
        rows.pop(0)
    if not rows:
        raise Failure("no row has an average")
    lines = []
    for row in rows:
        if averaged and row.average is None:
            raise Failure(f"size {row.size} has no average, and a b-file has no gaps")
        value = getattr(row.average if averaged else row, column)
        lines.append(f"{row.size} {value}\n")
    return "".join(lines)


FORMS: dict[str, Callable[[Output, list[Sheet]], str]] = {
    "csv": lambda _, sheets: separated(sheets, ","),
    "tsv": lambda _, sheets: separated(sheets, "\t"),
    "markdown": lambda _, sheets: markdown(sheets),
    "latex": lambda _, sheets: latex(sheets),
    "json": json_text,
}


def main(words: Sequence[str]) -> int:
    """Reads an output on standard input or in a file, and writes it in the form asked for."""
    parser = Parser(prog="luo-table", description="An output of luo as a table of another form.")
    parser.add_argument("form", choices=[*FORMS, "b-file"], help="the form of the table")
    parser.add_argument("file", nargs="?", default="-", help="a report, moments, listing or summary; standard input without it")
    parser.add_argument("--decimals", type=int, metavar="N", help="add averages and variances with N decimal places, computed exactly")
    parser.add_argument("--column", choices=B_FILE_COLUMNS, default="count", help="the column of a b-file")
    parser.add_argument("--procedure", help="the procedure of a b-file, where the report has several")
    given = parser.parse_args(words)
    if given.decimals is not None and not 0 <= given.decimals <= 1000:
        raise Failure("--decimals takes 0 to 1000")
    text = read_input(given.file)
    if given.form == "b-file":
        sys.stdout.write(b_file(text, given.column, given.procedure))
        return 0
    output = read_output(text)
    sys.stdout.write(FORMS[given.form](output, sheets_of(output, given.decimals)))
    return 0

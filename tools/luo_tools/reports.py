"""Reading what luo writes: reports, tables of moments, summaries of samples, listings and certificates."""

from __future__ import annotations

import re
from dataclasses import dataclass
from fractions import Fraction

from .command import Failure

REFUSAL = re.compile(r"(refused: |limit: |overflow: |usage$|read fault$|write fault$|no memory$)")
NUMBER = re.compile(r"(0|[1-9][0-9]*)$")
HEADING = re.compile(r"analyze ([A-Za-z]\w*) on (.+)$")
PLACE = re.compile(r"(\d+) (\S*[a#\[(:]\S*)$")


@dataclass(frozen=True)
class Row:
    """A row: the size, the count, the total and the average; of moments also the square and the variance."""

    size: int
    count: int
    total: int
    average: Fraction | None
    square: int | None = None
    variance: Fraction | None = None


@dataclass(frozen=True)
class Table:
    """The rows of one analyze line."""

    procedure: str
    type: str
    rows: tuple[Row, ...]

    @property
    def has_moments(self) -> bool:
        """Whether the rows have squares and variances."""
        return bool(self.rows) and self.rows[0].square is not None


@dataclass(frozen=True)
class Report:
    """A report of `analyse` or `audit`, or a table of moments."""

    universe: str
    equations: tuple[str, ...]
    tables: tuple[Table, ...]


@dataclass(frozen=True)
class Summary:
    """What `sample` writes: a row for each procedure."""

    number: int
    universe: str
    bytes: int
    rows: tuple[tuple[str, Row], ...]


@dataclass(frozen=True)
class Listing:
    """What `list` or `draw` writes: places and texts of structures."""

    lines: tuple[tuple[int, str], ...]


@dataclass(frozen=True)
class Certificate:
    """What `certify` writes: the numbers of each series, by its kind (`x` or `tau`) and name."""

    last: int
    series: tuple[tuple[str, str, tuple[int, ...]], ...]


Output = Report | Summary | Listing | Certificate


def number(word: str, line: int) -> int:
    """The number of a word."""
    if not NUMBER.match(word):
        raise Failure(f"line {line}: `{word}` is no number")
    return int(word)


def fraction(word: str, line: int) -> Fraction | None:
    """The fraction of a word, in lowest terms; nothing for `-` and `*`."""
    if word in ("-", "*"):
        return None
    over, _, under = word.partition("/")
    below = number(under, line) if under else 1
    if below == 0 or under == "1" or Fraction(number(over, line), below).denominator != below:
        raise Failure(f"line {line}: `{word}` is no fraction in lowest terms")
    return Fraction(int(over), below)


def row_of(words: list[str], line: int) -> Row:
    """A row of a report or of moments. Its average has to be its total over its count."""
    if len(words) not in (4, 5):
        raise Failure(f"line {line}: a row has 4 numbers, or 5 of moments, and this has {len(words)} words")
    size, count, total = (number(word, line) for word in words[:3])
    average = Fraction(total, count) if count else None
    if len(words) == 5:
        return Row(size, count, total, average, number(words[3], line), fraction(words[4], line))
    if fraction(words[3], line) != average:
        raise Failure(f"line {line}: the average isn't the total over the count")
    return Row(size, count, total, average)


def lines_of(text: bytes) -> list[str]:
    """The lines of an output of luo, each of which has its line feed."""
    if not text:
        raise Failure("nothing came on the input: luo writes a refusal on standard error")
    try:
        lines = text.decode("ascii").split("\n")
    except UnicodeDecodeError:
        raise Failure("this is no output of luo: it has a byte above 127") from None
    if REFUSAL.match(lines[0]):
        raise Failure(f"this is a refusal, and no output: {lines[0]}")
    if lines.pop():
        raise Failure(f"this is cut: line {len(lines) + 1} has no end")
    return lines


def read_output(text: bytes) -> Output:
    """What luo wrote, by its first line."""
    lines = lines_of(text)
    first = lines[0]
    if first in ("universe labelled", "universe unlabelled"):
        return report_of(lines)
    if first.startswith("number "):
        return summary_of(lines)
    if first.startswith("certificate "):
        return certificate_of(lines)
    if PLACE.match(first):
        return listing_of(lines)
    if NUMBER.match(first):
        raise Failure("this is a charge, as `run` writes it, and has no rows")
    if first in ("labelled;", "unlabelled;"):
        raise Failure("this is a program, as `format` writes it, and has no rows")
    raise Failure(f"this is no output of luo: line 1 is `{first[:40]}`")


def read_report(text: bytes) -> Report:
    """A report, and nothing else."""
    output = read_output(text)
    if not isinstance(output, Report):
        raise Failure(f"a report is wanted, and this is a {type(output).__name__.lower()}")
    return output


def report_of(lines: list[str]) -> Report:
    """A report: equations, and tables of equal length from size 0 on."""
    equations: list[str] = []
    tables: list[Table] = []
    rows: list[Row] = []
    for place, line in enumerate(lines[1:], 2):
        heading = HEADING.match(line)
        if heading:
            rows = []
            tables.append(Table(heading[1], heading[2], ()))
        elif not tables:
            if " = " not in line:
                raise Failure(f"line {place}: this is no equation: `{line[:40]}`")
            equations.append(line)
        else:
            row = row_of(line.split(" "), place)
            if row.size != len(rows):
                raise Failure(f"line {place}: the row of size {len(rows)} is wanted, and here is that of size {row.size}")
            rows.append(row)
            tables[-1] = Table(tables[-1].procedure, tables[-1].type, tuple(rows))
    if not tables:
        raise Failure("this is cut: no analyze line has come")
    for table in tables:
        if not table.rows or len(table.rows) != len(tables[0].rows):
            last = len(tables[0].rows) - 1
            raise Failure(f"this is cut: the rows of {table.procedure} end before size {max(last, 0)}")
    return Report(lines[0].split(" ")[1], tuple(equations), tuple(tables))


def summary_of(lines: list[str]) -> Summary:
    """A summary of a sample: three lines, and eight rows."""
    if len(lines) != 11 or not lines[1].startswith("universe ") or not lines[2].startswith("bytes "):
        raise Failure(f"this is cut: a summary of a sample has 11 lines, and this has {len(lines)}")
    rows = []
    for place, line in enumerate(lines[3:], 4):
        name, *words = line.split(" ")
        rows.append((name, row_of(words, place)))
    return Summary(number(lines[0][7:], 1), lines[1][9:], number(lines[2][6:], 3), tuple(rows))


def listing_of(lines: list[str]) -> Listing:
    """A listing: on each line a place and a text."""
    found = []
    for place, line in enumerate(lines, 1):
        match = PLACE.match(line)
        if match is None:
            raise Failure(f"line {place}: this is no line of a listing: `{line[:40]}`")
        found.append((int(match[1]), match[2]))
    return Listing(tuple(found))


def certificate_of(lines: list[str]) -> Certificate:
    """A certificate: a line for each series, with a number for each size."""
    last = number(lines[0].partition(" ")[2], 1)
    series = []
    for place, line in enumerate(lines[1:], 2):
        kind, *words = line.split(" ")
        if kind not in ("x", "tau") or len(words) != last + 2:
            raise Failure(f"line {place}: a series has a kind, a name and {last + 1} numbers")
        series.append((kind, words[0], tuple(number(word, place) for word in words[1:])))
    return Certificate(last, tuple(series))


def one_table(report: Report, procedure: str | None) -> Table:
    """The table of a procedure, or the only one."""
    names = ", ".join(table.procedure for table in report.tables)
    if procedure is None:
        if len(report.tables) > 1:
            raise Failure(f"this report has several tables: name one by --procedure ({names})")
        return report.tables[0]
    for table in report.tables:
        if table.procedure == procedure:
            return table
    raise Failure(f"this report has no table of {procedure}, but of {names}")

"""Linear recurrences with polynomial coefficients that numbers meet, by exact linear algebra.

As Sage's `guess` and gfun's `listtorec` do, a recurrence of order r and degree d is found by solving linear equations, one for
each row; the last rows take no part in that, and are there to refute it."""

from __future__ import annotations

from collections.abc import Iterator, Sequence
from dataclasses import dataclass
from fractions import Fraction
from math import gcd, lcm

from .command import Progress

PRIME = (1 << 61) - 1
HELD_OUT = 4


@dataclass(frozen=True)
class Recurrence:
    """`sum of p_i(n) a(n + i) = 0`: the coefficients of each p_i from the constant one on, and the numbers of rows used and checked."""

    coefficients: tuple[tuple[int, ...], ...]
    used: int
    checked: int

    @property
    def order(self) -> int:
        """The number of rows that a row depends on."""
        return len(self.coefficients) - 1

    @property
    def degree(self) -> int:
        """The greatest degree of a coefficient."""
        return max(degree_of(c) for c in self.coefficients)

    def text(self) -> str:
        """The recurrence as an equation with 0 on its right."""
        terms = []
        for shift in range(self.order, -1, -1):
            polynomial = polynomial_text(self.coefficients[shift])
            if polynomial != "0":
                terms.append(f"({polynomial})*a({f'n+{shift}' if shift else 'n'})")
        return " + ".join(terms) + " = 0"


@dataclass(frozen=True)
class Search:
    """What came of a search: the recurrence, if there is one, and the orders and degrees for which the rows were too few."""

    found: Recurrence | None
    untried: tuple[tuple[int, int], ...]


def degree_of(coefficients: Sequence[int]) -> int:
    """The degree of a polynomial; that of zero is 0."""
    return max((i for i, c in enumerate(coefficients) if c), default=0)


def polynomial_text(coefficients: Sequence[int]) -> str:
    """A polynomial in n, from its highest power down."""
    terms: list[str] = []
    for power in range(len(coefficients) - 1, -1, -1):
        number = coefficients[power]
        if number:
            letter = "" if power == 0 else "n" if power == 1 else f"n^{power}"
            size = abs(number)
            body = letter if letter and size == 1 else f"{size}*{letter}" if letter else str(size)
            sign = "-" if number < 0 else "+"
            terms.append(f" {sign} {body}" if terms else ("-" if number < 0 else "") + body)
    return "".join(terms) or "0"


def equations(numbers: Sequence[int], order: int, degree: int) -> list[list[int]]:
    """A row of the linear system for each n: the numbers n^j a(n + i)."""
    return [
        [n**j * numbers[n + i] for i in range(order + 1) for j in range(degree + 1)]
        for n in range(len(numbers) - order)
    ]


def has_full_rank(rows: Sequence[Sequence[int]]) -> bool:
    """Whether the columns are independent modulo a prime. Then they are independent."""
    width = len(rows[0])
    left = [[value % PRIME for value in row] for row in rows]
    for column in range(width):
        pivot = next((i for i, row in enumerate(left) if row[column]), None)
        if pivot is None:
            return False
        chosen = left.pop(pivot)
        inverse = pow(chosen[column], -1, PRIME)
        chosen = [value * inverse % PRIME for value in chosen]
        left = [
            [(a - row[column] * b) % PRIME for a, b in zip(row, chosen, strict=True)] if row[column] else row for row in left
        ]
    return True


def null_vectors(rows: Sequence[Sequence[int]]) -> list[list[int]]:
    """A basis of the vectors that all rows send to 0, exactly, each in whole numbers without a common factor."""
    width = len(rows[0])
    left = [[Fraction(value) for value in row] for row in rows]
    pivots: list[tuple[int, list[Fraction]]] = []
    for column in range(width):
        place = next((i for i, row in enumerate(left) if row[column]), None)
        if place is None:
            continue
        chosen = left.pop(place)
        chosen = [value / chosen[column] for value in chosen]
        left = [[a - row[column] * b for a, b in zip(row, chosen, strict=True)] if row[column] else row for row in left]
        pivots = [
            (c, [a - row[column] * b for a, b in zip(row, chosen, strict=True)] if row[column] else row) for c, row in pivots
        ]
        pivots.append((column, chosen))
    bound = {column for column, _ in pivots}
    return [whole(free, pivots, width) for free in range(width) if free not in bound]


def whole(free: int, pivots: Sequence[tuple[int, Sequence[Fraction]]], width: int) -> list[int]:
    """The null vector of a free column, in whole numbers."""
    vector = [Fraction(0)] * width
    vector[free] = Fraction(1)
    for column, row in pivots:
        vector[column] = -row[free]
    scale = lcm(*(value.denominator for value in vector))
    numbers = [int(value * scale) for value in vector]
    common = gcd(*numbers)
    last = next(value for value in reversed(numbers) if value)
    return [value // (common if last > 0 else -common) for value in numbers]


def shapes(order: int, degree: int) -> Iterator[tuple[int, int]]:
    """The orders and degrees to be tried: the least order first, and for it the least degree."""
    for r in range(order + 1):
        for d in range(degree + 1):
            yield r, d


def search(given: Sequence[int | Fraction], order: int = 4, degree: int = 4) -> Search:
    """The recurrence of least order, and then of least degree, that all numbers meet."""
    scale = lcm(*(Fraction(value).denominator for value in given))
    numbers = [int(value * scale) for value in given]
    untried = []
    progress = Progress("orders and degrees", (order + 1) * (degree + 1))
    for done, (r, d) in enumerate(shapes(order, degree)):
        progress.at(done)
        rows = equations(numbers, r, d)
        held = max(HELD_OUT, len(numbers) // 5)
        used = rows[: len(rows) - held] if len(rows) > held else []
        if len(used) < (r + 1) * (d + 1):
            untried.append((r, d))
            continue
        found = solved(used, rows[len(used) :], r, d)
        if found:
            progress.end()
            return Search(found, tuple(untried))
    progress.end()
    return Search(None, tuple(untried))


def solved(used: Sequence[Sequence[int]], held: Sequence[Sequence[int]], order: int, degree: int) -> Recurrence | None:
    """A recurrence of this order and degree by the rows used, if those held out don't refute it."""
    if has_full_rank(used):
        return None
    for vector in null_vectors(used):
        width = degree + 1
        parts = tuple(tuple(vector[i * width : (i + 1) * width]) for i in range(order + 1))
        right = all(sum(a * b for a, b in zip(row, vector, strict=True)) == 0 for row in held)
        if right and any(parts[-1]) and (order == 0 or any(parts[0])):
            return Recurrence(parts, len(used), len(held))
    return None

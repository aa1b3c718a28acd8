"""The growth of averages, fitted by least squares. That is a guess, and no analysis of singularities."""

from __future__ import annotations

from collections.abc import Callable, Sequence
from dataclasses import dataclass
from fractions import Fraction
from math import log, sqrt

Function = Callable[[float], float]
SHAPES: dict[str, tuple[Function, str, Function]] = {
    "1": (lambda n: 1.0, "1/n", lambda n: 1 / n),
    "log n": (log, "1", lambda n: 1.0),
    "n^(1/2)": (sqrt, "1", lambda n: 1.0),
    "n^(1/2) log n": (lambda n: sqrt(n) * log(n), "n^(1/2)", sqrt),
    "n": (lambda n: n, "1", lambda n: 1.0),
    "n log n": (lambda n: n * log(n), "n", lambda n: n),
    "n^(3/2)": (lambda n: n * sqrt(n), "n", lambda n: n),
    "n^2": (lambda n: n * n, "n", lambda n: n),
}
LEAST_ROWS = 6


@dataclass(frozen=True)
class Fit:
    """A fit `first * shape + second * lower`, and its greatest residual, as a part of the average."""

    shape: str
    lower: str
    first: float
    second: float
    residual: float

    def text(self) -> str:
        """The fit with its residual."""
        sign = "+" if self.second >= 0 else "-"
        lower = "" if self.lower == "1" else f" {self.lower}"
        shape = "" if self.shape == "1" else f" {self.shape}"
        return f"{self.first:.5g}{shape} {sign} {abs(self.second):.5g}{lower}, off by at most {100 * self.residual:.2g} %"


def fits(rows: Sequence[tuple[int, Fraction]]) -> list[Fit]:
    """The fits to the later half of the rows that grow upwards, the one with the least residual first."""
    points = [(float(n), float(value)) for n, value in rows if n > 1 and value]
    points = points[len(points) // 2 :]
    if len(points) < LEAST_ROWS:
        return []
    found = [fit_of(shape, points) for shape in SHAPES]
    return sorted((fit for fit in found if fit.first > 0), key=lambda fit: fit.residual)


def fit_of(shape: str, points: Sequence[tuple[float, float]]) -> Fit:
    """The least squares of relative errors over the points."""
    first, lower, second = SHAPES[shape]
    rows = [(first(n) / value, second(n) / value) for n, value in points]
    aa, ab, bb = sum(a * a for a, _ in rows), sum(a * b for a, b in rows), sum(b * b for _, b in rows)
    a1, b1 = sum(a for a, _ in rows), sum(b for _, b in rows)
    over = aa * bb - ab * ab
    x, y = (a1 * bb - b1 * ab) / over, (aa * b1 - ab * a1) / over
    return Fit(shape, lower, x, y, max(abs(1 - x * a - y * b) for a, b in rows))

"""luo-guess: recurrences that are known, and sequences that have none."""

from __future__ import annotations

from math import factorial

import pytest
from conftest import EXAMPLES, TOP, one_line, out_of, run, tool

from luo_tools.recurrences import search


def guess(luo: str, name: str, size: int, *words: str) -> str:
    """What luo-guess says of an example."""
    report = out_of(luo, "analyse", TOP / "examples" / f"{name}.adl", size)
    done = tool("luo-guess", *words, given=report)
    assert done.returncode == 0, done.stderr
    return done.stdout.decode()


def test_known_recurrences(luo: str) -> None:
    tree = guess(luo, "tree", 60)
    assert "(n + 2)*a(n+1) + (-4*n - 2)*a(n) = 0" in tree and "best: 1.73" in tree and "n^(3/2)" in tree
    perm = guess(luo, "perm", 33)
    assert "(1)*a(n+1) + (-n - 1)*a(n) = 0" in perm and "log n" in perm.split("best: ")[1].split("\n")[0]
    assert "(n + 3)*a(n+2) + (-2*n - 3)*a(n+1) + (-3*n)*a(n) = 0" in guess(luo, "motzkin", 40)


def test_none_and_too_few(luo: str) -> None:
    assert "none up to order 4, degree 4\n" in guess(luo, "parts", 60, "--column", "count")
    assert "too few rows for" in guess(luo, "parts", 12, "--column", "count")


def test_rows_held_out_refute() -> None:
    numbers = [2**n for n in range(40)]
    assert search(numbers).found
    numbers[-1] += 1
    assert search(numbers, 2, 2).found is None
    found = search([factorial(n) for n in range(20)]).found
    assert found and found.order == 1 and found.degree == 1 and found.checked >= 4


@pytest.mark.parametrize("path", EXAMPLES, ids=lambda path: path.stem)
def test_each_example(luo: str, path) -> None:
    size = next(n for n in (25, 12, 7) if run([luo, "analyse", path, n]).returncode == 0)
    done = tool("luo-guess", "--column", "count", given=out_of(luo, "analyse", path, size))
    assert (done.returncode == 0 and b"a(n)" in done.stdout) or "rows are too few" in one_line(done)


def test_bad_inputs(luo: str) -> None:
    assert "refusal" in one_line(tool("luo-guess", given=b"limit: size 160\n"))
    assert "listing" in one_line(tool("luo-guess", given=b"0 [[#1]]\n"))
    assert "gaps" in one_line(tool("luo-guess", "--column", "average", given=b"universe unlabelled\nanalyze p on t\n0 1 0 0\n1 0 0 -\n"))

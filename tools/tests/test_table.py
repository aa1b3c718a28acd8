"""luo-table and the reading of outputs: every form, on all examples, and inputs that are none."""

from __future__ import annotations

import csv
import io
import json
from fractions import Fraction
from pathlib import Path

import pytest
from conftest import EXAMPLES, TOP, one_line, out_of, tool

from luo_tools.table_tool import decimal

FORMS = ("csv", "tsv", "markdown", "latex", "json")
PERM = TOP / "examples" / "perm.adl"
MOMENTS = b"universe unlabelled\nanalyze path on tree\n0 1 0 0 0\n1 1 0 0 0\n2 2 2 2 0\n3 5 14 40 4/25\n"


@pytest.mark.parametrize("path", EXAMPLES, ids=lambda path: path.stem)
def test_csv_has_the_rows_of_the_report(luo: str, path: Path) -> None:
    report = out_of(luo, "analyse", path, 6)
    rows = list(csv.DictReader(io.StringIO(tool("luo-table", "csv", given=report).stdout.decode())))
    wanted = [line.split(" ") for line in report.decode().split("\n") if line[:1].isdigit()]
    assert [[row["size"], row["count"], row["total"], row["average"]] for row in rows] == wanted
    for form in FORMS[1:]:
        done = tool("luo-table", form, "--decimals", 3, given=report)
        assert done.returncode == 0 and len(done.stdout) > 100


def test_outputs_of_every_command(luo: str) -> None:
    report = out_of(luo, "analyse", PERM, 5)
    assert out_of(luo, "audit", PERM, 5, 2) == report
    for form in FORMS:
        for output in (report, out_of(luo, "list", PERM, "perm", 3, 0, 9), out_of(luo, "sample", 1, 5), MOMENTS):
            assert tool("luo-table", form, given=output).returncode == 0
    assert "charge" in one_line(tool("luo-table", "csv", given=out_of(luo, "run", PERM, "cycles", "[[#1]]")))
    assert "program" in one_line(tool("luo-table", "csv", given=out_of(luo, "format", PERM)))


def test_forms(luo: str) -> None:
    report = out_of(luo, "analyse", PERM, 3)
    assert tool("luo-table", "b-file", "--column", "total", given=report).stdout == b"0 0\n1 1\n2 3\n3 11\n"
    assert tool("luo-table", "b-file", "--column", "denominator", given=report).stdout == b"0 1\n1 1\n2 2\n3 6\n"
    assert b"3,6,11,11/6,1.83" in tool("luo-table", "csv", "--decimals", 2, given=report).stdout
    assert b"| 3 | 6 | 11 | 11/6 |" in tool("luo-table", "markdown", given=report).stdout
    latex = tool("luo-table", "latex", given=report).stdout
    assert b"3 & 6 & 11 & 11/6 \\\\" in latex and b"\\toprule" in latex and b"\\bottomrule" in latex
    tables = json.loads(tool("luo-table", "json", given=report).stdout)["tables"]
    assert tables[0]["rows"][3] == {"size": 3, "count": "6", "total": "11", "average": "11/6"}
    moments = tool("luo-table", "csv", "--decimals", 2, given=MOMENTS).stdout
    assert b"path,tree,3,5,14,14/5,2.80,40,4/25,0.16" in moments


def test_decimals_are_exact() -> None:
    assert decimal(Fraction(1, 8), 2) == "0.13" and decimal(Fraction(2, 3), 0) == "1"
    assert decimal(Fraction(10**30 + 1, 10**30), 30) == "1." + "0" * 29 + "1"
    assert decimal(Fraction(1, 3), 50) == "0." + "3" * 50


def test_bad_inputs(luo: str) -> None:
    report = out_of(luo, "analyse", PERM, 3)
    two = out_of(luo, "analyse", TOP / "examples" / "tree.adl", 3).replace(b"analyze path", b"analyze p")
    for bad, word in (
        (b"", "nothing"),
        (b"refused: G2 at token 6, byte 15\n", "refusal"),
        (b"overflow: count of s.0 at size 34\n", "refusal"),
        (report[:-3], "cut"),
        (report[:30], "cut"),
        (report[: report.index(b"0 1 0")], "cut"),
        (report + two[two.index(b"analyze") : -8], "cut"),
        (report.replace(b"11/6", b"11/7"), "average"),
        (report.replace(b"2 2 3 3/2\n", b""), "size 2"),
        (b"total 4\ndrwxr-xr-x 2 root root\n", "no output of luo"),
        (b"\xff\xfe\n", "no output of luo"),
    ):
        line = one_line(tool("luo-table", "csv", given=bad))
        assert word in line, (bad, line)
    assert "form" in one_line(tool("luo-table", "xml"), 2)
    assert "No such file" in one_line(tool("luo-table", "csv", "/no-such"))

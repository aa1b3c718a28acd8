"""luo-plot and luo-draw-picture: a picture of each example, and inputs that have none."""

from __future__ import annotations

from pathlib import Path

import pytest
from conftest import EXAMPLES, TOP, one_line, out_of, tool
from test_table import MOMENTS

from luo_tools.command import Failure
from luo_tools.picture_tool import form_of, node_of
from luo_tools.structures import read_structure

PNG = b"\x89PNG\r\n\x1a\n"
FORMS = {"perm": "cycles", "parts": "ferrers", "distinct": "ferrers", "tree": "tree", "big": "word", "rooted": "tree"}


def test_reports_on_one_sheet(luo: str, tmp_path: Path) -> None:
    reports = []
    for path in EXAMPLES[:6]:
        reports.append(tmp_path / path.stem)
        reports[-1].write_bytes(out_of(luo, "analyse", path, 7))
    for name in ("all.png", "all.svg"):
        assert tool("luo-plot", tmp_path / name, *reports).returncode == 0
    assert (tmp_path / "all.png").read_bytes().startswith(PNG)
    picture = (tmp_path / "all.svg").read_bytes()
    assert b"<svg" in picture and len(picture) > 20000
    assert tool("luo-plot", tmp_path / "again.svg", *reports).returncode == 0
    assert (tmp_path / "again.svg").read_bytes() == picture


def test_bands(tmp_path: Path) -> None:
    assert tool("luo-plot", tmp_path / "b.png", "--what", "bands", given=MOMENTS).returncode == 0


@pytest.mark.parametrize("name", FORMS)
def test_structures(luo: str, tmp_path: Path, name: str) -> None:
    path = TOP / "examples" / f"{name}.adl"
    kind = {"perm": "perm", "parts": "partition", "distinct": "partition", "tree": "tree", "big": "t", "rooted": "tree"}[name]
    listing = out_of(luo, "list", path, kind, 4, 0, 12)
    assert tool("luo-draw-picture", tmp_path / "p.svg", given=listing).returncode == 0
    forms = {form_of(read_structure(line.split(" ")[1])) for line in listing.decode().split("\n")[:-1]}
    assert FORMS[name] in forms


def test_listings_of_all_examples_are_structures() -> None:
    read = 0
    for path in (TOP / "examples").glob("*.listing"):
        for line in path.read_text().split("\n")[:-1]:
            node_of(read_structure(line.split(" ")[1]))
            read += 1
    assert read > 200


@pytest.mark.parametrize("text", ["", "a", "(a1)", "[a1,]", "a1a1", "2:", "[a1", "A1"])
def test_no_structures(text: str) -> None:
    with pytest.raises(Failure, match="no text of a structure"):
        read_structure(text)


def test_bad_inputs(luo: str, tmp_path: Path) -> None:
    report = out_of(luo, "analyse", TOP / "examples" / "perm.adl", 4)
    picture = tmp_path / "p.png"
    assert "ends with .png or .svg" in one_line(tool("luo-plot", tmp_path / "p.gif", given=report))
    assert "moments" in one_line(tool("luo-plot", picture, "--what", "bands", given=report))
    assert "refusal" in one_line(tool("luo-plot", picture, given=b"usage\n"))
    assert "listing is wanted" in one_line(tool("luo-draw-picture", picture, given=report))
    assert "too many" in one_line(tool("luo-draw-picture", picture, given=out_of(luo, "list", TOP / "examples" / "tree.adl", "tree", 7, 0, 101)))
    assert "--as tree" in one_line(tool("luo-draw-picture", picture, "--as", "cycles", "(a1,a1)"))
    assert not picture.exists()

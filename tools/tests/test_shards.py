"""luo-shards: pieces by GNU parallel and xargs, one of them killed, and what the join says of pieces that aren't right."""

from __future__ import annotations

import os
import subprocess
from pathlib import Path

import pytest
from conftest import TOOLS, TOP, one_line, out_of, run, tool

TREE = TOP / "examples" / "tree.adl"
KILLER = """#!/bin/sh
# luo, but for the first run that lists from place {place}: that ends the worker that runs it
if [ "$1" = list ] && [ "$5" = {place} ] && mkdir {once} 2> /dev/null; then kill -9 $PPID; fi
exec {luo} "$@"
"""


def planned(luo: str, folder: Path, *words: object) -> list[str]:
    """The commands of a plan."""
    done = tool("luo-shards", "plan", "--luo", luo, *words, folder, TREE, "tree", 7)
    assert done.returncode == 0, done.stderr
    return done.stdout.decode().split("\n")[:-1]


def test_a_worker_that_is_killed(luo: str, tmp_path: Path) -> None:
    """429 trees in four pieces: the third worker is killed, the join names its piece, and a second run does it alone."""
    killer = tmp_path / "luo"
    killer.write_text(KILLER.format(place=214, once=tmp_path / "once", luo=luo))
    killer.chmod(0o755)
    folder = tmp_path / "pieces"
    commands = "\n".join(planned(str(killer), folder)).encode()
    first = run(["parallel", "--will-cite", "-j", 4], commands)
    assert first.returncode == 1
    joined = tool("luo-shards", "join", folder)
    assert joined.stdout.startswith(b"piece-2 was cut off: its run didn't end; again: ") and joined.stdout.count(b"\n") == 1
    assert "1 of 4 pieces" in one_line(joined)
    before = {piece: (folder / f"piece-{piece}").stat().st_mtime_ns for piece in (0, 1, 3)}
    assert run(["sh", "-c", joined.stdout.decode().split("again: ")[1]]).returncode == 0
    assert before == {piece: (folder / f"piece-{piece}").stat().st_mtime_ns for piece in (0, 1, 3)}
    joined = tool("luo-shards", "join", folder)
    assert joined.returncode == 0 and joined.stdout == out_of(luo, "list", TREE, "tree", 7, 0, 100000)
    assert b"429 structures" in joined.stderr


def test_xargs_and_slurm(luo: str, tmp_path: Path) -> None:
    commands = planned(luo, tmp_path / "a", "--runner", "xargs", "--pieces", 12)
    assert subprocess.run(["sh", "-c", commands[0]], check=False).returncode == 0
    assert tool("luo-shards", "join", tmp_path / "a").stdout == out_of(luo, "list", TREE, "tree", 7, 0, 100000)
    script = planned(luo, tmp_path / "b", "--runner", "slurm", "--pieces", 3)
    assert "#SBATCH --array=0-2" in script
    for piece in range(3):
        done = subprocess.run(["sh", "-c", "\n".join(script)], env={"SLURM_ARRAY_TASK_ID": str(piece), "PATH": "/usr/bin:/bin"}, check=False)
        assert done.returncode == 0
    assert tool("luo-shards", "join", tmp_path / "b").returncode == 0


@pytest.mark.parametrize(
    ("spoil", "said"),
    [
        (lambda text: text[:-5], "was cut"),
        (lambda text: text[: text.rindex(b"\n", 0, -1) + 1], "was cut: it ends before"),
        (lambda text: text + text, "came twice"),
        (lambda text: text.split(b"\n", 5)[5], "was cut: place"),
        (lambda text: None, "failed: there is no file"),
    ],
)
def test_pieces_that_are_not_right(luo: str, tmp_path: Path, spoil, said: str) -> None:
    folder = tmp_path / "pieces"
    for command in planned(luo, folder):
        assert run(["sh", "-c", command]).returncode == 0
    path = folder / "piece-1"
    text = spoil(path.read_bytes())
    path.unlink()
    if text is not None:
        path.write_bytes(text)
    joined = tool("luo-shards", "join", folder)
    assert joined.stdout.decode().startswith(f"piece-1 {said}"), joined.stdout
    assert joined.returncode == 1


def test_a_copy_is_named(luo: str, tmp_path: Path) -> None:
    folder = tmp_path / "pieces"
    for command in planned(luo, folder, "--pieces", 2):
        run(["sh", "-c", command])
    (folder / "piece-1.copy").write_bytes((folder / "piece-1").read_bytes())
    assert b"piece-1.copy is no piece" in tool("luo-shards", "join", folder).stdout


def test_bad_words(luo: str, tmp_path: Path) -> None:
    assert "U1" in one_line(tool("luo-shards", "plan", "--luo", luo, tmp_path / "p", TREE, "trees", 9), 3)
    assert "limit: size 40" in one_line(tool("luo-shards", "plan", "--luo", luo, tmp_path / "p", TREE, "tree", 41), 4)
    assert "no plan" in one_line(tool("luo-shards", "join", tmp_path / "none"))
    planned(luo, tmp_path / "p")
    assert "folder of its own" in one_line(tool("luo-shards", "plan", "--luo", luo, tmp_path / "p", TREE, "tree", 7))
    assert "pieces 0 to 3" in one_line(tool("luo-shards", "piece", tmp_path / "p", 4))


@pytest.mark.skipif("LUO_LONG" not in os.environ, reason="takes minutes and a gigabyte: LUO_LONG=1 tools/check PROGRAM")
def test_all_binary_trees_of_size_14(luo: str, tmp_path: Path) -> None:
    """All 2,674,440 in four pieces by four workers, byte for byte the stretches of one run after the other."""
    done = tool("luo-shards", "plan", "--luo", luo, tmp_path / "pieces", TREE, "tree", 14)
    assert subprocess.run(["parallel", "--will-cite", "-j", "4"], input=done.stdout, check=False).returncode == 0
    with open(tmp_path / "joined", "wb") as out:
        joined = subprocess.run([TOOLS / "luo-shards", "join", tmp_path / "pieces"], stdout=out, check=False)
    assert joined.returncode == 0
    lines = 0
    with open(tmp_path / "joined", "rb") as pieces:
        for start in range(0, 2_674_440, 100_000):
            stretch = out_of(luo, "list", TREE, "tree", 14, start, 100_000)
            assert pieces.read(len(stretch)) == stretch
            lines += stretch.count(b"\n")
        assert not pieces.read(1) and lines == 2_674_440

"""What all tools share: progress on a terminal alone, colours, and pipes that close."""

from __future__ import annotations

import os
import pty
import subprocess

import pytest
from conftest import TOOLS, TOP, out_of, run, tool

NAMES = ("luo-explain", "luo-table", "luo-plot", "luo-draw-picture", "luo-guess", "luo-shards")


def on_terminal(words: list[object], given: bytes, stream: str, environment: dict[str, str]) -> bytes:
    """What a tool writes on one of its streams, where that is a terminal."""
    ours, theirs = pty.openpty()
    other = "stdout" if stream == "stderr" else "stderr"
    streams = {stream: theirs, other: subprocess.DEVNULL}
    with subprocess.Popen([str(word) for word in words], stdin=subprocess.PIPE, env={**os.environ, **environment}, **streams) as process:
        os.close(theirs)
        assert process.stdin
        process.stdin.write(given)
        process.stdin.close()
        found = b""
        while True:
            try:
                piece = os.read(ours, 4096)
            except OSError:
                break
            if not piece:
                break
            found += piece
    os.close(ours)
    return found


def test_progress_on_a_terminal_alone(luo: str) -> None:
    report = out_of(luo, "analyse", TOP / "examples" / "parts.adl", 100)
    words = [TOOLS / "luo-guess", "--order", 8, "--degree", 8, "--column", "count"]
    assert b"orders and degrees: " in on_terminal(words, report, "stderr", {})
    assert tool("luo-guess", *words[1:], given=report).stderr == b""


def test_colours_on_a_terminal(luo: str, tmp_path) -> None:
    (tmp_path / "f").write_bytes(b"type a = b;")
    words = [TOOLS / "luo-explain", tmp_path / "f"]
    environment = {"NO_COLOR": ""}
    assert b"\x1b[31m" in on_terminal(words, b"", "stdout", environment)
    assert b"\x1b" not in on_terminal(words, b"", "stdout", {"NO_COLOR": "1"})


@pytest.mark.parametrize("name", NAMES)
def test_help_and_wrong_words(name: str) -> None:
    assert tool(name, "--help").returncode == 0
    done = tool(name, "--no-such-word") if name != "luo-explain" else tool(name)
    assert done.returncode == 2 and done.stderr.count(b"\n") == 1


def test_a_pipe_that_closes(luo: str) -> None:
    done = run(["sh", "-c", f"{luo} list {TOP}/examples/tree.adl tree 7 0 400 | {TOOLS}/luo-table csv | head -n 1"])
    assert done.stdout == b"place,structure\n" and done.stderr == b""

"""What the tests of the tools share: the program, the examples, and a run of a tool."""

from __future__ import annotations

import os
import subprocess
import sys
from pathlib import Path

import pytest

TOOLS = Path(__file__).resolve().parent.parent
TOP = TOOLS.parent
sys.path.insert(0, str(TOOLS))
sys.path.insert(0, str(TOOLS / "tests"))
EXAMPLES = sorted((TOP / "examples").glob("*.adl"))
PRODUCTIONS = sorted((TOP / "cases" / "syntax" / "productions").glob("*.adl"))


@pytest.fixture(scope="session")
def luo() -> str:
    """The program."""
    return os.environ["LUO"]


def run(words: list[object], given: bytes = b"", folder: Path | None = None) -> subprocess.CompletedProcess[bytes]:
    """A run of a program or a tool on these words."""
    command = [str(word) for word in words]
    return subprocess.run(command, input=given, capture_output=True, cwd=folder, check=False, timeout=100)


def tool(name: str, *words: object, given: bytes = b"", folder: Path | None = None) -> subprocess.CompletedProcess[bytes]:
    """A run of one of the tools."""
    return run([TOOLS / name, *words], given, folder)


def out_of(luo: str, *words: object) -> bytes:
    """What luo writes on these words."""
    done = run([luo, *words])
    assert done.returncode == 0, done.stderr
    return done.stdout


def one_line(done: subprocess.CompletedProcess[bytes], status: int = 1) -> str:
    """The one line of a tool that failed."""
    line = done.stderr.decode()
    assert done.returncode == status and line.count("\n") == 1 and line.endswith("\n"), (done.returncode, line)
    return line


def pytest_terminal_summary(terminalreporter: pytest.TerminalReporter) -> None:
    """The line of sums that all checks of the repository end with."""
    count = {name: len(terminalreporter.stats.get(name, [])) for name in ("passed", "failed", "error")}
    terminalreporter.write_line(f"{count['passed']} passed, {count['failed'] + count['error']} failed")

"""Running luo."""

from __future__ import annotations

import os
import shutil
import subprocess
from collections.abc import Sequence
from dataclasses import dataclass

from .command import Failure, Parser

DONE = 0
USAGE = 2
REPOSITORY = os.path.dirname(os.path.dirname(os.path.dirname(os.path.abspath(__file__))))


@dataclass(frozen=True)
class Run:
    """What a run of luo wrote, and how it ended. `line` is its line on standard error, without the line feed."""

    status: int
    out: bytes
    line: str


def add_program_option(parser: Parser) -> None:
    """Adds the option that names the program."""
    parser.add_argument(
        "--luo",
        metavar="PROGRAM",
        help="the program luo; else $LUO, luo on the path, or crates/luo/out/luo of this repository",
    )


def find_program(given: str | None) -> str:
    """The path of luo: the one given, $LUO, the one on the path, or the one built in this repository."""
    for named in (given, os.environ.get("LUO")):
        if named:
            path = shutil.which(named)
            if path is None:
                raise Failure(f"{named} is no program that runs here")
            return os.path.abspath(path)
    built = os.path.join(REPOSITORY, "crates", "luo", "out", "luo")
    path = shutil.which("luo") or shutil.which(built)
    if path is None:
        raise Failure("there is no luo: name it by --luo PROGRAM, or by LUO in the environment")
    return path


def run_luo(program: str, words: Sequence[str], folder: str | None = None) -> Run:
    """Runs luo on these words. A program that is killed, or that doesn't end as luo does, is a failure."""
    try:
        done = subprocess.run([program, *words], stdin=subprocess.DEVNULL, capture_output=True, cwd=folder, check=False)
    except (OSError, ValueError) as error:
        raise Failure(f"{program} doesn't run: {error}") from error
    if done.returncode < 0:
        raise Failure(f"{program} was ended by signal {-done.returncode}")
    return Run(done.returncode, done.stdout, done.stderr.decode("utf-8", "replace").rstrip("\n"))


def output_of(program: str, words: Sequence[str], folder: str | None = None) -> str:
    """What luo writes on these words; a refusal is a failure with luo's line and status."""
    run = run_luo(program, words, folder)
    if run.status != DONE:
        raise Failure(f"luo {' '.join(words)}: {run.line}", run.status)
    return run.out.decode("ascii")

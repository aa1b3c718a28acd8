"""luo-shards: a listing in pieces, for GNU parallel, Slurm's job arrays or xargs, and the join of the pieces."""

from __future__ import annotations

import os
import shlex
import shutil
import sys
from argparse import Namespace
from collections.abc import Callable, Sequence

from .command import Failure, Parser
from .program import add_program_option, find_program
from .shards import faults, make_plan, work_on

TOOL = os.path.join(os.path.dirname(os.path.dirname(os.path.abspath(__file__))), "luo-shards")


def piece_command(folder: str, piece: str) -> str:
    """The command that works on a piece."""
    return f"{shlex.quote(TOOL)} piece {shlex.quote(os.path.abspath(folder))} {piece}"


def plan(given: Namespace) -> int:
    """Makes a plan, and prints the commands of its pieces."""
    if not 1 <= given.pieces <= 10_000:
        raise Failure("--pieces takes 1 to 10000")
    made = make_plan(find_program(given.luo), given.file, given.type, given.size, given.pieces, given.folder)
    last = made.pieces - 1
    if given.runner == "parallel":
        print("\n".join(piece_command(given.folder, str(piece)) for piece in range(made.pieces)))
    elif given.runner == "xargs":
        print(f"seq 0 {last} | xargs -P {os.cpu_count() or 1} -I @ {piece_command(given.folder, '@')}")
    else:
        print(f"#!/bin/sh\n#SBATCH --job-name=luo-{made.type}-{made.size}\n#SBATCH --array=0-{last}")
        print("exec " + piece_command(given.folder, '"$SLURM_ARRAY_TASK_ID"'))
    return 0


def piece(given: Namespace) -> int:
    """Works on one piece."""
    if not work_on(given.folder, given.piece):
        print(f"piece {given.piece} is there already", file=sys.stderr)
    return 0


def join(given: Namespace) -> int:
    """Checks each piece, names those that aren't right with the commands that make them anew, or writes all in order."""
    made, wrong = faults(given.folder)
    if wrong:
        for number, fault in wrong:
            print(fault + (f"; again: {again(given.folder, made.name(number), number)}" if number is not None else ""))
        raise Failure(f"{len(wrong)} of {made.pieces} pieces aren't right, and nothing is joined")
    out = sys.stdout.buffer
    for number in range(made.pieces):
        with open(os.path.join(given.folder, made.name(number)), "rb") as file:
            shutil.copyfileobj(file, out, 1 << 20)
    print(f"{made.whole:,} structures of {made.type} of size {made.size} in {made.pieces} pieces, as many as analyse counts", file=sys.stderr)
    return 0


def again(folder: str, name: str, number: int) -> str:
    """The command that makes a piece anew."""
    return f"rm -f {shlex.quote(os.path.join(os.path.abspath(folder), name))}; {piece_command(folder, str(number))}"


def words_of(made: Callable[[Namespace], int], parser: Parser) -> None:
    """Joins a form of words to what it does."""
    parser.set_defaults(run=made)


def main(words: Sequence[str]) -> int:
    """Plans a listing, works on a piece, or joins the pieces."""
    parser = Parser(prog="luo-shards", description="A listing in pieces: plan, then the pieces anywhere, then join.")
    forms = parser.add_subparsers(required=True, metavar="plan|piece|join", parser_class=Parser)
    planned = forms.add_parser("plan", help="make a plan in FOLDER, and print its commands")
    add_program_option(planned)
    planned.add_argument("--pieces", type=int, default=4, metavar="K", help="the number of pieces (4)")
    planned.add_argument("--runner", choices=("parallel", "slurm", "xargs"), default="parallel", help="for whom the commands are")
    planned.add_argument("folder", metavar="FOLDER", help="a new folder for the plan and its pieces")
    planned.add_argument("file", metavar="FILE")
    planned.add_argument("type", metavar="TYPE")
    planned.add_argument("size", type=int, metavar="N")
    words_of(plan, planned)
    worked = forms.add_parser("piece", help="list one piece of the plan in FOLDER")
    worked.add_argument("folder", metavar="FOLDER")
    worked.add_argument("piece", type=int, metavar="I")
    words_of(piece, worked)
    joined = forms.add_parser("join", help="check all pieces, and write them in order on standard output")
    joined.add_argument("folder", metavar="FOLDER")
    words_of(join, joined)
    given = parser.parse_args(words)
    return int(given.run(given))

"""luo-explain: runs luo, and explains its line."""

from __future__ import annotations

import sys
from collections.abc import Sequence

from .command import Parser, has_colours
from .explain import explanation_of
from .program import DONE, add_program_option, find_program, run_luo
from .render import rendered

COMMANDS = ("analyse", "format", "run", "list", "audit", "sample", "moments", "sum", "rank", "draw", "certify", "verify")
FILELESS = ("sample",)


def main(words: Sequence[str]) -> int:
    """Runs luo on the words, and writes its output or the explanation; the status is luo's."""
    parser = Parser(prog="luo-explain", description="Runs luo, and explains what it refuses; the exit status is that of luo.")
    add_program_option(parser)
    parser.add_argument("words", nargs="+", metavar="WORD", help="a FILE, which is analysed up to size 0, or a command of luo with its words")
    given, rest = parser.parse_known_args(words)
    asked = [*given.words, *rest]
    program = find_program(given.luo)
    whole = asked[0] in COMMANDS
    if not whole:
        asked = ["analyse", asked[0], *(asked[1:] or ["0"])]
    run = run_luo(program, asked)
    if run.status == DONE:
        if whole:
            sys.stdout.buffer.write(run.out)
        else:
            print(f"{asked[1]}: nothing is refused")
        return DONE
    path = asked[1] if len(asked) > 1 and asked[0] not in FILELESS else ""
    text = content_of(path)
    made = explanation_of(run.line, text, asked)
    sys.stdout.write(rendered(run.line, path, text, made, has_colours()))
    return run.status


def content_of(path: str) -> bytes | None:
    """The text of a file that luo could read."""
    try:
        with open(path, "rb") as file:
            return file.read()
    except OSError:
        return None

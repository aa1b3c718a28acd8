"""How a tool begins and ends: its words, one line where it fails, its status, and its progress."""

from __future__ import annotations

import argparse
import os
import sys
import time
from collections.abc import Callable, Sequence
from typing import NoReturn

FAILED = 1
USAGE = 2


class Failure(Exception):
    """A reason to end: one line for standard error, and the exit status."""

    def __init__(self, message: str, status: int = FAILED) -> None:
        super().__init__(" ".join(message.split()))
        self.status = status


class Parser(argparse.ArgumentParser):
    """A parser of words that answers wrong ones by one line."""

    def error(self, message: str) -> NoReturn:
        raise Failure(f"{message}; --help shows the words", USAGE)


def run_tool(main: Callable[[Sequence[str]], int]) -> NoReturn:
    """Runs a tool on the words of its command line, and ends the process."""
    name = os.path.basename(sys.argv[0])
    try:
        status = main(sys.argv[1:])
        sys.stdout.flush()
    except Failure as failure:
        print(f"{name}: {failure}", file=sys.stderr)
        status = failure.status
    except BrokenPipeError:
        os.dup2(os.open(os.devnull, os.O_WRONLY), sys.stdout.fileno())
        status = FAILED
    except KeyboardInterrupt:
        status = 130
    sys.exit(status)


def read_input(path: str) -> bytes:
    """The bytes of a file, or of standard input where the path is `-`."""
    try:
        if path == "-":
            return sys.stdin.buffer.read()
        with open(path, "rb") as file:
            return file.read()
    except OSError as error:
        raise Failure(f"{path}: {error.strerror or error}") from error


def has_colours() -> bool:
    """Whether standard output is a terminal that may show colours (https://no-color.org)."""
    return sys.stdout.isatty() and not os.environ.get("NO_COLOR")


class Progress:
    """A line on standard error that says how far a long work is, where that is a terminal."""

    EVERY = 0.2

    def __init__(self, what: str, whole: int) -> None:
        self.what = what
        self.whole = whole
        self.shown = time.monotonic()
        self.lively = sys.stderr.isatty()

    def at(self, done: int) -> None:
        """Shows how much is done, at most five times a second."""
        now = time.monotonic()
        if self.lively and now - self.shown >= self.EVERY:
            self.shown = now
            part = 100 * done // self.whole if self.whole else 100
            sys.stderr.write(f"\r{self.what}: {done:,} of {self.whole:,} ({part} %)\x1b[K")
            sys.stderr.flush()

    def end(self) -> None:
        """Clears the line."""
        if self.lively:
            sys.stderr.write("\r\x1b[K")
            sys.stderr.flush()

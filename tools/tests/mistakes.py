#!/usr/bin/python3
"""tests/mistakes.py PROGRAM: writes mistakes.expected anew, the explanations of all mistakes, which are to be read before they are kept."""

from __future__ import annotations

import os
import re
import subprocess
import sys
import tempfile
from dataclasses import dataclass
from pathlib import Path

HERE = Path(__file__).resolve().parent
EXPLAIN = HERE.parent / "luo-explain"


@dataclass(frozen=True)
class Mistake:
    """A mistake: its title, the words of luo-explain, and the file."""

    title: str
    words: list[str]
    text: bytes

    def explained(self, program: str) -> str:
        """What luo-explain writes, with its status in the last line."""
        with tempfile.TemporaryDirectory() as folder:
            Path(folder, "f").write_bytes(self.text)
            environment = {**os.environ, "LUO": program}
            done = subprocess.run([EXPLAIN, *self.words], cwd=folder, env=environment, capture_output=True, check=False)
        return done.stdout.decode() + done.stderr.decode() + f"status {done.returncode}\n"


def mistakes() -> list[Mistake]:
    """All mistakes of mistakes.txt."""
    found = []
    for block in (HERE / "mistakes.txt").read_text().split("\n== ")[1:]:
        title, words, *lines = block.strip("\n").split("\n")
        raw = "".join(line[2:] + "\n" for line in lines).encode()
        text = re.sub(rb"\\x([0-9a-f]{2})", lambda match: bytes([int(match[1], 16)]), raw)
        found.append(Mistake(title, words.split(" ")[1:], text))
    return found


def expected() -> dict[str, str]:
    """The explanations that are kept, by title."""
    blocks = ("\n" + (HERE / "mistakes.expected").read_text()).split("\n== ")[1:]
    return dict(block.split("\n", 1) for block in blocks)


if __name__ == "__main__":
    texts = [f"== {mistake.title}\n{mistake.explained(os.path.abspath(sys.argv[1]))}" for mistake in mistakes()]
    (HERE / "mistakes.expected").write_text("\n".join(texts) + "\n")

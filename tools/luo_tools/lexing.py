"""The tokens of a source text, and its lines."""

from __future__ import annotations

import re
from dataclasses import dataclass

RESERVED = frozenset(
    "labelled unlabelled type epsilon atom product sequence set cycle multiset powerset card in "
    "measure procedure analyze begin end case of forall do skip as".split()
)
MARKS = ("<=", ">=", "..", ";", ",", "=", "|", "(", ")", ":", "_")
PIECE = re.compile(
    rb"(?P<space>[ \t\r\n]+)|(?P<comment>%[^\n]*)|(?P<name>[A-Za-z][A-Za-z0-9_]*)|(?P<number>0|[1-9][0-9]*)"
    rb"|(?P<mark><=|>=|\.\.|[;,=|():_])"
)
NAME = "name"
NUMBER = "number"
END_OF_TEXT = "end of the text"


@dataclass(frozen=True)
class Token:
    """A token and its span. `kind` is `name`, `number`, or the word or mark itself."""

    kind: str
    text: str
    start: int
    end: int

    def shown(self) -> str:
        """The token as a sentence speaks of it."""
        if self.kind == END_OF_TEXT:
            return "the end of the text"
        if self.kind in (NAME, NUMBER):
            return f"the {self.kind} `{self.text}`"
        if self.kind in RESERVED:
            return f"the word `{self.text}`"
        return f"`{self.text}`"


def tokens_of(text: bytes) -> list[Token]:
    """The tokens of a text, up to its first lexical fault. The limits of names and numbers aren't looked at."""
    tokens = []
    at = 0
    while at < len(text):
        piece = PIECE.match(text, at)
        if piece is None:
            break
        at = piece.end()
        kind = piece.lastgroup or ""
        if kind in ("space", "comment"):
            continue
        word = piece.group().decode("ascii")
        if kind == "mark" or word in RESERVED:
            kind = word
        tokens.append(Token(kind, word, piece.start(), piece.end()))
    return tokens


class Lines:
    """The lines of a text: where a byte lies among them."""

    def __init__(self, text: bytes) -> None:
        self.text = text
        self.starts = [0] + [match.end() for match in re.finditer(rb"\n", text)]

    def number_of(self, byte: int) -> int:
        """The number of the line with this byte, from 1. The end of a text belongs to its last line that has a byte."""
        if byte >= len(self.text) and len(self.starts) > 1 and self.starts[-1] == len(self.text):
            return len(self.starts) - 1
        low, high = 0, len(self.starts)
        while high - low > 1:
            middle = (low + high) // 2
            low, high = (middle, high) if self.starts[middle] <= byte else (low, middle)
        return low + 1

    def span_of(self, number: int) -> tuple[int, int]:
        """The bytes of a line, without its line feed."""
        start = self.starts[number - 1]
        end = self.text.find(b"\n", start)
        return start, len(self.text) if end < 0 else end

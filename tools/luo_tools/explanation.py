"""What an explanation is: spans of the text, and sentences; and how sentences speak of tokens."""

from __future__ import annotations

import difflib
from collections.abc import Sequence
from dataclasses import dataclass, field

from .lexing import END_OF_TEXT, NAME, NUMBER, Lines, Token, tokens_of
from .scopes import Names
from .syntax import source_of


@dataclass
class Explanation:
    """What is said of a refusal: the spans that are shown with carets, and the sentences below."""

    rule: str = ""
    spans: list[tuple[int, int]] = field(default_factory=list)
    notes: list[str] = field(default_factory=list)

    def say(self, note: str) -> None:
        """Adds a sentence."""
        self.notes.append(note)


@dataclass
class Text:
    """A source text with its tokens and lines; `names` where it is a program by the grammar."""

    bytes: bytes

    def __post_init__(self) -> None:
        self.tokens = tokens_of(self.bytes)
        self.lines = Lines(self.bytes)

    def names(self) -> Names:
        """The names of the program."""
        return Names(source_of(self.tokens))

    def token_at(self, byte: int) -> Token:
        """The token that begins at this byte, or the end of the text."""
        for token in self.tokens:
            if token.start == byte:
                return token
        return Token(END_OF_TEXT, "", len(self.bytes), len(self.bytes))

    def line_of(self, token: Token) -> str:
        """Where a token stands, in words."""
        return f"line {self.lines.number_of(token.start)}"


def listed(words: Sequence[str], last: str = "or") -> str:
    """Words with commas and a word before the last."""
    return words[0] if len(words) == 1 else f"{', '.join(words[:-1])} {last} {words[-1]}"


def kinds_shown(kinds: frozenset[str]) -> str:
    """Kinds of tokens as a sentence lists them."""
    plain = {NAME: "a name", NUMBER: "a number", END_OF_TEXT: "the end of the text"}
    return listed(sorted((plain.get(kind, f"`{kind}`") for kind in kinds), key=lambda s: (s[0] == "`", s)))


def near(word: str, known: Sequence[str], likeness: float = 0.65) -> str:
    """A known word that is like this one, or nothing."""
    found = difflib.get_close_matches(word.lower(), list(known), 1, likeness)
    return found[0] if found else ""

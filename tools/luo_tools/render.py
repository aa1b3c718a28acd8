"""An explanation as lines: the place in the text with carets, the rule, the sentences and the examples."""

from __future__ import annotations

from .explanation import Explanation
from .lexing import Lines
from .rules import RULES

RED, BLUE, GREEN, BOLD, PLAIN = "\x1b[31m", "\x1b[34m", "\x1b[32m", "\x1b[1m", "\x1b[0m"


class Painter:
    """Puts colours round pieces of a text, or leaves them plain."""

    def __init__(self, colours: bool) -> None:
        self.colours = colours

    def paint(self, colour: str, text: str) -> str:
        """The text in a colour."""
        return f"{colour}{text}{PLAIN}" if self.colours else text


def excerpt(lines: Lines, path: str, span: tuple[int, int], painter: Painter) -> list[str]:
    """The line of a span, with carets below it."""
    number = lines.number_of(span[0])
    start, end = lines.span_of(number)
    column = min(span[0], end) - start
    before = lines.text[start : start + column].decode("utf-8", "replace").replace("\t", " ")
    inside = lines.text[start + column : max(min(span[1], end), start + column)].decode("utf-8", "replace")
    whole = lines.text[start:end].decode("utf-8", "replace").replace("\t", " ").rstrip("\r")
    gutter = " " * len(str(number))
    return [
        painter.paint(BLUE, f"{gutter}--> ") + f"{path}:{number}:{len(before) + 1} (byte {span[0]})",
        painter.paint(BLUE, f"{number} | ") + whole,
        painter.paint(BLUE, f"{gutter} | ") + " " * len(before) + painter.paint(RED, "^" * max(len(inside), 1)),
    ]


def rendered(line: str, path: str, text: bytes | None, made: Explanation, colours: bool) -> str:
    """The whole explanation, as lines."""
    painter = Painter(colours)
    out = [painter.paint(BOLD, line)]
    if text is not None:
        lines = Lines(text)
        for span in made.spans:
            out += excerpt(lines, path, span, painter)
    rule = RULES.get(made.rule)
    if rule:
        out.append(f"{made.rule}: {rule.sentence}")
    out += [note for note in made.notes if note]
    if rule and rule.wrong:
        out.append(painter.paint(RED, "wrong: ") + rule.wrong)
        out.append(painter.paint(GREEN, "right: ") + rule.right + (" (on a sequence)" if made.rule == "Y12" else ""))
    return "\n".join(out) + "\n"

"""The texts of structures as trees."""

from __future__ import annotations

import re
from dataclasses import dataclass, field

from .command import Failure

ATOM = re.compile(r"a(\d{1,6})")
LABEL = re.compile(r"#(\d{1,6})")
BRANCH = re.compile(r"(\d{1,6}):")
DEEPEST = 1000


@dataclass
class Structure:
    """A structure: `kind` is `atom`, `branch`, `tuple` or `collection`. An atom has a weight or a label, a branch its number."""

    kind: str
    number: int = 0
    label: int | None = None
    parts: list[Structure] = field(default_factory=list)

    def bare(self) -> Structure:
        """What is inside the branches."""
        found = self
        while found.kind == "branch":
            found = found.parts[0]
        return found

    def is_mark(self) -> bool:
        """Whether it is an atom that counts: one with a weight or a label."""
        inner = self.bare()
        return inner.kind == "atom" and (inner.label is not None or inner.number > 0)

    def size(self) -> int:
        """The weights of its atoms together; one with a label has the weight 1."""
        if self.kind == "atom":
            return self.number
        return sum(part.size() for part in self.parts)


class Reader:
    """Reads the text of a structure."""

    def __init__(self, text: str) -> None:
        self.text = text
        self.at = 0

    def fail(self) -> Failure:
        """That the text is none of a structure."""
        return Failure(f"this is no text of a structure, at byte {self.at}: {self.text[:60]}")

    def structure(self, depth: int = 0) -> Structure:
        """The structure from here on."""
        if depth > DEEPEST:
            raise Failure(f"this structure nests deeper than {DEEPEST}")
        for kind, pattern in (("atom", ATOM), ("label", LABEL), ("branch", BRANCH)):
            match = pattern.match(self.text, self.at)
            if match:
                self.at = match.end()
                number = int(match[1])
                if kind == "branch":
                    return Structure("branch", number, parts=[self.structure(depth + 1)])
                return Structure("atom", number) if kind == "atom" else Structure("atom", 1, number)
        opener = self.text[self.at : self.at + 1]
        if opener not in ("(", "["):
            raise self.fail()
        self.at += 1
        made = Structure("tuple" if opener == "(" else "collection", parts=self.parts(")" if opener == "(" else "]", depth))
        if opener == "(" and len(made.parts) < 2:
            raise self.fail()
        return made

    def parts(self, closer: str, depth: int) -> list[Structure]:
        """The parts up to the closing bracket."""
        found: list[Structure] = []
        if self.text[self.at : self.at + 1] == closer:
            self.at += 1
            return found
        while True:
            found.append(self.structure(depth + 1))
            sign = self.text[self.at : self.at + 1]
            if sign not in (",", closer):
                raise self.fail()
            self.at += 1
            if sign == closer:
                return found


def read_structure(text: str) -> Structure:
    """The structure of a text."""
    reader = Reader(text)
    found = reader.structure()
    if reader.at != len(text):
        raise reader.fail()
    return found

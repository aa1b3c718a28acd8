"""The tree of a source text that is a program by the grammar, with the byte of each part."""

from __future__ import annotations

from collections.abc import Iterator
from dataclasses import dataclass, field

from .lexing import NAME, NUMBER, Token

COLLECTIONS = ("sequence", "set", "cycle", "multiset", "powerset")


@dataclass
class Expression:
    """A type expression. `kind` is `name`, `atom`, `union`, `product` or a collection; a name has no node."""

    kind: str
    start: int
    end: int = 0
    name: str = ""
    weight: int = 0
    parts: list[Expression] = field(default_factory=list)
    bound: tuple[int, int | None] | None = None
    bound_at: int = 0

    def nodes(self) -> Iterator[Expression]:
        """The constructs of the expression in the order of their places."""
        if self.kind != "name":
            yield self
        for part in self.parts:
            yield from part.nodes()

    def low(self) -> int:
        """The least number of components of a collection."""
        return self.bound[0] if self.bound else int(self.kind == "cycle")

    def high(self) -> int | None:
        """The greatest number of components of a collection, if there is one."""
        return self.bound[1] if self.bound else None


@dataclass
class Definition:
    """A name of a type, measure or procedure, with its token, and a type's right side."""

    name: Token
    kind: str
    right: Expression | None = None


@dataclass
class Item:
    """A statement or a value. `at` is its first token; `kind` is its form; `parts` are the items inside, `arms` those of a case."""

    kind: str
    at: Token
    name: Token | None = None
    variable: Token | None = None
    parts: list[Item] = field(default_factory=list)
    arms: list[tuple[Pattern, Item]] = field(default_factory=list)
    number: int = 0


@dataclass
class Pattern:
    """A pattern: the name of its type, the variable behind `as`, the variables in brackets."""

    at: Token
    type: Token | None = None
    whole: Token | None = None
    parts: list[Token] | None = None


@dataclass
class Procedure:
    """A procedure: its name, parameter and its type, its result with the mark before it, and its body."""

    name: Token
    parameter: Token
    type: Token
    body: Item
    result: Token | None = None
    mark: Token | None = None


@dataclass
class Source:
    """A program as it is written."""

    labelled: bool
    types: list[Definition]
    measures: list[Definition]
    procedures: list[Procedure]
    analyses: list[Token]

    def definitions(self) -> list[Definition]:
        """All names that are defined, in the order of the text."""
        return [*self.types, *self.measures, *(Definition(p.name, "procedure") for p in self.procedures)]


class Reader:
    """Reads the tokens of a program. They have to be one: the grammar has been looked at."""

    def __init__(self, tokens: list[Token]) -> None:
        self.tokens = tokens
        self.at = 0

    def peek(self, ahead: int = 0) -> str:
        place = self.at + ahead
        return self.tokens[place].kind if place < len(self.tokens) else ""

    def next(self) -> Token:
        self.at += 1
        return self.tokens[self.at - 1]

    def takes(self, kind: str) -> bool:
        """Goes past a token of this kind, if it is there."""
        if self.peek() != kind:
            return False
        self.at += 1
        return True

    def names(self) -> list[Token]:
        found = [self.next()]
        while self.takes(","):
            found.append(self.next())
        return found

    def source(self) -> Source:
        labelled = self.peek() == "labelled"
        if self.peek() in ("labelled", "unlabelled"):
            self.at += 2
        source = Source(labelled, [], [], [], [])
        while self.takes("type"):
            names = self.names()
            self.next()
            right = self.expression()
            self.next()
            source.types += [Definition(name, "type", right) for name in names]
        while self.takes("measure"):
            source.measures += [Definition(name, "measure") for name in self.names()]
            self.at += 3
        while self.takes("procedure"):
            source.procedures.append(self.procedure())
        while self.takes("analyze"):
            source.analyses.append(self.next())
            self.next()
        return source

    def expression(self) -> Expression:
        first = self.term()
        parts = [first]
        while self.takes("|"):
            parts.append(self.term())
        if len(parts) == 1:
            return first
        return Expression("union", first.start, parts[-1].end, parts=parts)

    def term(self) -> Expression:
        token = self.next()
        if token.kind == NAME:
            return Expression("name", token.start, token.end, name=token.text)
        if token.kind == "epsilon":
            return Expression("atom", token.start, token.end)
        made = Expression(token.kind, token.start)
        self.next()
        if token.kind == "atom":
            made.weight = int(self.next().text)
        else:
            made.parts.append(self.expression())
            while self.takes(","):
                if self.peek() == "card":
                    made.bound_at = self.next().start
                    made.bound = self.bound()
                else:
                    made.parts.append(self.expression())
        made.end = self.next().end
        return made

    def bound(self) -> tuple[int, int | None]:
        sign = self.next().kind
        number = int(self.next().text)
        if sign == "in":
            self.next()
            return number, int(self.next().text)
        return {"=": (number, number), "<=": (0, number), ">=": (number, None)}[sign]

    def procedure(self) -> Procedure:
        name = self.next()
        self.next()
        parameter = self.next()
        self.next()
        kind = self.next()
        self.next()
        mark = result = None
        if self.peek() == ":":
            mark, result = self.next(), self.next()
        self.next()
        body = self.value() if result else self.block()
        self.next()
        return Procedure(name, parameter, kind, body, result, mark)

    def block(self) -> Item:
        item = Item("block", self.next())
        while self.peek() != "end":
            item.parts.append(self.statement())
            self.takes(";")
        self.next()
        return item

    def statement(self) -> Item:
        if self.peek() == "case":
            return self.case(self.simple)
        if self.peek() == "forall":
            at = self.next()
            variable = self.next()
            self.next()
            walked = self.next()
            self.next()
            return Item("walk", at, walked, variable, [self.simple()])
        return self.simple()

    def simple(self) -> Item:
        if self.peek() == "begin":
            return self.block()
        token = self.next()
        if token.kind == "skip":
            return Item("skip", token)
        if self.takes("("):
            item = Item("call", token, token, self.next())
            self.next()
            return item
        return Item("charge", token, token)

    def case(self, body: object) -> Item:
        item = Item("case", self.next())
        item.name = self.next()
        self.next()
        while self.peek() != "end":
            pattern = self.pattern()
            self.next()
            item.arms.append((pattern, body()))  # type: ignore[operator]
            self.takes(";")
        self.next()
        return item

    def pattern(self) -> Pattern:
        pattern = Pattern(self.tokens[self.at])
        if self.peek() == NAME:
            pattern.type = self.next()
        elif self.peek() == "_":
            self.next()
        if self.takes("as"):
            pattern.whole = self.next()
        elif self.takes("("):
            pattern.parts = self.names()
            self.next()
        return pattern

    def value(self) -> Item:
        if self.peek() == NUMBER:
            token = self.next()
            self.next()
            return Item("branch", token, parts=[self.value()], number=int(token.text))
        if self.takes("("):
            item = self.value()
            self.next()
            return item
        if self.peek() == "case":
            return self.case(self.value)
        token = self.next()
        if token.kind == "product":
            item = Item("product", token)
            self.next()
            item.parts.append(self.value())
            while self.takes(","):
                item.parts.append(self.value())
            self.next()
            return item
        if token.kind == "atom":
            return Item("atom", token)
        if self.takes("("):
            item = Item("call", token, token, self.next())
            self.next()
            return item
        if self.peek() == "atom":
            return Item("atom", self.next(), token)
        return Item("variable", token, token)


def source_of(tokens: list[Token]) -> Source:
    """The program that the tokens are."""
    return Reader(tokens).source()

"""The grammar of the language as productions that one token decides, and what may follow a prefix.

A production is a list of symbols. A symbol in angle brackets is a rule of its own; every other one is the kind of a token."""

from __future__ import annotations

from collections.abc import Sequence
from functools import cache

from .lexing import END_OF_TEXT, Token

SOURCE = """
<program> : <universe> <types> <measures> <procedures> <analyze> <analyses>
<universe> : labelled ; | unlabelled ; |
<types> : <typedef> <types> |
<typedef> : type <names> = <texpr> ;
<names> : name <more-names>
<more-names> : , name <more-names> |
<texpr> : <tterm> <more-terms>
<more-terms> : BAR <tterm> <more-terms> |
<tterm> : name | epsilon | atom ( number ) | product ( <texpr> , <texpr> <more-texprs> ) | <coll> ( <texpr> <bound> )
<more-texprs> : , <texpr> <more-texprs> |
<coll> : sequence | set | cycle | multiset | powerset
<bound> : , card <limits> |
<limits> : = number | <= number | >= number | in number .. number
<measures> : <measure> <measures> |
<measure> : measure <names> : number ;
<procedures> : <procedure> <procedures> |
<procedure> : procedure name ( name : name ) <body> ;
<body> : ; <block> | : name ; <value>
<analyze> : analyze name ;
<analyses> : <analyze> <analyses> |
<block> : begin <statements> end
<statements> : <stmt> <more-statements> |
<more-statements> : ; <stmt> <more-statements> |
<stmt> : <simple> | case name of <arm> <more-arms> end | forall name in name do <simple>
<simple> : <block> | skip | name <argument>
<argument> : ( name ) |
<more-arms> : ; <arm> <more-arms> |
<arm> : <pattern> : <simple>
<pattern> : name <fitting> | ( <names> ) | _ <as>
<fitting> : as name | ( <names> ) |
<as> : as name |
<value> : number : <inner> | <inner>
<inner> : name <made> | atom | ( number : <inner> ) | product ( <value> , <value> <more-values> ) | case name of <value-arm> <more-value-arms> end
<made> : ( name ) | atom |
<more-values> : , <value> <more-values> |
<value-arm> : <pattern> : <value>
<more-value-arms> : ; <value-arm> <more-value-arms> |
"""


def is_rule(symbol: str) -> bool:
    """Whether a symbol is a rule of the grammar, and no kind of token."""
    return len(symbol) > 2 and symbol[0] == "<" and symbol[-1] == ">"


def _read(source: str) -> dict[str, list[list[str]]]:
    rules = {}
    for line in source.strip().split("\n"):
        head, _, right = line.partition(" : ")
        rules[head] = [["|" if s == "BAR" else s for s in production.split()] for production in right.split("|")]
    return rules


RULES = _read(SOURCE)


@cache
def first_of(symbol: str) -> tuple[frozenset[str], bool]:
    """The kinds of tokens that a text of the symbol can begin with, and whether it may be empty."""
    if not is_rule(symbol):
        return frozenset([symbol]), False
    kinds: frozenset[str] = frozenset()
    empty = False
    for production in RULES[symbol]:
        more, through = first_of_all(tuple(production))
        kinds |= more
        empty |= through
    return kinds, empty


@cache
def first_of_all(symbols: tuple[str, ...]) -> tuple[frozenset[str], bool]:
    """The same for symbols one after the other."""
    kinds: frozenset[str] = frozenset()
    for symbol in symbols:
        more, empty = first_of(symbol)
        kinds |= more
        if not empty:
            return kinds, False
    return kinds, True


class Prefix:
    """What is still to come behind a prefix of a program."""

    def __init__(self) -> None:
        self.stack: list[str] = ["<program>"]

    def expected(self) -> frozenset[str]:
        """The kinds of tokens with which the prefix can go on; `END_OF_TEXT` where it is a program."""
        kinds, whole = first_of_all(tuple(reversed(self.stack)))
        return kinds | {END_OF_TEXT} if whole else kinds

    def take(self, token: Token) -> bool:
        """Goes on by a token; False, with nothing changed, where no program goes on so."""
        if token.kind not in self.expected():
            return False
        while True:
            symbol = self.stack.pop()
            if not is_rule(symbol):
                return True
            chosen: list[str] = next((p for p in RULES[symbol] if token.kind in first_of_all(tuple(p))[0]), [])
            self.stack.extend(reversed(chosen))


def longest_prefix(tokens: Sequence[Token]) -> tuple[int, Prefix]:
    """The number of tokens of the longest prefix that begins some program, and what is to come behind it."""
    prefix = Prefix()
    for number, token in enumerate(tokens):
        if not prefix.take(token):
            return number, prefix
    return len(tokens), prefix

"""What is said of bytes that begin no token, and of tokens that are no program."""

from __future__ import annotations

import unicodedata
from collections.abc import Callable, Sequence

from .explanation import Explanation, Text, kinds_shown, listed, near
from .grammar import Prefix
from .lexing import END_OF_TEXT, NAME, NUMBER, RESERVED, Token

INSTEAD = {
    "<": "`<=` is a mark, `<` isn't: `card <= 2` in place of `card < 3`",
    ">": "`>=` is a mark, `>` isn't: `card >= 2` in place of `card > 1`",
    ".": "`..` is a mark, as in `card in 1..3`; one `.` isn't, and numbers are whole",
    "-": "there are no signs and no differences; inside a name write `_`",
    "+": "there are no sums: statements one after the other, with `;` between them, add up",
    "*": "there are no products of numbers; `product(a, b)` is one of types",
    "/": "a comment begins with `%`; there are no fractions",
    "#": "a comment begins with `%`",
    "{": "a block is `begin` .. `end`; a comment begins with `%`",
    "}": "a block ends with `end`",
    "[": "brackets are round",
    "]": "brackets are round",
    '"': "there are no strings",
    "'": "there are no strings; a name has letters, digits and `_`",
    "!": "a comment begins with `%`",
}


def explain_byte(text: Text, byte: int) -> Explanation:
    """G1: the byte in hexadecimal, and what letter it is."""
    made = Explanation("G1", [(byte, byte + 1)])
    rest = text.bytes[byte : byte + 4]
    if text.bytes[:2] in (b"\xff\xfe", b"\xfe\xff"):
        made.say("The file begins with the mark of UTF-16 (bytes ff fe or fe ff): save it as plain ASCII or UTF-8 without a mark.")
        return made
    code = rest[0]
    if rest[:3] == b"\xef\xbb\xbf":
        made.say("Here are the bytes ef bb bf, the byte order mark of UTF-8, which shows as nothing: save the file without it.")
        return made
    if code < 128:
        sign = chr(code)
        named = f"`{sign}`" if sign.isprintable() else "a control character"
        made.say(f"Here is the byte 0x{code:02x}, {named}.")
        if sign in INSTEAD:
            made.say(f"What could be meant: {INSTEAD[sign]}.")
        return made
    for size in (2, 3, 4):
        try:
            letter = rest[:size].decode("utf-8")
        except UnicodeDecodeError:
            continue
        name = unicodedata.name(letter, "a character").lower()
        made.spans = [(byte, byte + size)]
        made.say(f"Here are the bytes {rest[:size].hex(' ')}, in UTF-8 the character {letter} ({name}).")
        break
    else:
        letter = bytes([code]).decode("cp1252", "replace")
        known = "" if letter == "\ufffd" else f", in the Windows and Latin-1 form the character {letter} ({unicodedata.name(letter, '').lower()})"
        made.say(f"Here is the byte 0x{code:02x}{known}; it is no UTF-8.")
    made.say("Names have ASCII letters, digits and `_` alone; other letters may stand in comments, from `%` to the end of a line.")
    return made


def explain_tokens(text: Text, number: int, byte: int) -> Explanation:
    """G2: what stands there, and what could."""
    prefix = Prefix()
    for token in text.tokens[:number]:
        prefix.take(token)
    kinds = prefix.expected()
    here = text.token_at(byte)
    before = text.tokens[number - 1] if number else None
    made = Explanation("G2", [(byte, max(here.end, byte))])
    behind = f", after {before.shown()} of {text.line_of(before)}" if before else ""
    made.say(f"Here is {here.shown()}{behind}.")
    made.say(f"What could be here: {kinds_shown(kinds)}.")
    for hint in HINTS:
        said = hint(text, text.tokens[:number], here, kinds)
        if said:
            made.say(said)
            break
    still = still_open(text.tokens[:number])
    if still and (here.kind in (END_OF_TEXT, "procedure", "analyze") or before and before.kind == ";" and "end" not in kinds):
        places = [f"`{token.text}` of {text.line_of(token)}" for token in still]
        made.say(f"Still open here: {listed(places, 'and')}; each ends with its own `end`.")
    return made


def still_open(tokens: Sequence[Token]) -> list[Token]:
    """The words `begin` and `case` that no `end` has closed."""
    found: list[Token] = []
    for token in tokens:
        if token.kind in ("begin", "case"):
            found.append(token)
        elif token.kind == "end":
            found.pop()
    return found


Hint = Callable[[Text, Sequence[Token], Token, frozenset[str]], str]
ORDER = ("type", "measure", "procedure", "analyze")


def hint_word(_text: Text, before: Sequence[Token], here: Token, kinds: frozenset[str]) -> str:
    """A word that is like one of the language, here or just before."""
    if here.kind == NAME:
        meant = near(here.text, [kind for kind in kinds if kind in RESERVED], 0.7)
        if meant:
            return f"`{here.text}` is a name; the word of the language is `{meant}`."
    if here.kind in RESERVED and NAME in kinds and here.kind not in (*ORDER, "end", "begin", "case", "of", "do"):
        return f"`{here.text}` is a word of the language, so it can't be a name."
    if before and before[-1].kind == NAME and here.kind in (NAME, NUMBER, "(", "begin"):
        meant = near(before[-1].text, [word for word in RESERVED if word not in ("as", "of", "do", "in")], 0.7)
        if meant:
            return f"Before it is the name `{before[-1].text}`; the word of the language is `{meant}`."
    return ""


def hint_semicolon(text: Text, before: Sequence[Token], here: Token, kinds: frozenset[str]) -> str:
    """A semicolon too many or too few."""
    last = before[-1] if before else None
    if last and last.kind == ";" and here.kind == "end":
        return "`;` separates statements and arms: none is written before `end`."
    if last and here.kind == NUMBER and last.kind == NUMBER and last.text == "0":
        return "A number has no zero before its other digits."
    begins = ("begin", "case", "forall", "skip", NAME, "_", *ORDER, END_OF_TEXT)
    if last and ";" in kinds and here.kind in begins:
        return f"A `;` is missing after `{last.text}` of {text.line_of(last)}."
    return ""


def hint_order(_text: Text, _before: Sequence[Token], here: Token, kinds: frozenset[str]) -> str:
    """Definitions in another order, or none of a kind that has to be there."""
    if here.kind in ORDER and "analyze" in kinds | {here.kind} and here.kind not in kinds and not {";", "end"} & kinds and NAME not in kinds:
        return "The order is: types, then measures, then procedures, then analyze lines."
    if here.kind == END_OF_TEXT and "analyze" in kinds:
        return "A program has at least one line `analyze PROCEDURE;` at its end."
    if here.kind in ("labelled", "unlabelled"):
        return "The universe is the first line of a program."
    return ""


def hint_other(_text: Text, before: Sequence[Token], here: Token, kinds: frozenset[str]) -> str:
    """A number for a statement, an empty case, two arms' marks."""
    if here.kind == NUMBER and "skip" in kinds:
        return "A number is no statement: `measure two : 2;` gives it a name, and the name charges it."
    if here.kind == "end" and before and before[-1].kind == "of":
        return "A case has an arm for each branch: `PATTERN : STATEMENT`, with `;` between them."
    if here.kind == "end" and NAME in kinds and before and before[-1].kind in (":", "do"):
        return "An arm or a walk that does nothing has the word `skip`."
    if here.kind == "=" and ":" in kinds:
        return "Measures and parameters have `:`; `=` is for types and bounds."
    if here.kind == ":" and "=" in kinds:
        return "Types have `=`; `:` is for measures, parameters and arms."
    if here.kind in ("case", "forall") and "begin" in kinds and "skip" in kinds:
        return f"A `{here.kind}` directly in an arm or a walk goes into a block: `begin {here.kind} .. end`."
    return ""


HINTS: tuple[Hint, ...] = (hint_semicolon, hint_order, hint_word, hint_other)

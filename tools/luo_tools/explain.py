"""The explanation of a line of refusal."""

from __future__ import annotations

import re
from collections.abc import Sequence

from .explanation import Explanation, Text, listed, near
from .founded_notes import explain_founded
from .rule_notes import explain_rule
from .rules import LIMITS, OTHERS
from .scopes import Names, shown
from .text_notes import explain_byte, explain_tokens

REFUSED = re.compile(r"refused: (?P<rule>[A-Z]\d+)(?:: (?P<word>.*)| at (?P<place>.*))?$", re.S)
BYTE = re.compile(r"(?:token (?P<token>\d+), )?byte (?P<byte>\d+)(?:: (?P<names>.*))?$")


def explain_limit(text: Text | None, line: str) -> Explanation:
    """A limit, at its byte if it has one."""
    name, number = line.split()[1:3]
    made = Explanation()
    byte = re.search(r"byte (\d+)", line)
    if text and byte and name in ("name", "number", "depth"):
        here = text.token_at(int(byte[1]))
        made.spans = [(here.start, here.end)]
        if name == "name":
            made.say(f"Here is a name of {len(here.text)} bytes.")
    made.say(LIMITS.get(name, f"The limit of {name} is {number}."))
    return made


def explain_overflow(text: Text | None, line: str) -> Explanation:
    """A number that is too large, at its node or procedure."""
    made = Explanation()
    found = re.match(r"overflow: (\w+) of ([\w.]+) at size (\d+)$", line)
    if text and found:
        what, name, size = found.groups()
        known = text.names()
        node = known.node(name) if what == "count" else None
        procedure = known.procedures.get(name.partition(".")[0])
        if node:
            made.spans = [(node[1].start, node[1].end)]
            made.say(f"`{name}` is `{shown(node[1])}`, in the definition of `{node[0].name.text}`; its count is the first that is too large.")
        elif procedure:
            made.spans = [(procedure.name.start, procedure.name.end)]
            made.say(f"`{name}` is a part of the procedure `{procedure.name.text}`: the sum of what it charges is the first that is too large.")
        if int(size):
            made.say(f"Sizes up to {int(size) - 1} can be asked for.")
    made.say(OTHERS["overflow"])
    return made


def explain_word(text: Text, rule: str, detail: str, words: Sequence[str]) -> Explanation:
    """U1, S1 to S3: the word of the command line that is meant."""
    made = Explanation(rule)
    if rule == "U1":
        kind = "procedure" if words[0] in ("run", "sum") else "type"
        of_kind = text.names().of_kind(kind)
        meant = near(detail, of_kind)
        made.say(f"No {kind} is called `{detail}`.")
        made.say(f"What could be there: {listed([f'`{name}`' for name in ([meant] if meant else of_kind)])}.")
    elif rule == "S1":
        structure = words[-1]
        byte = int(detail.rpartition(" ")[2])
        made.say(f"    {structure}")
        made.say(f"    {' ' * byte}^")
        made.say("A structure is a1 (an atom's weight), #3 (its label), 2:.. (a branch), (..,..) (a tuple of two or more) or [..,..] (a collection).")
    elif rule == "S2":
        kind = next((p.type.text for p in text.names().source.procedures if p.name.text == words[2]), "")
        made.say(f"The procedure takes `{kind}`, which is `{shown(text.names().construct(Names.named(kind)))}`; `luo list FILE {kind} N 0 10` writes some.")
    return made


def explanation_of(line: str, text: bytes | None, words: Sequence[str]) -> Explanation:
    """The explanation of a line that luo wrote for these words over this text."""
    source = Text(text) if text is not None else None
    if line.startswith("limit: "):
        return explain_limit(source, line)
    if line.startswith("overflow: "):
        return explain_overflow(source, line)
    refused = REFUSED.match(line)
    if refused is None or source is None:
        made = Explanation()
        made.say(OTHERS.get(line, ""))
        return made
    rule = refused["rule"]
    if rule[0] in "US":
        return explain_word(source, rule, refused["word"] or refused["place"] or "", words)
    if rule[0] == "W":
        return explain_founded(source, rule, refused["place"])
    place = BYTE.match(refused["place"])
    assert place is not None
    byte = int(place["byte"])
    if rule == "G1":
        return explain_byte(source, byte)
    if rule == "G2":
        return explain_tokens(source, int(place["token"]), byte)
    return explain_rule(source, rule, byte, (place["names"] or "").split())

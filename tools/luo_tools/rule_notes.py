"""What is said of the rules of names and types, Y1 to Y15."""

from __future__ import annotations

from collections.abc import Callable, Sequence
from dataclasses import dataclass

from .explanation import Explanation, Text, listed, near
from .lexing import Token
from .scopes import Names, View, article, shown
from .syntax import COLLECTIONS, Expression


@dataclass
class Place:
    """A broken rule's place: the text, its names, the token there, the names of the line, and the item."""

    text: Text
    known: Names
    here: Token
    names: Sequence[str]
    view: View | None

    def defined_at(self, name: str) -> str:
        """Where a name is defined, in words."""
        definition = self.known.first[name]
        return f"a {definition.kind}, defined in {self.text.line_of(definition.name)}"

    def wanted_kind(self) -> str:
        """As what the name is used at this place."""
        item = self.view.item if self.view else None
        if any(self.here == token for token in self.known.source.analyses):
            return "procedure"
        if item and item.kind == "call" and item.name == self.here:
            return "procedure"
        if item and item.kind in ("charge", "atom") and item.name == self.here:
            return "measure"
        return "type"

    def type_of_variable(self, name: str) -> Expression | None:
        """The type of a variable in the scope here."""
        return self.view.scope.get(name) if self.view else None


def note_twice(place: Place, made: Explanation) -> None:
    name = place.names[0]
    if place.view and any(place.here in (p.parts or []) for p, _ in place.view.item.arms):
        made.say(f"The variable `{name}` is already in this pattern.")
        return
    first = place.known.first[name]
    made.spans.insert(0, (first.name.start, first.name.end))
    made.say(f"`{name}` is already {place.defined_at(name)}; types, measures and procedures share their names.")


def note_undefined(place: Place, made: Explanation) -> None:
    kind = place.wanted_kind()
    of_kind = place.known.of_kind(kind)
    made.say(f"No {kind} is called `{place.names[0]}`.")
    meant = near(place.names[0], of_kind)
    if meant:
        made.say(f"What could be meant: `{meant}`, {place.defined_at(meant)}.")
    elif of_kind:
        made.say(f"What could be here: {listed([f'`{name}`' for name in of_kind])}.")
    else:
        made.say(f"The program defines no {kind}.")


def note_misused(place: Place, made: Explanation) -> None:
    name, kind = place.names[0], place.wanted_kind()
    made.say(f"`{name}` is {place.defined_at(name)}, and here a {kind} is wanted.")
    if kind == "procedure" and place.known.first[name].kind == "measure":
        made.say(f"A measure is charged by its name alone: `{name}`.")
    of_kind = place.known.of_kind(kind)
    if of_kind:
        made.say(f"What could be here: {listed([f'`{other}`' for other in of_kind])}.")


def note_circle(place: Place, made: Explanation) -> None:
    made.say(f"The names lead round: {' = '.join(place.names)}. One of them needs a right side of its own, as `epsilon` or `atom(1)`.")


def note_universe(place: Place, made: Explanation) -> None:
    labelled = place.known.source.labelled
    universe = "labelled" if labelled else "unlabelled"
    made.say(f"This program is {universe}, and here is `{place.names[0]}`.")
    other = {"set": "multiset", "cycle": "sequence", "multiset": "set", "powerset": "set"}[place.names[0]]
    first = "unlabelled;" if labelled else "labelled;"
    made.say(f"What could be here: `{other}`; or the first line of the program is `{first}`.")


def note_bounds(place: Place, made: Explanation) -> None:
    for definition in place.known.source.types:
        for node in definition.right.nodes() if definition.right else ():
            if node.bound and node.bound_at == place.here.start:
                low, high = node.bound
                made.say(f"Here {article(node)} has from {low} to {'any number of' if high is None else high} components.")
                return


def note_weight(place: Place, made: Explanation) -> None:
    most = 1 if place.known.source.labelled else 16
    made.say(f"Here is the weight {place.names[0]}; what could be here: 0 to {most}.")


def note_argument(place: Place, made: Explanation) -> None:
    variable, callee = place.names
    procedure = place.known.procedures[callee]
    has = place.type_of_variable(variable)
    wants = place.known.type_of(procedure.type.text)
    made.say(f"`{variable}` is of type `{shown(has)}`; `{callee}` takes `{procedure.type.text}` ({place.text.line_of(procedure.type)}).")
    mine = place.known.construct(has)
    if mine and wants and shown(mine) == shown(place.known.construct(wants)):
        made.say(
            "The two look alike and are two types: each name of a definition, and each construct without a name, is one of its own. "
            "Write the name of one type at both places."
        )


def note_case(place: Place, made: Explanation) -> None:
    variable = place.names[0]
    has = place.type_of_variable(variable)
    construct = place.known.construct(has)
    arms = len(place.view.item.arms) if place.view else 0
    if construct and construct.kind == "union":
        branches = [f"{i}: `{shown(part)}`" for i, part in enumerate(construct.parts, 1)]
        made.say(f"`{variable}` is of type `{shown(has)}`, a union of {len(construct.parts)} branches; here are {arms} arms.")
        made.say(f"Its branches, each of which wants an arm in this order: {'; '.join(branches)}.")
    elif construct and construct.kind == "product":
        made.say(f"`{variable}` is of type `{shown(has)}`, a product, which wants one arm; here are {arms}.")
    else:
        made.say(f"`{variable}` is of type `{shown(has)}`, {article(construct)}: a case goes on a union or a product.")
        if construct and construct.kind in COLLECTIONS:
            made.say(f"Over a collection goes a walk: `forall u in {variable} do ..`.")


def note_pattern(place: Place, made: Explanation) -> None:
    view = place.view
    has = place.type_of_variable(place.names[0])
    construct = place.known.construct(has)
    if view is None or construct is None:
        return
    number = next(i for i, (p, _) in enumerate(view.item.arms) if p.at == place.here)
    pattern = view.item.arms[number][0]
    branch = construct.parts[number] if construct.kind == "union" else construct
    inner = place.known.construct(branch)
    what = f"branch {number + 1} of `{shown(has)}`, which is" if construct.kind == "union" else f"`{shown(has)}`,"
    made.say(f"This arm is for {what} `{shown(branch if construct.kind == 'union' else construct)}`.")
    if pattern.parts is not None and inner and inner.kind == "product" and len(pattern.parts) != len(inner.parts):
        made.say(f"The pattern has {len(pattern.parts)} variables, and the product has {len(inner.parts)} factors.")
    elif pattern.parts is not None and inner and inner.kind != "product":
        made.say(f"A pattern in brackets takes a product apart, and this is {article(inner)}.")
    fits = ["`_`"]
    if construct.kind == "union":
        fits += ["`_ as y`"] + ([f"`{branch.name}`", f"`{branch.name} as y`"] if branch.kind == "name" else [])
    if inner and inner.kind == "product":
        fits.append(f"`({', '.join('abcdefghijklmnopqrstuvwxyz'[i % 26] for i in range(len(inner.parts)))})`")
    made.say(f"What could be here: {listed(fits)}. Arms come in the order of the branches.")


def note_walk(place: Place, made: Explanation) -> None:
    has = place.type_of_variable(place.names[0])
    construct = place.known.construct(has)
    made.say(f"`{place.names[0]}` is of type `{shown(has)}`, {article(construct)}.")
    if construct and construct.kind in ("union", "product"):
        made.say("A case comes first: its arm binds the collection, as in `_ as s`, and the walk goes over `s`.")


def note_scope(place: Place, made: Explanation) -> None:
    view = place.view
    name = place.names[0]
    if view is None:
        return
    if name in view.outer:
        made.say(f"`{name}` is bound further out, of type `{shown(view.outer[name])}`; here the innermost scope alone is seen.")
        made.say("What is wanted here has to be a part that this arm's pattern binds, as `_ as y` or `(a, b)` do, or be done outside.")
    else:
        made.say(f"Nothing binds `{name}`.")
    if view.scope:
        made.say(f"What could be here: {listed([f'`{v}` of type `{shown(t)}`' for v, t in view.scope.items()])}.")
    else:
        made.say("Nothing is bound here: a pattern with variables, as `_ as y`, binds some.")


def note_result(place: Place, made: Explanation) -> None:
    made.say(f"`{place.names[0]}` has a result, and this program is labelled: leave the result out, or the first line `labelled;`.")


def note_value(place: Place, made: Explanation) -> None:
    view = place.view
    if view is None:
        return
    wanted = place.known.construct(view.wanted)
    made.say(f"Here a value of type `{shown(view.wanted)}` is expected: `{shown(wanted)}`.")
    item = view.item
    if item.kind == "variable":
        made.say(f"The variable `{place.here.text}` is of type `{shown(view.scope.get(place.here.text))}`.")
    elif item.kind == "call":
        callee = place.known.procedures[place.here.text]
        made.say(f"`{place.here.text}` gives " + (f"`{callee.result.text}`." if callee.result else "no result."))
    if wanted and wanted.kind == "union":
        branches = [f"`{i} : ..` for `{shown(part)}`" for i, part in enumerate(wanted.parts, 1)]
        made.say(f"What could be here: {listed(branches)}, a variable or a call of this type.")
    elif wanted and wanted.kind == "product":
        made.say(f"What could be here: `product(..)` with {len(wanted.parts)} parts, a variable or a call of this type.")
    elif wanted and wanted.kind == "atom":
        made.say("What could be here: `atom`, a variable or a call of this type.")
    else:
        made.say("What could be here: a variable or a call of this type.")


RULE_NOTES: dict[str, Callable[[Place, Explanation], None]] = {
    "Y1": note_twice, "Y2": note_undefined, "Y3": note_misused, "Y4": note_circle, "Y5": note_universe,
    "Y6": note_universe, "Y7": note_bounds, "Y8": note_weight, "Y9": note_argument, "Y10": note_case,
    "Y11": note_pattern, "Y12": note_walk, "Y13": note_scope, "Y14": note_result, "Y15": note_value,
}  # fmt: skip


def explain_rule(text: Text, rule: str, byte: int, names: Sequence[str]) -> Explanation:
    """Y1 to Y15: the place, what is known of the names and types there."""
    here = text.token_at(byte)
    made = Explanation(rule, [(byte, here.end)])
    known = text.names()
    view = next((v for v in known.views() if byte in bytes_of(v, text)), None)
    RULE_NOTES[rule](Place(text, known, here, names, view), made)
    return made


def bytes_of(view: View, text: Text) -> list[int]:
    """The bytes at which a rule may name an item."""
    item = view.item
    tokens = [item.at, item.name, item.variable] + [p.at for p, _ in item.arms]
    tokens += [part for p, _ in item.arms for part in p.parts or []]
    return [token.start for token in tokens if token]

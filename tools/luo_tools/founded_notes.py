"""What is said of the rules of well-foundedness, W1 to W4."""

from __future__ import annotations

from collections.abc import Callable, Sequence

from .explanation import Explanation, Text, listed
from .lexing import Token
from .scopes import Names, shown
from .syntax import COLLECTIONS, Expression, Procedure

AtomLaw = Callable[[Expression], bool]


def constructs_with(known: Names, of_atom: AtomLaw) -> set[int]:
    """The constructs (by identity) that have a structure all of whose atoms are so."""
    nodes = [node for definition in known.source.types if definition.right for node in definition.right.nodes()]
    found: set[int] = set()

    def has(part: Expression) -> bool:
        construct = known.construct(part)
        return construct is not None and id(construct) in found

    before = -1
    while len(found) != before:
        before = len(found)
        found |= {id(node) for node in nodes if has_structure(node, of_atom, has)}
    return found


def has_structure(node: Expression, of_atom: AtomLaw, has: AtomLaw) -> bool:
    """Whether a construct has such a structure, where its parts are known."""
    if node.kind == "atom":
        return of_atom(node)
    if node.kind == "union":
        return any(map(has, node.parts))
    if node.kind == "product":
        return all(map(has, node.parts))
    return node.low() == 0 or has(node.parts[0])


def inhabited(known: Names) -> set[int]:
    """The constructs that have some structure."""
    return constructs_with(known, lambda _: True)


def with_empty(known: Names) -> set[int]:
    """The constructs that have a structure of size 0."""
    return constructs_with(known, lambda atom: atom.weight == 0)


def explain_founded(text: Text, rule: str, place: str) -> Explanation:
    """W1 to W4: the definition and the part that the name means."""
    made = Explanation(rule)
    known = text.names()
    name, _, chain = place.partition(": ")
    if rule == "W4":
        note_calls(text, known, chain.split(), made)
        return made
    found = known.node(name)
    if found is None:
        return made
    definition, node = found
    made.spans = [(node.start, node.end)]
    if rule != "W3":
        made.say(f"`{name}` is part {name.rpartition('.')[2]} of the definition of `{definition.name.text}`: `{shown(node)}`.")
    if rule == "W1":
        having = inhabited(known)
        lacking = [p for p in node.parts if id(known.construct(p)) not in having]
        made.say(f"It needs a structure of {listed([f'`{shown(p)}`' for p in lacking])}, and there is none to begin with.")
        name = definition.name.text
        made.say(f"What could be here: a branch that ends the recursion, as in `{name} = epsilon | ..` or `.. = atom(1) | ..`.")
    elif rule == "W2":
        made.say(f"Its component `{shown(node.parts[0])}` can be empty.")
        made.say(empty_advice(known, node.parts[0]))
    else:
        steps = chain.split()
        for step in steps[:-1]:
            at = known.node(step)
            if at:
                made.say(f"`{step}` is `{shown(at[1])}`.")
        made.say(f"So a structure leads back to one of its own size: {' to '.join(f'`{s}`' for s in steps)}.")
        made.say("One step of these has to add an atom, as `product(z, ..)` does, or allow two components or more, as `card >= 2`.")
    return made


def empty_advice(known: Names, part: Expression) -> str:
    """What keeps a component from being empty."""
    construct = known.construct(part)
    if construct and construct.kind in COLLECTIONS:
        return f"What could be here: the bound `card >= 1` in `{shown(construct)}`."
    if construct and construct.kind == "union":
        having = with_empty(known)
        empty = [f"`{shown(p)}`" for p in construct.parts if id(known.construct(p)) in having]
        return f"Its branch {listed(empty, 'and')} is empty: leave it out of the component."
    return "A component needs an atom of weight 1 or more in each of its structures."


def note_calls(text: Text, known: Names, circle: Sequence[str], made: Explanation) -> None:
    """W4: each procedure of the circle and its call."""
    for caller, callee in zip(circle, circle[1:], strict=False):
        procedure = known.procedures[caller]
        call = own_call(known, procedure, callee)
        if call is None:
            continue
        made.spans.append((call.start, call.end))
        made.say(f"`{caller}({procedure.parameter.text})` calls `{callee}({procedure.parameter.text})` in {text.line_of(call)}, on its own parameter.")
    made.say("What could be here: a call on a part of the parameter, which a `case` or a `forall` binds.")


def own_call(known: Names, procedure: Procedure, callee: str) -> Token | None:
    """The first call of a procedure on the parameter of another."""
    for view in known.views():
        item = view.item
        if view.procedure is procedure and item.kind == "call" and item.name and item.name.text == callee and not view.outer:
            return item.name
    return None

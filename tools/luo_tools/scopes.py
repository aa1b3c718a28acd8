"""What names and variables mean in a program: types, nodes, and the scope at a place."""

from __future__ import annotations

from collections.abc import Iterator
from dataclasses import dataclass

from .syntax import COLLECTIONS, Definition, Expression, Item, Pattern, Procedure, Source


@dataclass
class View:
    """An item as the walk meets it: its scope, the variables that lie further out, and the type that a value is to have."""

    item: Item
    scope: dict[str, Expression]
    outer: dict[str, Expression]
    procedure: Procedure
    wanted: Expression | None = None


class Names:
    """The names of a program."""

    def __init__(self, source: Source) -> None:
        self.source = source
        self.first: dict[str, Definition] = {}
        for definition in source.definitions():
            self.first.setdefault(definition.name.text, definition)
        self.procedures = {p.name.text: p for p in reversed(source.procedures)}

    def of_kind(self, kind: str) -> list[str]:
        """The names of one kind: type, measure or procedure."""
        return [name for name, definition in self.first.items() if definition.kind == kind]

    def type_of(self, name: str) -> Expression | None:
        """The expression that a type's name leads to in one step."""
        definition = self.first.get(name)
        return definition.right if definition else None

    def construct(self, expression: Expression | None) -> Expression | None:
        """The construct that an expression leads to, by names."""
        seen: set[str] = set()
        while expression is not None and expression.kind == "name":
            if expression.name in seen:
                return None
            seen.add(expression.name)
            expression = self.type_of(expression.name)
        return expression

    def node(self, name: str) -> tuple[Definition, Expression] | None:
        """The definition and the construct that a node's name, as `t.1`, has."""
        head, _, place = name.rpartition(".")
        definition = self.first.get(head)
        if definition is None or definition.right is None or not place.isdigit():
            return None
        nodes = list(definition.right.nodes())
        return (definition, nodes[int(place)]) if int(place) < len(nodes) else None

    def views(self) -> Iterator[View]:
        """Each item of each procedure with what is known where it stands."""
        for procedure in self.source.procedures:
            scope = {procedure.parameter.text: self.named(procedure.type.text)}
            wanted = self.named(procedure.result.text) if procedure.result else None
            yield from self.inside(View(procedure.body, scope, {}, procedure, wanted))

    @staticmethod
    def named(name: str) -> Expression:
        """The expression that is a name."""
        return Expression("name", 0, name=name)

    def inside(self, view: View) -> Iterator[View]:
        """A view of an item and of all inside it."""
        yield view
        item = view.item
        further = {**view.outer, **view.scope}
        cased = self.construct(view.scope.get(item.name.text)) if item.name else None
        if item.kind == "walk" and item.variable:
            scope = {item.variable.text: cased.parts[0]} if cased and cased.kind in COLLECTIONS else {}
            yield from self.inside(View(item.parts[0], scope, further, view.procedure))
            return
        for place, (pattern, body) in enumerate(item.arms):
            scope = self.bound_by(pattern, cased, place)
            yield from self.inside(View(body, scope, further, view.procedure, view.wanted))
        for place, part in enumerate(item.parts):
            wanted = self.part_wanted(view, place)
            yield from self.inside(View(part, view.scope, view.outer, view.procedure, wanted))

    def part_wanted(self, view: View, place: int) -> Expression | None:
        """The type that a part of a value is to have."""
        wanted = self.construct(view.wanted)
        if wanted is None:
            return None
        if view.item.kind == "branch" and wanted.kind == "union":
            place = view.item.number - 1
        elif not (view.item.kind == "product" and wanted.kind == "product"):
            return None
        return wanted.parts[place] if 0 <= place < len(wanted.parts) else None

    def bound_by(self, pattern: Pattern, cased: Expression | None, place: int) -> dict[str, Expression]:
        """The variables that the pattern of an arm binds."""
        branch = cased
        if cased and cased.kind == "union":
            branch = cased.parts[place] if place < len(cased.parts) else None
        if branch is None:
            return {}
        if pattern.whole:
            return {pattern.whole.text: branch}
        construct = self.construct(branch)
        if pattern.parts and construct and construct.kind == "product":
            return {name.text: part for name, part in zip(pattern.parts, construct.parts, strict=False)}
        return {}


def shown(expression: Expression | None) -> str:
    """The text of a type expression."""
    if expression is None:
        return "an unknown type"
    if expression.kind == "name":
        return expression.name
    if expression.kind == "atom":
        return f"atom({expression.weight})" if expression.weight else "epsilon"
    parts = [shown(part) for part in expression.parts]
    if expression.kind == "union":
        return " | ".join(parts)
    if expression.bound:
        low, high = expression.bound
        if low == high:
            parts.append(f"card = {low}")
        elif high is None:
            parts.append(f"card >= {low}")
        else:
            parts.append(f"card <= {high}" if low == 0 else f"card in {low}..{high}")
    return f"{expression.kind}({', '.join(parts)})"


def article(expression: Expression | None) -> str:
    """The kind of a construct with its article."""
    kind = expression.kind if expression else "type"
    return ("an " if kind[0] in "a" else "a ") + kind

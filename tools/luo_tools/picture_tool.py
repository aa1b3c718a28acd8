"""luo-draw-picture: structures as trees, cycles, Ferrers diagrams or words."""

from __future__ import annotations

import subprocess
import sys
from collections.abc import Callable, Sequence
from dataclasses import dataclass, field
from math import ceil, cos, pi, sin, sqrt
from typing import TYPE_CHECKING

from .command import Failure, Parser, read_input
from .plot_tool import picture_name, save, sheet
from .reports import Listing, read_output
from .structures import Structure, read_structure

if TYPE_CHECKING:
    from matplotlib.axes import Axes

MOST = 100


@dataclass
class Node:
    """A node of a drawn tree: its text, whether it is an atom that counts, and its children."""

    text: str
    counts: bool
    children: list[Node] = field(default_factory=list)


def node_of(structure: Structure) -> Node:
    """The tree that is drawn: an atom beside other parts of a tuple is their node, and branches aren't drawn."""
    inner = structure.bare()
    if inner.kind == "atom":
        text = str(inner.label) if inner.label is not None else str(inner.number) if inner.number > 1 else ""
        return Node(text, inner.is_mark())
    marks = [part for part in inner.parts if part.is_mark()]
    if inner.kind == "tuple" and len(marks) == 1:
        rest = [part for part in inner.parts if part is not marks[0]]
        node = node_of(marks[0])
        if len(rest) == 1 and rest[0].bare().kind == "collection":
            rest = rest[0].bare().parts
        node.children = [node_of(part) for part in rest]
        return node
    return Node("", False, [node_of(part) for part in inner.parts])


def laid_out(root: Node) -> list[tuple[Node, float, float, int | None]]:
    """Each node with its place and the number of its parent, by graphviz."""
    nodes: list[tuple[Node, int | None]] = []
    todo: list[tuple[Node, int | None]] = [(root, None)]
    while todo:
        node, parent = todo.pop()
        nodes.append((node, parent))
        todo += [(child, len(nodes) - 1) for child in reversed(node.children)]
    lines = ["graph { graph [ordering=out, nodesep=0.12, ranksep=0.3]; node [shape=circle, width=0.3, fixedsize=true, label=\"\"];"]
    lines += [f"{number};" for number in range(len(nodes))]
    lines += [f"{parent} -- {number};" for number, (_, parent) in enumerate(nodes) if parent is not None]
    try:
        done = subprocess.run(["dot", "-Tplain"], input="\n".join([*lines, "}"]), capture_output=True, text=True, check=True)
    except (OSError, subprocess.CalledProcessError) as error:
        raise Failure(f"graphviz failed: {error}") from error
    places = {int(w[1]): (float(w[2]), float(w[3])) for w in map(str.split, done.stdout.split("\n")) if w[:1] == ["node"]}
    return [(node, *places[number], parent) for number, (node, parent) in enumerate(nodes)]


def draw_tree(axes: Axes, structure: Structure) -> None:
    """A tree: filled where an atom counts, small squares for leaves of size 0."""
    nodes = laid_out(node_of(structure))
    for _, x, y, parent in nodes:
        if parent is not None:
            axes.plot([x, nodes[parent][1]], [y, nodes[parent][2]], color="0.4", linewidth=1, zorder=1)
    for node, x, y, _ in nodes:
        empty = not node.counts and not node.children
        shape, size = ("s", 20) if empty else ("o", 150 if node.text else 60)
        axes.scatter([x], [y], s=size, marker=shape, facecolor="tab:blue" if node.counts else "white", edgecolor="0.2", zorder=2)
        axes.text(x, y, node.text, ha="center", va="center", fontsize=8, color="white", zorder=3)
    axes.margins(0.15)


def draw_cycles(axes: Axes, structure: Structure, arrows: bool = True) -> None:
    """A permutation: each cycle on a circle of its own, with arrows."""
    from matplotlib.patches import Circle

    x = 0.0
    for cycle in components(structure, "cycles and blocks"):
        radius = 0.3 if len(cycle) == 1 else max(0.5, 0.28 * len(cycle) / sqrt(2))
        x += radius + 0.3
        points = [(x + radius * sin(2 * pi * i / len(cycle)), radius * cos(2 * pi * i / len(cycle))) for i in range(len(cycle))]
        if len(cycle) == 1:
            points = [(x, 0.0)]
        if not arrows:
            axes.add_patch(Circle((x, 0), radius + 0.25, facecolor="0.92", edgecolor="0.6", zorder=0))
        elif len(cycle) == 1:
            axes.add_patch(Circle((x, 0.32), 0.3, facecolor="none", edgecolor="0.4", zorder=1))
        else:
            draw_arrows(axes, points)
        for (px, py), atom in zip(points, cycle, strict=True):
            axes.scatter([px], [py], s=190, facecolor="tab:blue", edgecolor="0.2", zorder=2)
            axes.text(px, py, atom, ha="center", va="center", fontsize=8, color="white", zorder=3)
        x += radius + 0.3
    axes.set_xlim(-0.8, max(x, 1) + 0.8)
    axes.set_ylim(-1.6, 1.6)
    axes.set_aspect("equal", adjustable="datalim")


def draw_blocks(axes: Axes, structure: Structure) -> None:
    """A set partition: each block in a circle of its own."""
    draw_cycles(axes, structure, arrows=False)


def draw_arrows(axes: Axes, points: Sequence[tuple[float, float]]) -> None:
    """An arrow from each point to the next."""
    style = {"arrowstyle": "-|>", "color": "0.4", "shrinkA": 7, "shrinkB": 7, "connectionstyle": "arc3,rad=-0.25"}
    for place, point in enumerate(points):
        axes.annotate("", points[(place + 1) % len(points)], point, arrowprops=style)


def components(structure: Structure, kind: str) -> list[list[str]]:
    """The components of a collection with the texts of their atoms."""
    inner = structure.bare()
    if inner.kind != "collection":
        raise Failure(f"{kind} are drawn of a collection; --as tree draws any structure")
    found = []
    for part in inner.parts:
        component = part.bare()
        atoms = component.parts if component.kind == "collection" else [component]
        if any(atom.bare().kind != "atom" for atom in atoms):
            raise Failure(f"{kind} are drawn of collections of atoms; --as tree draws any structure")
        found.append([atom_text(atom) for atom in atoms])
    return found


def atom_text(atom: Structure) -> str:
    """The label of an atom, or nothing."""
    label = atom.bare().label
    return "" if label is None else str(label)


def draw_ferrers(axes: Axes, structure: Structure) -> None:
    """A partition: a row of squares for each part, the longest first."""
    inner = structure.bare()
    if inner.kind != "collection":
        raise Failure("a Ferrers diagram is drawn of a collection; --as tree draws any structure")
    from matplotlib.patches import Rectangle

    sizes = sorted((part.size() for part in inner.parts), reverse=True)
    for y, size in enumerate(sizes):
        for x in range(size):
            axes.add_patch(Rectangle((x, -y - 1), 1, 1, facecolor="tab:blue", edgecolor="white", linewidth=1.5))
    axes.set_xlim(-0.5, max([*sizes, 1]) + 0.5)
    axes.set_ylim(-max(len(sizes), 1) - 0.5, 0.5)
    axes.set_aspect("equal", adjustable="datalim")


def draw_word(axes: Axes, structure: Structure) -> None:
    """A word: a square for each letter, which is the number of its branch, the label or the weight."""
    inner = structure.bare()
    letters = inner.parts if inner.kind != "atom" else [inner]
    if any(letter.bare().kind != "atom" for letter in letters):
        raise Failure("a word is drawn of a list of atoms; --as tree draws any structure")
    from matplotlib.patches import Rectangle

    for x, letter in enumerate(letters):
        text = "abcdefghijklmnopqrstuvwxyz"[(letter.number - 1) % 26] if letter.kind == "branch" else atom_text(letter) or str(letter.bare().number)
        axes.add_patch(Rectangle((x, 0), 1, 1, facecolor="white", edgecolor="0.3"))
        axes.text(x + 0.5, 0.48, text, ha="center", va="center", fontsize=9)
    axes.set_xlim(-0.5, max(len(letters), 1) + 0.5)
    axes.set_ylim(-0.5, 1.5)
    axes.set_aspect("equal", adjustable="datalim")


FORMS: dict[str, Callable[[Axes, Structure], None]] = {
    "tree": draw_tree,
    "cycles": draw_cycles,
    "blocks": draw_blocks,
    "ferrers": draw_ferrers,
    "word": draw_word,
}


def form_of(structure: Structure) -> str:
    """The form in which a structure is drawn where none is asked for."""
    inner = structure.bare()
    if inner.kind != "collection" or not inner.parts:
        return "tree"
    parts = [part.bare() for part in inner.parts]
    if all(part.kind == "atom" for part in parts):
        return "word"
    flat = all(part.kind == "atom" or part.kind == "collection" and all(p.bare().kind == "atom" for p in part.parts) for part in parts)
    if not flat:
        return "tree"
    labelled = any(atom.bare().label is not None for part in parts for atom in part.parts or [part])
    return "cycles" if labelled else "ferrers"


def texts_of(given: Sequence[str], path: str) -> list[tuple[str, str]]:
    """The structures with their titles: those of the words, or of a listing."""
    if given:
        return [("", text) for text in given]
    output = read_output(read_input(path))
    if not isinstance(output, Listing):
        raise Failure(f"a listing is wanted, and this is a {type(output).__name__.lower()}")
    return [(str(place), text) for place, text in output.lines]


def main(words: Sequence[str]) -> int:
    """Draws structures on one sheet."""
    sys.setrecursionlimit(20_000)
    parser = Parser(prog="luo-draw-picture", description="Pictures of structures, given by their texts or as a listing on standard input.")
    parser.add_argument("picture", help="the picture, NAME.png or NAME.svg")
    parser.add_argument("text", nargs="*", help="texts of structures; a listing on standard input without any")
    parser.add_argument("--as", dest="form", choices=FORMS, help="the form; without it one that fits each structure")
    given = parser.parse_intermixed_args(words)
    picture = picture_name(given.picture)
    texts = texts_of(given.text, "-")
    if len(texts) > MOST:
        raise Failure(f"{len(texts)} structures are too many for a sheet, which takes {MOST}")
    structures = [(title, read_structure(text)) for title, text in texts]
    columns = ceil(sqrt(len(structures)))
    rows = ceil(len(structures) / columns)
    figure = sheet(columns, rows, 2.4, 2.2)
    for place, (title, structure) in enumerate(structures, 1):
        axes = figure.add_subplot(rows, columns, place)
        axes.set_axis_off()
        axes.set_title(title, fontsize="small")
        FORMS[given.form or form_of(structure)](axes, structure)
    save(figure, picture)
    return 0

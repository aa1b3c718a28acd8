#!/usr/bin/env python3
"""gallery/pictures/make.py: a picture for each chapter, from the formulas (Debian's python3-matplotlib)."""
import os
import sys

sys.dont_write_bytecode = True
HERE = os.path.dirname(os.path.abspath(__file__))
sys.path.insert(0, os.path.dirname(HERE))
import matplotlib  # noqa: E402

matplotlib.use("Agg")
import matplotlib.pyplot as plt  # noqa: E402
from matplotlib.ticker import MaxNLocator  # noqa: E402
from formulas import chapters  # noqa: E402

# of each chapter: what is shown, the axes, and the analyses with their labels
PICTURES = {
    "01-words": ("share", "letters n", "share of ones in a word",
                 [("ones", "all words"), ("tribonacci", "no three ones in a row"), ("sparse", "no two ones in a row")]),
    "02-trees": ("average", "size n", "average on a tree",
                 [("tree", "path length, binary"), ("ternary", "path length, ternary"), ("leaves", "leaves, binary"), ("plane", "leaves, plane")]),
    "03-permutations": ("average", "points n", "average number of cycles",
                        [("ordered_cycles", "cycles in a row"), ("two_colours", "in two colours"), ("perm", "all permutations"),
                         ("derangements", "no fixed points"), ("long_cycles", "length 4 or more")]),
    "04-set-partitions": ("average", "points n", "average number of blocks",
                          [("surjections", "blocks in a row"), ("coloured", "in two colours"), ("blocks", "all partitions"),
                           ("lists", "queues"), ("no_singletons", "blocks of 2 or more")]),
    "05-integer-partitions": ("average", "sum n", "average number of parts",
                              [("compositions", "compositions"), ("odd_parts", "partitions, odd parts"), ("parts", "partitions"),
                               ("distinct", "partitions, distinct parts")]),
    "06-paths": ("average", "half length n", "average on a path",
                 [("area", "area, Dyck"), ("peaks", "peaks, Dyck"), ("bridges", "returns, bridges"), ("returns", "returns, Dyck")]),
    "07-mappings": ("average", "points n", "average on a map or a forest",
                    [("no_image", "points that are no image"), ("idempotent", "fixed points, idempotent"), ("cyclic_points", "cyclic points"),
                     ("components", "components"), ("forests", "trees of a forest")]),
    "08-expressions": ("average", "symbols n", "average cost",
                       [("product_rule", "product rule, copies"), ("diff", "differentiation"), ("negations", "signs pushed down"),
                        ("evaluate", "evaluation")]),
    "09-sorting": ("average", "keys n", "average cost",
                   [("bubble", "swaps, words of 0 and 1"), ("searches", "visits, binary trees"), ("merge", "merging"),
                    ("linear_search", "linear search")]),
    "10-puzzles": ("count", "sum n", "number of throws", [("three_dice", "three dice"), ("sicherman", "Sicherman's dice"), ("dice", "two dice, the same")]),
}
MARKS = "osD^v"


def points(kind, analysis):
    for n in range(analysis.last + 1):
        count, total = analysis.row(n)
        if kind == "count":
            yield n, count
        elif count and (n or kind == "average"):
            yield n, total / count / (n if kind == "share" else 1)


def picture(chapter):
    kind, across, up, shown = PICTURES[chapter.folder]
    analyses = {analysis.name: analysis for analysis in chapter.analyses}
    figure, axes = plt.subplots(figsize=(9.5, 4.2), dpi=100)
    for (name, label), mark in zip(shown, MARKS):
        xs, ys = zip(*points(kind, analyses[name]))
        axes.plot(xs, ys, marker=mark, markersize=6, linewidth=2, label=label, linestyle="--" if name == "dice" else "-")
    axes.set_title(chapter.title, fontsize=16)
    axes.set_xlabel(across, fontsize=15)
    axes.set_ylabel(up, fontsize=15)
    axes.tick_params(labelsize=13)
    axes.xaxis.set_major_locator(MaxNLocator(integer=True))
    axes.set_ylim(bottom=0, top=1.06 * axes.dataLim.y1)
    axes.grid(alpha=0.3)
    axes.legend(fontsize=14, loc="center left", bbox_to_anchor=(1.01, 0.5), frameon=False)
    figure.tight_layout()
    figure.savefig(os.path.join(HERE, chapter.folder + ".png"), metadata={"Software": None})
    plt.close(figure)


for chapter in chapters():
    picture(chapter)

"""The analyses of the gallery, chapter by chapter, each with a formula that gives its rows by Python's integers."""
import importlib
import os

GALLERY = os.path.dirname(os.path.dirname(os.path.abspath(__file__)))
CHAPTERS = ("words", "trees", "permutations", "set_partitions", "integer_partitions", "paths", "mappings", "expressions",
            "sorting", "puzzles")


class Analysis:
    """One analysis: `row(n)` is the number of structures of size n and the sum of the charges over them."""

    def __init__(self, folder, name, last, question, known, notice, row, example=False):
        self.name, self.last, self.question, self.known, self.notice, self.row = name, last, question, known, notice, row
        self.folder = "../examples" if example else folder

    def path(self, ending):
        return os.path.join(GALLERY, self.folder, self.name + ending)

    def program(self):
        return self.path(".adl")

    def report(self):
        return self.path(".%d.report" % self.last)


class Chapter:
    """A chapter: its folder, its title, an opening sentence and its analyses."""

    def __init__(self, number, word, title, opening):
        self.number, self.title, self.opening, self.analyses = number, title, opening, []
        self.folder = "%02d-%s" % (number, word)

    def add(self, name, last, question, known, notice, example=False):
        """Adds the analysis whose row is the function below; an `example` lies in examples/."""
        def taken(row):
            self.analyses.append(Analysis(self.folder, name, last, question, known, notice, row, example))
            return row
        return taken


def chapters():
    return [importlib.import_module("formulas." + name).CHAPTER for name in CHAPTERS
            if os.path.exists(os.path.join(GALLERY, "formulas", name + ".py"))]

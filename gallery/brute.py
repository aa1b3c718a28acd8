"""The rows of small sizes by brute force: all structures, listed by cases/bin/lister.py, and on each what the procedure charges,
statement by statement. No series and no table."""
import os
import sys

from equations import Reader

sys.path.insert(0, os.path.join(os.path.dirname(os.path.dirname(os.path.abspath(__file__))), "cases", "bin"))
from lister import Lister  # noqa: E402


class Brute:
    def __init__(self, source):
        self.program, self.lister = Reader(source), Lister(source)

    def charge(self, statement, values):
        """What a statement charges where the variables have these structures."""
        kind = statement[0]
        if kind == "charge":
            return self.program.measures[statement[1]]
        if kind == "block":
            return sum(self.charge(inside, values) for inside in statement[1])
        if kind == "call":
            return self.procedure(statement[1], values[statement[2]])
        if kind == "forall":
            return sum(self.charge(statement[3], {statement[1]: part}) for part in values[statement[2]][1])
        looked = values[statement[1]]
        pattern, body = statement[2][looked[1] - 1 if looked[0] == "branch" else 0]
        inside = looked[2] if looked[0] == "branch" else looked
        if isinstance(pattern, list):
            return self.charge(body, dict(zip(pattern, inside[1])))
        return self.charge(body, {pattern: inside})

    def procedure(self, name, structure):
        parameter, _, body = self.program.procedures[name]
        return self.charge(body, {parameter: structure})

    def row(self, n):
        """The number of structures of size n and the sum of what the first procedure that is analysed charges."""
        name = self.program.analyses[0]
        found = self.lister.ordered(self.program.procedures[name][1], n)
        return len(found), sum(self.procedure(name, structure) for structure in found)

"""Structures by brute force, for what `list` has to write: all trees are made, those that break the rule of their kind are dropped, and
what is left is sorted by comparing two structures. It reads the types of a program by itself, and shares nothing with `luo`.

python3 cases/bin/lister.py FILE TYPE N START COUNT writes a listing."""
import re
import sys
from functools import cmp_to_key
from itertools import combinations

TOKEN = re.compile(r"[A-Za-z][A-Za-z0-9_]*|\d+|<=|>=|\.\.|[;,=|():_]")
COLLECTIONS = ("sequence", "set", "cycle", "multiset", "powerset")


class Types:
    """The universe and the types of a program: `expressions` has for each name its right side.

    An expression is ("name", name), ("atom", weight), ("union", parts), ("product", parts) or (kind, component, low, high)."""

    def __init__(self, source):
        self.tokens, self.at = TOKEN.findall(re.sub(r"%[^\n]*", "", source)), 0
        self.labelled = self.tokens[0] == "labelled"
        if self.tokens[0] in ("labelled", "unlabelled"):
            self.at = 2
        self.expressions = {}
        while self.take("type"):
            names = [self.next()]
            while self.take(","):
                names.append(self.next())
            self.want("=")
            expression = self.expression()
            self.want(";")
            self.expressions.update((name, expression) for name in names)

    def next(self):
        self.at += 1
        return self.tokens[self.at - 1]

    def take(self, token):
        if self.tokens[self.at] != token:
            return False
        self.at += 1
        return True

    def want(self, token):
        assert self.take(token), (self.tokens[self.at], token)

    def between(self, mark, end):
        parts = [self.expression() if mark == "," else self.term()]
        while self.take(mark):
            parts.append(self.expression() if mark == "," else self.term())
        if end:
            self.want(end)
        return parts

    def expression(self):
        parts = self.between("|", None)
        return parts[0] if len(parts) == 1 else ("union", parts)

    def term(self):
        word = self.next()
        if word == "epsilon":
            return ("atom", 0)
        if word == "atom":
            self.want("(")
            weight = int(self.next())
            self.want(")")
            return ("atom", weight)
        if word == "product":
            self.want("(")
            return ("product", self.between(",", ")"))
        if word in COLLECTIONS:
            self.want("(")
            component = self.expression()
            low, high = self.bounds() if self.take(",") else (0, None)
            self.want(")")
            return (word, component, max(low, 1) if word == "cycle" else low, high)
        return ("name", word)

    def bounds(self):
        self.want("card")
        sign, number = self.next(), int(self.next())
        if sign == "in":
            self.want("..")
            return number, int(self.next())
        return {"=": (number, number), "<=": (0, number), ">=": (number, None)}[sign]


# A structure is ("atom", weight, label), ("branch", number, inside), ("tuple", parts) or ("collection", parts).


def size(s):
    """The sum of the weights."""
    return s[1] if s[0] == "atom" else size(s[2]) if s[0] == "branch" else sum(map(size, s[1]))


def labels(s):
    """The labels, sorted."""
    if s[0] == "atom":
        return [s[2]] if s[2] else []
    return labels(s[2]) if s[0] == "branch" else sorted(label for part in s[1] for label in labels(part))


def sign(a, b):
    return (a > b) - (a < b)


def compare(a, b):
    """Which of two structures of one type comes first: below 0 for a, above 0 for b."""
    first = sign(size(a), size(b)) or sign(labels(a), labels(b))
    if first or a[0] == "atom":
        return first
    if a[0] == "branch":
        return sign(a[1], b[1]) or compare(a[2], b[2])
    for x, y in zip(a[1], b[1]):
        first = compare(x, y)
        if first:
            return first
    return sign(len(a[1]), len(b[1]))


def text(s):
    """The text of a structure."""
    if s[0] == "atom":
        return "#%d" % s[2] if s[2] else "a%d" % s[1]
    if s[0] == "branch":
        return "%d:%s" % (s[1], text(s[2]))
    return ("(%s)" if s[0] == "tuple" else "[%s]") % ",".join(map(text, s[1]))


def follows(kind, parts, universe):
    """Whether components stand as their kind wants them; the labels of a cycle are those of `universe`."""
    pairs = list(zip(parts, parts[1:]))
    if kind == "set":
        return all(labels(x)[0] < labels(y)[0] for x, y in pairs)
    if kind == "cycle":
        return labels(parts[0])[0] == min(universe)
    if kind == "multiset":
        return all(compare(x, y) >= 0 for x, y in pairs)
    return kind != "powerset" or all(compare(x, y) > 0 for x, y in pairs)


class Lister:
    """Lists the structures of the types of a program."""

    def __init__(self, source):
        self.types = Types(source)
        self.made = {}
        self.least_sizes = dict.fromkeys(self.types.expressions, 1000)
        for _ in self.least_sizes:
            for name, expression in self.types.expressions.items():
                self.least_sizes[name] = self.least(expression)

    def least(self, e):
        """The least size of a structure of an expression, or 1000 where none is known yet."""
        if e[0] == "name":
            return self.least_sizes[e[1]]
        if e[0] == "atom":
            return e[1]
        if e[0] in ("union", "product"):
            return (min if e[0] == "union" else sum)([self.least(part) for part in e[1]])
        return e[2] * self.least(e[1])

    def splits(self, n, universe):
        """The ways to share a size, and its labels where there are some, between a first part and the rest."""
        for k in range(n + 1):
            if not self.types.labelled:
                yield k, (), n - k, ()
                continue
            for chosen in combinations(universe, k):
                yield k, chosen, n - k, tuple(label for label in universe if label not in chosen)

    def all(self, e, n, universe):
        """All structures of an expression of this size, in a labelled program on these labels."""
        key = (repr(e), n, universe)
        if key not in self.made:
            self.made[key] = self.make(e, n, universe)
        return self.made[key]

    def make(self, e, n, universe):
        if e[0] == "name":
            return self.all(self.types.expressions[e[1]], n, universe)
        if e[0] == "atom":
            return [("atom", n, universe[0] if self.types.labelled and n == 1 else 0)] if e[1] == n else []
        if e[0] == "union":
            return [("branch", i, s) for i, part in enumerate(e[1], 1) for s in self.all(part, n, universe)]
        if e[0] == "product":
            return [("tuple", parts) for parts in self.tuples(e[1], n, universe)]
        kind, component, low, high = e
        lists = self.lists(component, n, universe, low, high)
        return [("collection", parts) for parts in lists if follows(kind, parts, universe)]

    def tuples(self, factors, n, universe):
        """A structure of each factor."""
        if not factors:
            return [()] if n == 0 else []
        found = []
        for k, mine, rest, others in self.splits(n, universe):
            if k >= self.least(factors[0]) and rest >= sum(map(self.least, factors[1:])):
                behind = self.tuples(factors[1:], rest, others)
                found += [(x,) + xs for x in (self.all(factors[0], k, mine) if behind else []) for xs in behind]
        return found

    def lists(self, component, n, universe, low, high):
        """At least `low` and at most `high` components, in any order."""
        if n == 0:
            return [()] if low <= 0 else []
        if high == 0:
            return []
        found = []
        for k, mine, rest, others in self.splits(n, universe):
            if k > 0 and rest >= (low - 1) * self.least(component):
                first = self.all(component, k, mine)
                behind = self.lists(component, rest, others, low - 1, None if high is None else high - 1) if first else []
                found += [(x,) + xs for x in first for xs in behind]
        return found

    def ordered(self, name, n):
        """All structures of a type of this size, in their order."""
        universe = tuple(range(1, n + 1)) if self.types.labelled else ()
        found = sorted(self.all(("name", name), n, universe), key=cmp_to_key(compare))
        assert all(compare(x, y) < 0 for x, y in zip(found, found[1:]))
        return found

    def listing(self, name, n, start=0, count=100000):
        """What `list FILE name n start count` has to write."""
        return "".join("%d %s\n" % (i, text(s)) for i, s in enumerate(self.ordered(name, n)) if start <= i < start + count)


if __name__ == "__main__":
    file, name, *numbers = sys.argv[1:]
    with open(file) as f:
        sys.stdout.write(Lister(f.read()).listing(name, *map(int, numbers)))

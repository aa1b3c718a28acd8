"""Random programs, and what a program's text says by brute force: its tokens, whether it is a program, and what its procedures charge.

It reads texts by itself and shares nothing with `luo`. Structures come from lister.py."""
import re

from lister import COLLECTIONS, Lister, size

RESERVED = set(
    "labelled unlabelled type epsilon atom product sequence set cycle multiset powerset card in measure procedure analyze begin end case of "
    "forall do skip as".split()
)
PIECE = re.compile(rb"[ \t\r\n]+|%[^\n]*|([A-Za-z][A-Za-z0-9_]*)|(0|[1-9][0-9]*)|(<=|>=|\.\.|[;,=|():_])")
TOO_LARGE = 10**35


class Refused(Exception):
    """What a text is refused by: a status and a line."""


def tokens_of(text):
    """The tokens, each with its place and its end; or the first lexical fault."""
    at, found = 0, []
    while at < len(text):
        piece = PIECE.match(text, at)
        if not piece:
            raise Refused(3, "refused: G1 at byte %d" % at)
        word, number = piece.group(1), piece.group(2)
        if word and len(word) > 32:
            raise Refused(4, "limit: name 32 at byte %d" % at)
        if number and int(number) > TOO_LARGE:
            raise Refused(4, "limit: number %d at byte %d" % (TOO_LARGE, at))
        if piece.lastindex:
            found.append((piece.group().decode(), at, piece.end()))
        at = piece.end()
    return found


class Grammar:
    """Reads tokens by the grammar, one after the other, and remembers measures and procedures. Each token that is taken may begin some
    program, so the first that isn't is where the longest such prefix ends."""

    def __init__(self, text):
        self.tokens, self.length, self.at, self.open = tokens_of(text), len(text), 0, 0
        self.measures, self.procedures, self.analyses = {}, {}, []
        self.program()

    def peek(self):
        return self.tokens[self.at][0] if self.at < len(self.tokens) else ""

    def fail(self):
        behind = self.tokens[self.at][1] if self.at < len(self.tokens) else self.length
        raise Refused(3, "refused: G2 at token %d, byte %d" % (self.at, behind))

    def next(self):
        token = self.peek()
        if token in ("(", "begin", "case"):
            self.open += 1
            if self.open > 32:
                raise Refused(4, "limit: depth 32 at token %d, byte %d" % (self.at, self.tokens[self.at][1]))
        if token in (")", "end"):
            self.open -= 1
        self.at += 1
        return token

    def take(self, token):
        return self.peek() == token and bool(self.next())

    def want(self, *tokens):
        for token in tokens:
            if not self.take(token):
                self.fail()

    def is_name(self):
        return re.match("[A-Za-z]", self.peek()) and self.peek() not in RESERVED

    def name(self):
        if not self.is_name():
            self.fail()
        return self.next()

    def number(self):
        if not self.peek().isdigit():
            self.fail()
        return int(self.next())

    def names(self, end=None):
        found = [self.name()]
        while self.take(","):
            found.append(self.name())
        self.want(*([end] if end else []))
        return found

    def program(self):
        if self.take("labelled") or self.take("unlabelled"):
            self.want(";")
        while self.take("type"):
            self.names("=")
            self.expression()
            self.want(";")
        while self.take("measure"):
            names = self.names(":")
            value = self.number()
            for name in names:
                self.measures.setdefault(name, value)
            self.want(";")
        while self.take("procedure"):
            self.procedure()
        self.want("analyze")
        self.analyses.append(self.name())
        self.want(";")
        while self.take("analyze"):
            self.analyses.append(self.name())
            self.want(";")
        if self.at < len(self.tokens):
            self.fail()

    def expression(self):
        self.term()
        while self.take("|"):
            self.term()

    def term(self):
        word = self.peek()
        if self.is_name() or word == "epsilon":
            self.next()
        elif word == "atom":
            self.next()
            self.want("(")
            self.number()
            self.want(")")
        elif word == "product":
            self.next()
            self.want("(")
            self.expression()
            self.want(",")
            self.expression()
            while self.take(","):
                self.expression()
            self.want(")")
        elif word in COLLECTIONS:
            self.next()
            self.want("(")
            self.expression()
            if self.take(","):
                self.want("card")
                self.bound()
            self.want(")")
        else:
            self.fail()

    def bound(self):
        if self.take("in"):
            self.number()
            self.want("..")
        elif not (self.take("=") or self.take("<=") or self.take(">=")):
            self.fail()
        self.number()

    def procedure(self):
        name = self.name()
        self.want("(")
        parameter = self.name()
        self.want(":")
        on = self.name()
        self.want(")")
        if self.take(":"):
            self.name()
            self.want(";")
            self.value()
            body = None
        else:
            self.want(";")
            body = self.block()
        self.want(";")
        self.procedures.setdefault(name, (parameter, on, body))

    def block(self):
        self.want("begin")
        found = []
        if not self.take("end"):
            found.append(self.statement())
            while self.take(";"):
                found.append(self.statement())
            self.want("end")
        return ("block", found)

    def statement(self):
        if self.take("case"):
            variable = self.name()
            self.want("of")
            arms = [self.arm()]
            while self.take(";"):
                arms.append(self.arm())
            self.want("end")
            return ("case", variable, arms)
        if self.take("forall"):
            variable = self.name()
            self.want("in")
            walked = self.name()
            self.want("do")
            return ("forall", variable, walked, self.simple())
        return self.simple()

    def simple(self):
        if self.peek() == "begin":
            return self.block()
        if self.take("skip"):
            return ("block", [])
        name = self.name()
        if not self.take("("):
            return ("charge", name)
        variable = self.name()
        self.want(")")
        return ("call", name, variable)

    def arm(self):
        bound = self.pattern()
        self.want(":")
        return bound, self.simple()

    def pattern(self):
        """What an arm binds: nothing, the whole, or the parts."""
        if self.take("("):
            return ("parts", self.names(")"))
        if not self.take("_"):
            self.name()
            if self.take("("):
                return ("parts", self.names(")"))
        return ("whole", self.name()) if self.take("as") else ("nothing", None)

    def value(self):
        if self.peek().isdigit():
            self.next()
            self.want(":")
        self.inner()

    def inner(self):
        if self.take("("):
            self.number()
            self.want(":")
            self.inner()
            self.want(")")
        elif self.take("product"):
            self.want("(")
            self.value()
            self.want(",")
            self.value()
            while self.take(","):
                self.value()
            self.want(")")
        elif self.take("case"):
            self.name()
            self.want("of")
            self.value_arm()
            while self.take(";"):
                self.value_arm()
            self.want("end")
        elif not self.take("atom"):
            self.name()
            if self.take("("):
                self.name()
                self.want(")")
            else:
                self.take("atom")

    def value_arm(self):
        self.pattern()
        self.want(":")
        self.value()


class Meaning:
    """What the procedures of a program without results charge, by walking their statements."""

    def __init__(self, text):
        self.grammar, self.lister = Grammar(text), Lister(text.decode())

    def charge(self, name, structure):
        parameter, _, body = self.grammar.procedures[name]
        return self.of(body, {parameter: structure})

    def of(self, statement, bound):
        kind = statement[0]
        if kind == "block":
            return sum(self.of(inner, bound) for inner in statement[1])
        if kind == "charge":
            return self.grammar.measures[statement[1]]
        if kind == "call":
            return self.charge(statement[1], bound[statement[2]])
        if kind == "forall":
            return sum(self.of(statement[3], {statement[1]: part}) for part in bound[statement[2]][1])
        on = bound[statement[1]]
        (form, names), body = statement[2][on[1] - 1 if on[0] == "branch" else 0]
        inside = on[2] if on[0] == "branch" else on
        return self.of(body, {} if form == "nothing" else {names: inside} if form == "whole" else dict(zip(names, inside[1])))

    def row(self, name, n):
        """The count and the total of a procedure at a size."""
        found = self.lister.ordered(self.grammar.procedures[name][1], n)
        return len(found), sum(self.charge(name, structure) for structure in found)


class Maker:
    """Makes a program that keeps all rules. What recurs stands in a product behind an atom, so each structure is larger than its parts."""

    def __init__(self, chance):
        self.chance = chance
        self.labelled = chance.random() < 0.4
        self.kinds = ("sequence", "set", "cycle") if self.labelled else ("sequence", "multiset", "powerset")
        self.types, self.least = {}, {}

    def text(self):
        self.definitions()
        measures = {"m%d" % i: self.chance.choice((0, 1, 1, 2, 7, 10**9)) for i in range(self.chance.randint(1, 3))}
        procedures = self.procedures(list(measures))
        lines = ["labelled;"] if self.labelled else self.chance.choice(([], ["unlabelled;"]))
        lines = lines + ["type %s = %s;" % (name, self.written(e)) for name, e in self.types.items()]
        lines += ["measure %s : %d;" % it for it in measures.items()] + procedures
        return "\n".join(lines + ["analyze p%d;" % self.chance.randrange(len(procedures)) for _ in range(self.chance.randint(1, 2))]) + "\n"

    def definitions(self):
        self.types, self.least = {"z": ("atom", 1), "e": ("atom", 0)}, {"z": 1, "e": 0}
        for i in range(self.chance.randint(1, 3)):
            name = "t%d" % i
            if self.chance.random() < 0.6:
                # a first branch that doesn't recur, and others that do, behind an atom
                base = self.chance.choice("ze")
                self.least[name] = self.least[base]
                recurring = [self.recurring(name) for _ in range(self.chance.randint(1, 2))]
                self.types[name] = ("union", [("name", base)] + recurring)
            else:
                self.types[name], self.least[name] = self.expression(2)

    def recurring(self, name):
        inner = ("name", name)
        if self.chance.random() < 0.4 and self.least[name] > 0:
            inner = (self.chance.choice(self.kinds), inner) + self.bounds()
        elif self.chance.random() < 0.4:
            return ("product", [("name", "z"), inner, ("name", name)])
        return ("product", [("name", "z"), inner])

    def bounds(self):
        low = self.chance.choice((0, 0, 0, 1))
        return low, self.chance.choice((None, None, low + 1, low + 2))

    def expression(self, depth):
        """An expression of what is defined so far, and its least size."""
        form = self.chance.randrange(4) if depth else 0
        if form == 0:
            name = self.chance.choice(list(self.types))
            return ("name", name), self.least[name]
        parts = [self.expression(depth - 1) for _ in range(self.chance.randint(2, 3))]
        if form == 1:
            return ("union", [part for part, _ in parts]), min(least for _, least in parts)
        if form == 2:
            return ("product", [part for part, _ in parts]), sum(least for _, least in parts)
        part, least = parts[0]
        if least == 0:
            part, least = ("name", "z"), 1
        kind, (low, high) = self.chance.choice(self.kinds), self.bounds()
        return (kind, part, low, high), max(low, kind == "cycle") * least

    def written(self, e, inner=False):
        if e[0] == "name":
            return e[1]
        if e[0] == "atom":
            return "epsilon" if e[1] == 0 else "atom(%d)" % e[1]
        if e[0] == "union":
            # a union inside a union has no brackets of its own, so its branches are those of the outer one
            return " | ".join(self.written(part) for part in e[1])
        if e[0] == "product":
            return "product(%s)" % ", ".join(self.written(part) for part in e[1])
        kind, part, low, high = e
        low = max(low, 1) if kind == "cycle" and high is not None else low
        bound = "" if (low, high) == (0, None) else ", card >= %d" % low if high is None else ", card in %d..%d" % (low, high)
        return "%s(%s%s)" % (kind, self.written(part), bound)

    def procedures(self, measures):
        lister = Lister("\n".join(["labelled;" if self.labelled else "unlabelled;"] + ["type %s = %s;" % (n, self.written(e)) for n, e in self.types.items()]) + "\nanalyze x;")
        kinds, on = lister.types.expressions, [self.chance.choice(list(self.types)) for _ in range(self.chance.randint(1, 4))]

        def shape(e):
            while e[0] == "name":
                e = kinds[e[1]]
            return e

        def leads_to(name):
            while kinds[name][0] == "name":
                name = kinds[name][1]
            return name

        def named(e):
            return leads_to(e[1]) if e[0] == "name" else None

        def simple(variables, own, depth):
            """A statement over variables, each with its expression; calls on the parameter itself go to earlier procedures alone."""
            choices = ["skip", self.chance.choice(measures), self.chance.choice(measures)]
            for variable, e in variables.items():
                callees = [i for i, t in enumerate(on) if named(e) == leads_to(t) and (own is None or i < own)]
                choices += ["p%d(%s)" % (i, variable) for i in callees] * 2
            if depth:
                inner = [statement(variables, own, depth - 1) for _ in range(self.chance.randint(0, 3))]
                choices += ["begin %s end" % "; ".join(inner)] * 2
            return self.chance.choice(choices)

        def statement(variables, own, depth):
            if not variables or not depth or self.chance.random() < 0.3:
                return simple(variables, own, depth)
            variable = self.chance.choice(list(variables))
            e = shape(variables[variable])
            if e[0] in COLLECTIONS:
                return "forall u in %s do %s" % (variable, simple({"u": e[1]}, None, depth - 1))
            if e[0] == "union":
                return "case %s of %s end" % (variable, "; ".join(arm(part, depth - 1) for part in e[1]))
            if e[0] == "product":
                return "case %s of %s end" % (variable, arm(e, depth - 1, False))
            return simple(variables, own, depth)

        def arm(e, depth, is_branch=True):
            form, inner = self.chance.random(), shape(e)
            if inner[0] == "product" and form < 0.6:
                names = ["v%d" % i for i in range(len(inner[1]))]
                return "(%s) : %s" % (", ".join(names), simple(dict(zip(names, inner[1])), None, depth))
            if is_branch and form < 0.8:
                return "_ as y : %s" % simple({"y": e}, None, depth)
            return "_ : %s" % simple({}, None, depth)

        found = []
        for i, t in enumerate(on):
            body = [statement({"x": ("name", t)}, i, 3) for _ in range(self.chance.randint(0, 3))]
            found.append("procedure p%d(x : %s); begin %s end;" % (i, t, "; ".join(body)))
        return found

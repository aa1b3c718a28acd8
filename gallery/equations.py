"""The equations of a program as a report writes them, read off its text by a parser of this file: no number is computed here.

The rules are those of docs/MODEL.md, "The equations of a program"."""
import re

TOKEN = re.compile(r"[A-Za-z][A-Za-z0-9_]*|\d+|<=|>=|\.\.|[;,=|():_]")
COLLECTIONS = {"sequence": "Seq", "set": "Set", "cycle": "Cyc", "multiset": "MSet", "powerset": "PSet"}


class Reader:
    """Reads a program: its types and its procedures, as written."""

    def __init__(self, source):
        self.tokens, self.at = TOKEN.findall(re.sub(r"%[^\n]*", "", source)), 0
        self.universe = self.next() if self.tokens[0] in ("labelled", "unlabelled") else "unlabelled"
        self.take(";")
        self.types, self.measures, self.procedures, self.analyses = {}, {}, {}, []
        while self.take("type"):
            names = self.names()
            self.want("=")
            right = self.expression()
            self.types.update((name, right) for name in names)
            self.want(";")
        while self.take("measure"):
            names = self.names()
            self.want(":")
            value = int(self.next())
            self.measures.update((name, value) for name in names)
            self.want(";")
        while self.take("procedure"):
            self.procedure()
        while self.at < len(self.tokens) and self.take("analyze"):
            self.analyses.append(self.next())
            self.want(";")

    def next(self):
        self.at += 1
        return self.tokens[self.at - 1]

    def take(self, token):
        if self.tokens[self.at] != token:
            return False
        self.at += 1
        return True

    def want(self, token):
        assert self.take(token), "%r where %r was expected" % (self.tokens[self.at], token)

    def names(self):
        found = [self.next()]
        while self.take(","):
            found.append(self.next())
        return found

    def listed(self, item):
        found = [item()]
        while self.take(","):
            found.append(item())
        self.want(")")
        return found

    def expression(self):
        parts = [self.term()]
        while self.take("|"):
            parts.append(self.term())
        return parts[0] if len(parts) == 1 else ("union", parts)

    def term(self):
        word = self.next()
        if word == "epsilon":
            return ("atom", 0)
        if word == "atom":
            self.want("(")
            weight = int(self.next())
            self.want(")")
            return ("atom", weight)
        if word == "product":
            self.want("(")
            return ("product", self.listed(self.expression))
        if word in COLLECTIONS:
            self.want("(")
            component = self.expression()
            low, high = self.bounds() if self.take(",") else (0, None)
            self.want(")")
            return (word, component, low, high)
        return ("name", word)

    def bounds(self):
        self.want("card")
        sign, number = self.next(), int(self.next())
        if sign == "in":
            self.want("..")
            return number, int(self.next())
        return {"=": (number, number), "<=": (0, number), ">=": (number, None)}[sign]

    def procedure(self):
        name = self.next()
        self.want("(")
        parameter = self.next()
        self.want(":")
        kind = self.next()
        self.want(")")
        result = self.next() if self.take(":") else None
        self.want(";")
        self.procedures[name] = (parameter, kind, self.value() if result else self.block())
        self.want(";")

    def block(self):
        self.want("begin")
        found = []
        while not self.take("end"):
            found.append(self.statement())
            self.take(";")
        return ("block", found)

    def statement(self):
        word = self.tokens[self.at]
        if word == "begin":
            return self.block()
        self.next()
        if word == "skip":
            return ("block", [])
        if word == "forall":
            variable = self.next()
            self.want("in")
            over = self.next()
            self.want("do")
            return ("forall", variable, over, self.statement())
        if word == "case":
            return self.case(self.statement)
        if self.take("("):
            variable = self.next()
            self.want(")")
            return ("call", word, variable)
        return ("charge", word)

    def case(self, inside):
        over, arms = self.next(), []
        self.want("of")
        while not self.take("end"):
            pattern = self.pattern()
            self.want(":")
            arms.append((pattern, inside()))
            self.take(";")
        return ("case", over, arms)

    def pattern(self):
        """The names bound: a list for the parts, one name for the whole, None for nothing."""
        if self.take("("):
            return self.listed(self.next)
        self.next()
        if self.take("as"):
            return self.next()
        return self.listed(self.next) if self.take("(") else None

    def value(self):
        word = self.next()
        if word.isdigit():
            self.want(":")
            return self.value()
        if word == "(":
            found = self.value()
            self.want(")")
            return found
        if word == "product":
            self.want("(")
            return ("block", self.listed(self.value))
        if word == "case":
            return self.case(self.value)
        if word == "atom":
            return ("block", [])
        if self.take("("):
            variable = self.next()
            self.want(")")
            return ("call", word, variable)
        return ("charge", word) if self.take("atom") else ("block", [])


# An expression is a number, a word, ("sum", terms) or ("product", factors).


def sum_of(terms):
    flat = [t for term in terms for t in (term[1] if isinstance(term, tuple) and term[0] == "sum" else [term]) if t != 0]
    return 0 if not flat else flat[0] if len(flat) == 1 else ("sum", flat)


def product_of(factors):
    flat = [f for factor in factors for f in (factor[1] if isinstance(factor, tuple) and factor[0] == "product" else [factor])]
    flat = [factor for factor in flat if factor != 1]
    if 0 in flat:
        return 0
    return 1 if not flat else flat[0] if len(flat) == 1 else ("product", flat)


def text(e):
    if not isinstance(e, tuple):
        return str(e)
    if e[0] == "sum":
        return " + ".join(map(text, e[1]))
    return "*".join("(%s)" % text(f) if isinstance(f, tuple) and f[0] == "sum" else text(f) for f in e[1])


class Equations:
    """The lines of the equations of a program."""

    def __init__(self, source):
        self.program = Reader(source)

    def series(self, e):
        """What a type expression is written as."""
        if e[0] == "name":
            return "%s(z)" % e[1]
        if e[0] == "atom":
            return 1 if e[1] == 0 else "z" if e[1] == 1 else "z^%d" % e[1]
        if e[0] in ("union", "product"):
            return (sum_of if e[0] == "union" else product_of)([self.series(part) for part in e[1]])
        kind, component, low, high = e
        low = max(low, 1) if kind == "cycle" else low
        if high is not None:
            bound = ", k=%d" % low if low == high else ", k<=%d" % high if low == (kind == "cycle") else ", k in %d..%d" % (low, high)
        else:
            bound = "" if low == (kind == "cycle") else ", k>=%d" % low
        return "%s[%s%s]" % (COLLECTIONS[kind], text(self.series(component)), bound)

    def construct(self, e):
        """An expression with names followed to a construct."""
        while e[0] == "name":
            e = self.program.types[e[1]]
        return e

    def descriptor(self, statement, scope, whole):
        """What a statement is written as where `scope` has the type of each variable, and all together are `whole`."""
        own, terms = self.items(statement, scope)
        return sum_of([product_of([own, whole])] + terms)

    def items(self, statement, scope):
        """What a statement charges itself, and the terms of its items."""
        kind = statement[0]
        if kind == "charge":
            return self.program.measures[statement[1]], []
        if kind == "block":
            found = [self.items(inside, scope) for inside in statement[1]]
            return sum(own for own, _ in found), [term for _, terms in found for term in terms]
        if kind == "call":
            over, it = statement[2], "tau[%s](z)" % statement[1]
        elif kind == "case":
            over, it = statement[1], self.case(statement, scope)
        else:
            _, variable, over, body = statement
            collection = self.construct(scope[over])
            component = collection[1]
            inside = self.descriptor(body, {variable: component}, self.series(component))
            it = "Point[%s; %s]" % (text(self.series(collection)), text(inside)) if inside != 0 else 0
        # the factors keep their places: what is done on one is where it was, beside the others
        return 0, [product_of([it] + [self.series(e) for name, e in scope.items() if name != over])]

    def case(self, statement, scope):
        _, over, arms = statement
        looked = self.construct(scope[over])
        if looked[0] == "product":
            pattern, body = arms[0]
            bound = dict(zip(pattern, looked[1])) if pattern else {}
            return self.descriptor(body, bound, self.series(looked) if pattern else self.series(scope[over]))
        terms = []
        for (pattern, body), branch in zip(arms, looked[1]):
            bound, whole = {}, self.series(branch)
            if isinstance(pattern, list):
                inside = self.construct(branch)
                bound, whole = dict(zip(pattern, inside[1])), self.series(inside)
            elif pattern:
                bound = {pattern: branch}
            terms.append(self.descriptor(body, bound, whole))
        return sum_of(terms)

    def lines(self):
        found = ["universe %s" % self.program.universe]
        found += ["%s(z) = %s" % (name, text(self.series(e))) for name, e in self.program.types.items()]
        for name, (parameter, kind, body) in self.program.procedures.items():
            whole = ("name", kind)
            found.append("tau[%s](z) = %s" % (name, text(self.descriptor(body, {parameter: whole}, self.series(whole)))))
        return found

    def heads(self):
        """The line above the rows of each analyze line."""
        return ["analyze %s on %s" % (name, self.program.procedures[name][1]) for name in self.program.analyses]

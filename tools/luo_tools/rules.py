"""Each rule in one sentence, with a right and a wrong example as docs/LANGUAGE.md has them."""

from __future__ import annotations

from dataclasses import dataclass


@dataclass(frozen=True)
class Rule:
    """A rule of the language: its sentence, a wrong text and a right one. The texts are parts of programs."""

    sentence: str
    wrong: str = ""
    right: str = ""


RULES = {
    "G1": Rule(
        "Outside comments a text is made of names, numbers, spaces and the marks ; , = | ( ) <= >= .. : _ alone.",
        "type a = . epsilon;",
        "type a = epsilon;",
    ),
    "G2": Rule("The tokens of a text have to be a program by the grammar; up to this place some program begins so."),
    "Y1": Rule(
        "A name is defined once, and a variable stands once in a pattern.",
        "type z = atom(1); type z = epsilon;",
        "type z = atom(1); type y = epsilon;",
    ),
    "Y2": Rule(
        "A name that is used is defined.",
        "type t = product(y, y);",
        "type t = product(y, y); type y = epsilon;",
    ),
    "Y3": Rule(
        "A name is used as what it is, a type, a measure or a procedure.",
        "measure m : 1; procedure p(x : m); begin m end;",
        "measure m : 1; procedure p(x : z); begin m end;",
    ),
    "Y4": Rule(
        "Definitions that are names don't lead back to themselves.",
        "type a = b; type b = a;",
        "type a = b; type b = epsilon;",
    ),
    "Y5": Rule(
        "Sets have labels, and multisets and powersets have none.",
        "type s = set(z);",
        "labelled; type s = set(z);",
    ),
    "Y6": Rule("Cycles have labels.", "type c = cycle(z);", "labelled; type c = cycle(z);"),
    "Y7": Rule(
        "The low bound isn't above the high one; a cycle has at least one component; the low bound of a powerset is at most 1.",
        "type p = powerset(z, card >= 2);",
        "type p = powerset(z, card >= 1);",
    ),
    "Y8": Rule(
        "A weight is at most 16, and in the labelled universe at most 1.",
        "type z = atom(17);",
        "type z = atom(16);",
    ),
    "Y9": Rule(
        "An argument is of the parameter's type: both lead to the same construct of one definition.",
        "procedure p(x : z); begin q(x) end; procedure q(y : w); begin end;",
        "procedure p(x : z); begin p(x) end;",
    ),
    "Y10": Rule(
        "A case is on a union, with an arm for each branch, or on a product, with one arm.",
        "case x of z : skip end",
        "case x of z : skip; z : skip end",
    ),
    "Y11": Rule(
        "A pattern fits: arm i of a case on a union is for branch i, whatever its name is.",
        "case x of (a, b) : skip; z : skip end",
        "case x of z : skip; (a, b) : skip end",
    ),
    "Y12": Rule(
        "A walk goes over a collection.",
        "forall u in x do skip",
        "forall u in x do skip",
    ),
    "Y13": Rule(
        "A variable is bound by the innermost scope: an arm sees what its pattern binds, a walk's body sees the walk's variable.",
        "case x of _ as y : p(x); z : skip end",
        "case x of _ as y : p(y); z : skip end",
    ),
    "Y14": Rule(
        "A program with labels has no procedure with a result.",
        "labelled; procedure f(x : z) : z; x;",
        "procedure f(x : z) : z; x;",
    ),
    "Y15": Rule(
        "A value is of the type that is expected.",
        "procedure f(x : z) : t; product(x, atom);",
        "procedure f(x : z) : t; 2 : product(x, atom);",
    ),
    "W1": Rule(
        "Every node has some structure: a recursion needs a branch that ends it.",
        "type t = product(z, t);",
        "type t = z | product(z, t);",
    ),
    "W2": Rule(
        "The components of a collection aren't empty: none has size 0.",
        "type s = sequence(sequence(z));",
        "type s = sequence(sequence(z, card >= 1));",
    ),
    "W3": Rule(
        "No structure holds another of its own size of the same node, and so on for ever.",
        "type t = z | product(epsilon, t);",
        "type t = z | product(z, t);",
    ),
    "W4": Rule(
        "No procedure calls itself on its own parameter, directly or through others.",
        "procedure p(x : z); begin p(x) end;",
        "procedure p(x : t); begin case x of z : skip; (a, b) : p(b) end end;",
    ),
    "U1": Rule("The word names a procedure (run) or a type (list) of the program."),
    "S1": Rule("The word has to be the text of a structure, without spaces.", "2:(a1)", "2:(a1,a1)"),
    "S2": Rule(
        "The text has to be that of a structure of the parameter's type, with branch numbers, order and labels.",
        "3:a1",
        "1:a1",
    ),
    "S3": Rule("A structure that `run` takes has at most size 40."),
}

LIMITS = {
    "name": "A name has at most 32 bytes.",
    "number": "A number is at most 10^35.",
    "depth": "At most 32 of `(`, `begin` and `case` may be open at one place.",
    "definitions": "A program defines at most 64 names of types, each name of a definition counted.",
    "nodes": "The right sides have at most 128 atoms, unions, products and collections, each copy counted for itself.",
    "parts": "A union has at most 64 branches, a product at most 64 factors.",
    "bounds": "The numbers of a bound are at most 100.",
    "multisets": "A program has at most 32 multisets and powersets.",
    "procedures": "A program has at most 64 procedures.",
    "statements": "A program has at most 1,024 statements and parts of values.",
    "analyses": "A program has at most 16 analyze lines.",
    "walks": "At most 32 walks go over multisets and powersets.",
    "size": "`analyse` and `sample` take sizes up to 160, `list` and `audit` up to 40.",
    "text": "The text of a structure has at most 65,536 bytes.",
    "bytes": "A file has at most 65,536 bytes.",
    "nesting": "The text of a structure nests at most 1,000 deep.",
    "count": "One `list` writes at most 100,000 structures; START says where the next begins.",
    "workers": "An audit has 1 to 16 workers.",
    "structures": "An audit walks at most 4,000,000 structures of one size; a smaller N has fewer.",
}

OTHERS = {
    "usage": "The words are the form of no command: analyse FILE N, format FILE, run FILE PROC STRUCTURE, "
    "list FILE TYPE N START COUNT, audit FILE N WORKERS, sample NUMBER N; numbers have no sign and no zero before them.",
    "read fault": "The file isn't there, is a folder, or can't be read.",
    "write fault": "Standard output took not all of it.",
    "no memory": "Memory was refused.",
    "overflow": "No number may be above 2^127 - 1: this is the first that is; a smaller N may do.",
}

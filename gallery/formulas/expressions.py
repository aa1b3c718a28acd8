"""Expressions and rewriting."""
from .numbers import catalan, comb, motzkin
from . import Chapter

CHAPTER = Chapter(8, "expressions", "Expressions and rewriting", "Programs on expressions, and procedures that return what they build; an "
                  "atom that is built is charged by the measure before it.")


def convolved(*lists):
    """The coefficients of the product of series of one length."""
    found = lists[0]
    for other in lists[1:]:
        found = [sum(found[k] * other[m - k] for k in range(m + 1)) for m in range(len(found))]
    return found


def path_length(n):
    """The internal path length of all binary trees of n nodes."""
    return 4 ** n - (3 * n + 1) * catalan(n)


def differentiation(n):
    """e(n) = 3 [n = 1] + e(n-1) + 2 (e * e)(n-1); copies are n e(n); and d(n) by the last operation: a sum 1 and both derivatives, a
    product 3, both copies and both derivatives, an exponential 2, the copy and the derivative."""
    e, d = [0], [0]
    for m in range(1, n + 1):
        pairs = convolved(e, e)[m - 1]
        sides = 2 * convolved(e, d)[m - 1]
        copies = (m - 1) * pairs
        new = 3 * (m == 1) + e[m - 1] + 2 * pairs
        d.append(3 * (m == 1) + pairs + sides + 3 * pairs + copies + sides + 2 * e[m - 1] + (m - 1) * e[m - 1] + d[m - 1])
        e.append(new)
    return e[n], d[n]


@CHAPTER.add("diff", 8, "How many steps does symbolic differentiation take on expressions of n symbols, copies included?",
             "By the last operation, with e(n) expressions and n e(n) symbols in their copies: e(n) = e(n-1) + 2 sum of e(k) e(n-1-k), "
             "computed here.",
             "Copying makes the cost grow as n^(3/2): subtrees are copied once for each product above.", example=True)
def diff(n):
    return differentiation(n)


@CHAPTER.add("sym", 8, "The same, with procedures that return the derivative.",
             "The numbers of `diff`, computed here.",
             "Where each atom that is made charges 1, the charge is the size of the derivative, which `luo run` prints.", example=True)
def sym(n):
    return differentiation(n)


@CHAPTER.add("mirror", 16, "How many nodes are built to mirror a binary tree?",
             "C(n) trees, A000108; n C(n) nodes: the whole tree is built anew.",
             "`make atom` builds an atom and charges the measure make.")
def mirror(n):
    return catalan(n), n * catalan(n)


@CHAPTER.add("evaluate", 21, "What does it cost to evaluate an expression where a sum costs 1 and a product 3?",
             "For n = 2k + 1 there are 2^k C(k) expressions, each of k operations; 2 is the mean cost of one.",
             "Even sizes have no expression: their average is `-`.")
def evaluate(n):
    k = n // 2
    return (2 ** k * catalan(k), 2 * k * 2 ** k * catalan(k)) if n % 2 else (0, 0)


@CHAPTER.add("product_rule", 21, "How many symbols does the derivative have by the product rule alone, with copies?",
             "For n = 2k + 1: (k+1) C(k) leaves cost 1, k C(k) nodes cost 3, and the copies are the path length over all nodes, "
             "2 P(k) + 2k C(k), with P(k) = 4^k - (3k+1) C(k), as for `tree`.",
             "This is `diff` at its simplest: its cost is a path length, so n^(3/2) is no wonder.")
def product_rule(n):
    k = n // 2
    return (catalan(k), (k + 1 + 5 * k) * catalan(k) + 2 * path_length(k)) if n % 2 else (0, 0)


@CHAPTER.add("negations", 16, "How large are expressions after all signs are pushed down to the variables and pairs of signs removed?",
             "Motzkin numbers M(n-1), A001006, with V(n) variables in all, central trinomial coefficients A002426. The variables below an "
             "even number of signs less the others: D(n) = [n=1] - D(n-1) + 2 sum of M(i-1) D(n-1-i). The result has a symbol for each sum "
             "and variable, and one for each of the (V - D)/2 variables that keep a sign; computed here.",
             "Two procedures with a result, which call each other at each sign.")
def negations(n):
    if not n:
        return 0, 0
    trees = [0] + [motzkin(m - 1) for m in range(1, n + 1)]
    signed = [0]
    for m in range(1, n + 1):
        signed.append(int(m == 1) - signed[m - 1] + 2 * sum(trees[i] * signed[m - 1 - i] for i in range(m)))
    variables = sum(comb(n - 1, 2 * k) * comb(2 * k, k) for k in range((n + 1) // 2))
    sums = variables - trees[n]
    return trees[n], variables + sums + (variables - signed[n]) // 2


@CHAPTER.add("double", 20, "How many letters are built to write each letter of a word twice?",
             "2^n words, A000079; 2n letters each.",
             "A value may call one procedure twice on one variable.")
def double(n):
    return 2 ** n, 2 * n * 2 ** n


@CHAPTER.add("reverse", 20, "What does it cost to reverse a list by appending each letter to the reversed rest?",
             "n (n-1)/2 steps for each of 2^n words, A000217.",
             "A call on a part beside a walk of that part is a quadratic cost.")
def reverse(n):
    return 2 ** n, n * (n - 1) // 2 * 2 ** n


@CHAPTER.add("parentheses", 21, "How many signs does an expression print with a pair of brackets around each inner operation but the outermost?",
             "For n = 2k + 1, C(k) expressions; n signs and 2 (k-1) brackets each, for k at least 1.",
             "One procedure for the outermost level, one for all below.")
def parentheses(n):
    k = n // 2
    return (catalan(k), (n + 2 * max(k - 1, 0)) * catalan(k)) if n % 2 else (0, 0)

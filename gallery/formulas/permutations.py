"""Permutations by their cycles."""
from functools import lru_cache

from .numbers import comb, factorial, labelled
from . import Chapter

CHAPTER = Chapter(3, "permutations", "Permutations", "A permutation is a set of cycles; what is asked of its cycles becomes a bound or a "
                  "union.")
BY_LAST = "By the cycle of the label n: a(n) = sum of (n-1)!/(n-k)! a(n-k), and t(n) likewise with t(n-k) + a(n-k), over the lengths k"


def cycles(allowed, most):
    return labelled(lambda k: factorial(k - 1) if allowed(k) else 0, most)


def harmonic(n):
    """n! times the n-th harmonic number."""
    return sum(factorial(n) // k for k in range(1, n + 1))


@CHAPTER.add("perm", 33, "How many cycles do the permutations of n points have?",
             "n! permutations, A000142; unsigned Stirling numbers of the first kind c(n+1, 2), A000254: n! H(n) (Knuth, The Art of "
             "Computer Programming, volume 1, 1968, 1.2.10).",
             "By Foata's correspondence the same numbers count left-to-right minima: how often a search for the minimum is updated.",
             example=True)
def perm(n):
    return factorial(n), harmonic(n)


@CHAPTER.add("derangements", 12, "How many cycles do permutations without fixed points have?",
             "A000166; associated Stirling numbers d(n, k) = (n-1) (d(n-1, k) + d(n-2, k-1)) (Comtet, Advanced Combinatorics, 1974).",
             "A share of 1/e of all permutations; nearly one cycle fewer each.", example=True)
def derangements(n):
    @lru_cache(None)
    def d(m, k):
        if m < 1 or k < 1:
            return int(m == k == 0)
        return (m - 1) * (d(m - 1, k) + d(m - 2, k - 1))
    ways = [d(n, k) for k in range(n + 1)]
    return sum(ways), sum(k * w for k, w in enumerate(ways))


@CHAPTER.add("involutions", 12, "How many fixed points do involutions have?",
             "I(n) = I(n-1) + (n-1) I(n-2), A000085; n I(n-1) fixed points.",
             "The average is near the square root of n (Knuth, volume 3, 1973, 5.1.4).", example=True)
def involutions(n):
    found = [1, 1]
    for m in range(2, n + 1):
        found.append(found[-1] + (m - 1) * found[-2])
    return found[n], n * found[n - 1] if n else 0


@CHAPTER.add("fixed", 20, "How many fixed points do the permutations of n points have?",
             "n! permutations and n! fixed points: each of the n points is fixed by (n-1)! of them.",
             "One fixed point on the average, at every size but 0.")
def fixed(n):
    return factorial(n), factorial(n) if n else 0


@CHAPTER.add("no_pairs", 18, "How many cycles do permutations without a cycle of length 2 have?",
             "A000266. " + BY_LAST + " other than 2.",
             "The share of all permutations tends to e^(-1/2).")
def no_pairs(n):
    counts, totals = cycles(lambda k: k != 2, n)
    return counts[n], totals[n]


@CHAPTER.add("cube_roots", 18, "How many cycles do permutations have whose third power is the identity?",
             "A001470: a(n) = a(n-1) + (n-1) (n-2) a(n-3). With j cycles of length 3 there are n! / ((n-3j)! 3^j j!).",
             "Such a union of lengths is how powers are forbidden or asked for.")
def cube_roots(n):
    ways = [factorial(n) // (factorial(n - 3 * j) * 3 ** j * factorial(j)) for j in range(n // 3 + 1)]
    return sum(ways), sum((n - 2 * j) * w for j, w in enumerate(ways))


@CHAPTER.add("two_cycles", 18, "How many permutations have exactly two cycles, and how many points are on them?",
             "c(n, 2) = (n-1)! H(n-1), A000254; n points each.",
             "The counts here are the totals of `perm` one size later.")
def two_cycles(n):
    count = harmonic(n - 1) if n else 0
    return count, n * count


@CHAPTER.add("ordered_cycles", 18, "Cycles in a row: how many are there of n points, and how many cycles?",
             "A007840: the sums of k! c(n, k), and of k k! c(n, k), with unsigned Stirling numbers of the first kind.",
             "About n / (e - 1) cycles, where a set of cycles has log n: order makes many small cycles likely.")
def ordered_cycles(n):
    @lru_cache(None)
    def c(m, k):
        if m < 1 or k < 1:
            return int(m == k == 0)
        return c(m - 1, k - 1) + (m - 1) * c(m - 1, k)
    ways = [factorial(k) * c(n, k) for k in range(n + 1)]
    return sum(ways), sum(k * w for k, w in enumerate(ways))


@CHAPTER.add("matchings", 18, "How many perfect matchings are there of n points?",
             "1 3 5 .. (n-1) for even n, A001147, and none for odd n; n/2 chords each.",
             "Where the count is 0 the average is `-`.")
def matchings(n):
    count = 0 if n % 2 else factorial(n) // (2 ** (n // 2) * factorial(n // 2))
    return count, n // 2 * count


@CHAPTER.add("two_colours", 18, "How many cycles do permutations have whose cycles are red or blue?",
             "(n+1)! permutations: 2 3 .. (n+1), the value at u = 2 of the product of the u + i; its derivative, times u, gives the cycles.",
             "The average is twice the sum of 1/2, 1/3, .., 1/(n+1).")
def two_colours(n):
    return factorial(n + 1), sum(2 * factorial(n + 1) // (i + 2) for i in range(n))


@CHAPTER.add("long_cycles", 18, "How many cycles do permutations have all of whose cycles have at least four points?",
             BY_LAST + " from 4 on; computed here.",
             "The share of all permutations tends to e^(-11/6), by 1 + 1/2 + 1/3.")
def long_cycles(n):
    counts, totals = cycles(lambda k: k >= 4, n)
    return counts[n], totals[n]

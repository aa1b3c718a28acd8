"""Integer partitions and compositions."""
from functools import lru_cache

from .numbers import comb, fibonacci, multisets
from . import Chapter

CHAPTER = Chapter(5, "integer-partitions", "Integer partitions and compositions", "Sequences of parts are compositions, multisets are "
                  "partitions, powersets are partitions into distinct parts.")
EULER = "Euler's recurrence: n a(n) = sum of sigma(k) a(n-k), where sigma(k) is the sum of the divisors d of k, each as often as there " \
        "are parts d; parts: sum of tau(k) a(n-k), with the number of such divisors (Andrews, The Theory of Partitions, 1976)"


def of(kinds, n):
    counts, totals = multisets(kinds, n)
    return counts[n], totals[n]


@CHAPTER.add("parts", 20, "How many parts do the partitions of n have?", "A000041; A006128. " + EULER + ".",
             "The average grows as sqrt(n) log n.", example=True)
def parts(n):
    return of(lambda k: 1, n)


@CHAPTER.add("distinct", 20, "How many parts do the partitions of n into distinct parts have?",
             "A000009; A015723. With k parts: q(n, k) = q(n-k, k) + q(n-k, k-1), taking 1 from each part.",
             "A powerset in place of a multiset.", example=True)
def distinct(n):
    @lru_cache(None)
    def q(m, k):
        if m <= 0 or k <= 0:
            return int(m == k == 0)
        return q(m - k, k) + q(m - k, k - 1)
    ways = [q(n, k) for k in range(n + 1)]
    return sum(ways), sum(k * w for k, w in enumerate(ways))


@CHAPTER.add("compositions", 20, "How many parts do the compositions of n have?",
             "2^(n-1) compositions, A000079; (n+1) 2^(n-2) parts, A001792: of the n - 1 places between units each is a cut or not.",
             "The average (n+1)/2 is exact.")
def compositions(n):
    return (2 ** (n - 1), (n + 1) * 2 ** (n - 1) // 2) if n else (1, 0)


@CHAPTER.add("odd_compositions", 20, "How many parts do the compositions of n into odd parts have?",
             "Fibonacci numbers F(n), A000045, for n at least 1; with k parts C((n+k)/2 - 1, k - 1), where n + k is even.",
             "An odd part is a unit and a sequence of twos.")
def odd_compositions(n):
    ways = [comb((n + k) // 2 - 1, k - 1) if (n + k) % 2 == 0 else 0 for k in range(1, n + 1)]
    return (fibonacci(n) if n else 1), sum(k * w for k, w in enumerate(ways, 1))


@CHAPTER.add("compositions_of_four", 20, "How many compositions of n have four parts?",
             "C(n-1, 3), the tetrahedral numbers A000292; the parts of each sum to n.",
             "Stars and bars.")
def compositions_of_four(n):
    count = comb(n - 1, 3) if n else 0
    return count, n * count


@CHAPTER.add("at_most_three", 30, "How many parts do the partitions of n into at most three parts have?",
             "The integer nearest to (n+3)^2 / 12, A001399; with one part 1 for n at least 1, with two floor(n/2), with three "
             "the rest.",
             "Exact rounding: the counts are a quadratic and a small periodic part.")
def at_most_three(n):
    count = ((n + 3) ** 2 + 6) // 12
    one, two = int(n > 0), n // 2
    three = count - one - two - (n == 0)
    return count, one + 2 * two + 3 * three


@CHAPTER.add("odd_parts", 20, "How many parts do the partitions of n into odd parts have?",
             "A000009, as many as into distinct parts (Euler). " + EULER + "; here d is odd.",
             "The same counts as `distinct`, and more parts: Euler's bijection doesn't keep them.")
def odd_parts(n):
    return of(lambda k: k % 2, n)


@CHAPTER.add("coins", 40, "In how many ways is n paid by coins of 1, 2, 5 and 10, and with how many coins?",
             "By tens, fives and twos in turn, the rest in ones (Pólya, On picture-writing, 1956, for such problems); computed here.",
             "Atoms of weight up to 16 are coins.")
def coins(n):
    found = [(n - 10 * a - 5 * b - 2 * c) + a + b + c for a in range(n // 10 + 1) for b in range((n - 10 * a) // 5 + 1)
             for c in range((n - 10 * a - 5 * b) // 2 + 1)]
    return len(found), sum(found)


@CHAPTER.add("two_kinds", 20, "How many parts do the partitions of n into red and blue parts have?",
             "A000712. " + EULER + ".", "`red, blue = ..` makes two types with one right side.")
def two_kinds(n):
    return of(lambda k: 2, n)


@CHAPTER.add("plane_partitions", 20, "Partitions in which a part k comes in k kinds: how many parts?",
             "As many as plane partitions of n, A000219 (MacMahon, Combinatory Analysis, 1916). " + EULER + ".",
             "A part k with a mark on one of its k units: a product of a unit and two sequences.")
def plane_partitions(n):
    return of(lambda k: k, n)


@CHAPTER.add("marked_ones", 20, "How many ones do the partitions of n have?",
             "p(n) partitions, A000041; p(0) + .. + p(n-1) ones, A000070 (Stanley's theorem says: as many as there are different parts).",
             "A union inside a multiset tells one kind of part from the rest.")
def marked_ones(n):
    counts, _ = multisets(lambda k: 1, n)
    return counts[n], sum(counts[:n])

"""Set partitions and surjections."""
from functools import lru_cache

from .numbers import comb, factorial, labelled, stirling2
from . import Chapter

CHAPTER = Chapter(4, "set-partitions", "Set partitions and surjections", "Sets of sets, sequences of sets and sets of sequences, over "
                  "labels.")
BY_LAST = "By the block of the label n: a(n) = sum of C(n-1, k-1) a(n-k), and t(n) likewise with t(n-k) + a(n-k), over the sizes k"


def sums(ways):
    return sum(ways), sum(k * w for k, w in enumerate(ways))


@CHAPTER.add("blocks", 12, "How many blocks do the partitions of n points have?",
             "Bell numbers B(n), A000110; B(n+1) - B(n) (Comtet, Advanced Combinatorics, 1974).",
             "Near n / log n blocks.", example=True)
def blocks(n):
    return sums([stirling2(n, k) for k in range(n + 1)])


@CHAPTER.add("surjections", 12, "How many images do the surjections from n points have?",
             "Sums of k! S(n, k), A000670, and of k k! S(n, k), A069321, with Stirling numbers of the second kind.",
             "Near n / (2 log 2) images: order makes blocks small.", example=True)
def surjections(n):
    return sums([factorial(k) * stirling2(n, k) for k in range(n + 1)])


@CHAPTER.add("no_singletons", 18, "How many blocks do partitions without blocks of one point have?",
             "A000296. " + BY_LAST + " from 2 on.",
             "a(n) + a(n+1) is the Bell number B(n).")
def no_singletons(n):
    counts, totals = labelled(lambda k: int(k > 1), n)
    return counts[n], totals[n]


@CHAPTER.add("small_blocks", 18, "How many blocks do partitions have whose blocks have at most three points?",
             "A001680. " + BY_LAST + " up to 3.",
             "`card in 1..3` bounds the size of a block.")
def small_blocks(n):
    counts, totals = labelled(lambda k: int(k < 4), n)
    return counts[n], totals[n]


@CHAPTER.add("two_blocks", 20, "Partitions into two blocks: how often is a block a single point?",
             "S(n, 2) = 2^(n-1) - 1 partitions, A000225; n single points for n at least 3, and 2 for n = 2.",
             "The chance falls as n / 2^(n-1).")
def two_blocks(n):
    return (2 ** (n - 1) - 1, 2 if n == 2 else n) if n > 1 else (0, 0)


@CHAPTER.add("three_blocks", 20, "How many partitions have exactly three blocks?",
             "S(n, 3) = (3^(n-1) - 2^n + 1) / 2, A000392; three blocks each.",
             "A bound on the outer set fixes the number of blocks.")
def three_blocks(n):
    count = (3 ** (n - 1) - 2 ** n + 1) // 2 if n else 0
    return count, 3 * count


@CHAPTER.add("lists", 18, "n people form queues: how many ways, and how many queues?",
             "A000262; with k queues Lah numbers C(n-1, k-1) n!/k! (Riordan, An Introduction to Combinatorial Analysis, 1958).",
             "Near the square root of n queues.")
def lists(n):
    return sums([comb(n - 1, k - 1) * factorial(n) // factorial(k) if k else int(n == 0) for k in range(n + 1)])


@CHAPTER.add("coloured", 18, "How many blocks do partitions have whose blocks are red or blue?",
             "A001861: the sums of 2^k S(n, k), and of k 2^k S(n, k).",
             "More colours make more blocks likely: compare with `blocks`.")
def coloured(n):
    return sums([2 ** k * stirling2(n, k) for k in range(n + 1)])


@CHAPTER.add("twice", 16, "Partitions of the blocks of a partition: how many inner blocks?",
             "A000258: the sums of S(n, k) B(k), and of k S(n, k) B(k), with Bell numbers B.",
             "Three sets, one in another, with a walk in a walk.")
def twice(n):
    return sums([stirling2(n, k) * sum(stirling2(k, j) for j in range(k + 1)) for k in range(n + 1)])


@CHAPTER.add("boxes", 20, "n balls are thrown into three boxes: how many fall into the first?",
             "3^n ways, A000244; n 3^(n-1) balls.",
             "A third of the balls; a product of sets is a function to the boxes.")
def boxes(n):
    return 3 ** n, n * 3 ** n // 3


@CHAPTER.add("onto_three", 20, "How many maps onto three points are there, and how many points do they map?",
             "3! S(n, 3) = 3^n - 3 2^n + 3 for n at least 1; n points each.",
             "Inclusion and exclusion, which luo never does, gives the same numbers.")
def onto_three(n):
    count = 3 ** n - 3 * 2 ** n + 3 if n else 0
    return count, n * count


@lru_cache(None)
def ward(n, k):
    """Total partitions: trees of n + 1 leaves and k forks."""
    if n < 1 or k < 1:
        return int(n == k == 0)
    return k * ward(n - 1, k) + (n + k - 1) * ward(n - 1, k - 1)


@CHAPTER.add("phylogenies", 16, "How many forks do trees with n labelled leaves have, where each fork has two children or more?",
             "Schröder's fourth problem, A000311; with k forks Ward numbers, W(n, k) = k W(n-1, k) + (n+k-1) W(n-1, k-1) (Ward, The "
             "representation of Stirling's numbers and Stirling's polynomials as sums of factorials, 1934).",
             "A type that leads to itself through a set, with leaves alone for its size.")
def phylogenies(n):
    return sums([ward(n - 1, k) for k in range(n)]) if n else (0, 0)

"""Sorting and searching."""
from .numbers import catalan, comb, factorial
from .expressions import convolved
from . import Chapter

CHAPTER = Chapter(9, "sorting", "Sorting and searching", "Lists, buckets, tries and search trees. The search tree of a random permutation "
                  "needs the least label at the root, which luo can't ask for; `quicksort` shows a way round it.")


@CHAPTER.add("quicksort", 18, "How many comparisons does quicksort make on all permutations of n keys?",
             "The totals: n! (2 (n+1) H(n) - 4n), with n-1 comparisons to partition (Hoare, Quicksort, 1962; Knuth, The Art of Computer "
             "Programming, volume 3, 1973, 5.2.2). The recurrence c(n) = n - 1 + (2/n) (c(0) + .. + c(n-1)) has the exponential series "
             "2 (log 1/(1-z) - z) / (1-z)^2: a ring of two keys or more beside two queues, and 2 for each.",
             "Divide the total, not the count, by n!: the average of the report is 2 by the way these structures are made.")
def quicksort(n):
    h = sum(factorial(n) // k for k in range(1, n + 1))
    total = 2 * (n + 1) * h - 4 * n * factorial(n)
    return total // 2, total


@CHAPTER.add("insertion", 10, "Permutations of five keys by their inversions: how many keys stay in place at insertion?",
             "The row of Mahonian numbers for 5, A008302: coefficients of (1+z) (1+z+z^2) .. (1+z+..+z^4) (Knuth, The Art of Computer Programming, "
             "volume 3, 1973, 5.1.1); for the keys that stay each factor in turn is left out, computed here.",
             "The size is the number of inversions: 10 at most, and both ends of the table are symmetric.")
def insertion(n):
    def row(factors):
        return convolved([1] + [0] * n, *[[int(k <= f) for k in range(n + 1)] for f in factors])[n]
    return row([1, 2, 3, 4]), sum(row([f for f in (1, 2, 3, 4) if f != left]) for left in (1, 2, 3, 4))


@CHAPTER.add("buckets", 20, "n keys are hashed into four buckets: how many stay empty?",
             "4^n ways, A000302; 4 3^n empty buckets (Feller, An Introduction to Probability Theory, volume 1, 1950).",
             "The average 4 (3/4)^n halves with about 2.4 keys more.")
def buckets(n):
    return 4 ** n, 4 * 3 ** n


@CHAPTER.add("linear_search", 20, "How many keys does a linear search look at, where each of n keys is searched once?",
             "n places; n (n+1)/2 keys, A000217.",
             "A place that is marked is a product: what is before, the key, what is after.")
def linear_search(n):
    return n, n * (n + 1) // 2


@CHAPTER.add("bubble", 20, "How many swaps of neighbours sort the words of zeros and ones?",
             "2^n words; C(n, 2) 2^(n-2) swaps: a pair of places is out of order in a quarter of the words.",
             "A cost per pair: for each one, walk the rest and count zeros.")
def bubble(n):
    return 2 ** n, comb(n, 2) * 2 ** n // 4


@CHAPTER.add("merge", 20, "How many comparisons merge two sorted lists, over all ways in which they can mix to n keys?",
             "2^n ways; (n-2) 2^n + 2 comparisons for n at least 1: all keys but those of the last run.",
             "Nearly n - 2: the last run has length two on the average.")
def merge(n):
    return 2 ** n, (n - 2) * 2 ** n + 2 if n else 0


@CHAPTER.add("two_three", 27, "How many inner nodes do 2-3 trees of n leaves and height at most 3 have?",
             "t(h+1) = t(h)^2 + t(h)^3 by series, from z on; nodes i(h+1) = t(h+1) + i(h) (2 t(h) + 3 t(h)^2); computed here.",
             "All leaves at one depth: a type for each height, and a bound on the height.")
def two_three(n):
    trees, nodes = [int(k == 1) for k in range(n + 1)], [0] * (n + 1)
    count, total = trees[n], 0
    for _ in range(3):
        square = convolved(trees, trees)
        inner = convolved(nodes, [2 * a + 3 * b for a, b in zip(trees, square)])
        trees = [a + b for a, b in zip(square, convolved(square, trees))]
        nodes = [a + b for a, b in zip(trees, inner)]
        count, total = count + trees[n], total + nodes[n]
    return count, total


@CHAPTER.add("trie", 8, "How many nodes do the tries of n keys of three bits have?",
             "C(8, n) sets of keys; a node over 2^l prefixes is there where a key is: sum of 2^l (C(8, n) - C(8 - 8/2^l, n)), l from 0 to 2 "
             "(Knuth, The Art of Computer Programming, volume 3, 1973, 6.3, for tries).",
             "Tries of keys of a fixed length fit; tries of endless keys don't, since size can't bound their depth.")
def trie(n):
    return comb(8, n), sum(2 ** l * (comb(8, n) - comb(8 - 8 // 2 ** l, n)) for l in range(3))


@CHAPTER.add("searches", 20, "How many nodes do all successful searches visit in binary trees of n nodes, all shapes alike?",
             "C(n) trees; 4^n - C(2n+1, n), A008549: the path length, and n for the last node of each search.",
             "The numbers of `area`: a tree is a Dyck path, and a node at depth d a rise at height d.")
def searches(n):
    return catalan(n), 4 ** n - comb(2 * n + 1, n)

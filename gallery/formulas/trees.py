"""Trees, plane and rooted."""
from functools import lru_cache

from .numbers import catalan, comb, fibonacci, hierarchies, motzkin
from . import Chapter

CHAPTER = Chapter(2, "trees", "Trees, plane and rooted", "Binary, ternary, plane and unordered trees, by their nodes or by their leaves.")


@CHAPTER.add("tree", 12, "What is the internal path length of all binary trees of n nodes?",
             "Catalan numbers C(n), A000108; 4^n - (3n + 1) C(n) (Knuth, The Art of Computer Programming, volume 1, 1968, 2.3.4.5).",
             "The average grows as n^(3/2): compare size 6 and size 12.", example=True)
def tree(n):
    return catalan(n), 4 ** n - (3 * n + 1) * catalan(n)


@CHAPTER.add("leaves", 20, "How many leaves do the binary trees of n nodes have?",
             "C(n) trees for n at least 1, A000108; C(2n - 2, n - 1) leaves, A000984.",
             "A quarter of the nodes are leaves, nearly: the average is n (n + 1) / (2 (2n - 1)).")
def leaves(n):
    return (catalan(n), comb(2 * n - 2, n - 1)) if n else (0, 0)


@CHAPTER.add("ternary", 16, "What is the path length of all ternary trees of n nodes?",
             "C(3n, n) / (2n + 1) trees, A001764. Nodes at depth d: 3^d times the coefficient of z^(n-1-d) in T^(2d+3), which is "
             "r C(3m + r, m) / (3m + r) for r = 2d + 3 and m = n - 1 - d (Graham, Knuth, Patashnik, Concrete Mathematics, 1994, 5.4).",
             "Three calls of `size` for the children, whose sum is the path length.")
def ternary(n):
    total = 0
    for d in range(1, n):
        r, m = 2 * d + 3, n - 1 - d
        total += d * 3 ** d * r * comb(3 * m + r, m) // (3 * m + r)
    return comb(3 * n, n) // (2 * n + 1), total


@CHAPTER.add("plane", 12, "How many leaves do the plane trees of n nodes have?",
             "C(n-1) trees, A000108; C(2n - 3, n - 1) leaves for n at least 2, A001700: half of all nodes.",
             "Exactly half, at each size from 2 on.", example=True)
def plane(n):
    return (catalan(n - 1), comb(2 * n - 3, n - 1) if n > 1 else 1) if n else (0, 0)


@CHAPTER.add("root_degree", 20, "How many children does the root of a plane tree of n nodes have?",
             "C(n-1) trees; C(n) - C(n-1) children, A000245: each marks a place for one more leaf at the root.",
             "The average tends to 3, though a node of a tree has less than one child on the average.")
def root_degree(n):
    return (catalan(n - 1), catalan(n) - catalan(n - 1)) if n else (0, 0)


@CHAPTER.add("low", 20, "How many children does the root have in plane trees of height at most 3?",
             "F(2n - 3) trees for n at least 2, A001519 (de Bruijn, Knuth, Rice, The average height of planted plane trees, 1972, for "
             "the heights). The children: coefficients of z^2 (1 - z) (1 - 2z) / (1 - 3z + z^2)^2, computed here.",
             "A bound on the height is a type for each level.")
def low(n):
    top = {2: 1, 3: -3, 4: 2}
    totals = []
    for m in range(n + 1):
        at = [totals[m - k] if m >= k else 0 for k in range(1, 5)]
        totals.append(top.get(m, 0) + 6 * at[0] - 11 * at[1] + 6 * at[2] - at[3])
    return (0 if n == 0 else 1 if n == 1 else fibonacci(2 * n - 3)), totals[n]


@CHAPTER.add("spine", 20, "How long is the leftmost branch of a binary tree of n nodes?",
             "C(n) trees; C(n+1) - C(n) nodes on it, A000245.",
             "The numbers of `root_degree` one size later: that is the correspondence of binary and plane trees (Knuth, 2.3.2).")
def spine(n):
    return catalan(n), catalan(n + 1) - catalan(n)


@CHAPTER.add("motzkin", 12, "How many leaves do unary-binary trees of n nodes have?",
             "Motzkin numbers, A001006; central trinomial coefficients, A002426.",
             "The average is near n/3: all three kinds of node are as frequent in the end.", example=True)
def motzkin_leaves(n):
    if not n:
        return 0, 0
    return motzkin(n - 1), sum(comb(n - 1, 2 * k) * comb(2 * k, k) for k in range((n + 1) // 2))


@CHAPTER.add("schroeder", 12, "How many inner nodes do plane trees of n leaves have, where no node has one child?",
             "A001003; with k + 1 inner nodes C(n-2, k) C(n+k, k) / (k+1), the dissections of a polygon by k diagonals (Cayley, On the "
             "partitions of a polygon, 1890).",
             "Schröder's second problem (Vier combinatorische Probleme, 1870).", example=True)
def schroeder(n):
    if n < 2:
        return n, 0
    ways = [comb(n - 2, k) * comb(n + k, k) // (k + 1) for k in range(n - 1)]
    return sum(ways), sum((k + 1) * w for k, w in enumerate(ways))


@lru_cache(None)
def polya(n):
    """Unlabelled rooted trees of n nodes and their leaves."""
    if n < 2:
        return n, n
    a = [0] + [polya(k)[0] for k in range(1, n)]
    sigma = [0] + [sum(d * a[d] for d in range(1, k + 1) if k % d == 0) for k in range(1, n)]
    count = sum(sigma[k] * a[n - k] for k in range(1, n)) // (n - 1)
    copies = [0] + [sum(polya(d)[1] for d in range(1, k + 1) if k % d == 0) for k in range(1, n)]
    return count, sum(copies[k] * a[n - k] for k in range(1, n))


@CHAPTER.add("rooted_leaves", 20, "How many leaves do unlabelled rooted trees of n nodes have?",
             "A000081, with (n-1) a(n) = sum of sigma(k) a(n-k), sigma(k) the sum of the d a(d) for d dividing k (Cayley; Otter, The "
             "number of trees, 1948). Leaves: L(z) = z + T(z) (L(z) + L(z^2) + ..) (Robinson, Schwenk, The distribution of degrees in a "
             "large random tree, 1975).",
             "Some 0.438 of the nodes are leaves. Copies of a subtree are counted one by one.")
def rooted_leaves(n):
    return polya(n)


@lru_cache(None)
def etherington(n):
    if n < 2:
        return n
    halves = sum(etherington(k) * etherington(n - k) for k in range(1, (n + 1) // 2))
    same = etherington(n // 2)
    return halves + (same * (same + 1) // 2 if n % 2 == 0 else 0)


@CHAPTER.add("unordered", 24, "How many forks do binary trees of n leaves have whose children aren't ordered?",
             "Wedderburn-Etherington numbers, A001190; n - 1 forks each.",
             "`multiset(tree, card = 2)` is an unordered pair, which may be of two equal trees.")
def unordered(n):
    return etherington(n), max(n - 1, 0) * etherington(n)


@CHAPTER.add("hier", 12, "How many leaves do unlabelled hierarchies have?",
             "Series-reduced rooted trees by leaves, A000669; n times as many leaves (Riordan, Shannon, The number of two-terminal "
             "series-parallel networks, 1942, for their recurrence).",
             "Size counts the leaves alone; that there are finitely many of a size is why each fork has at least two children.",
             example=True)
def hier(n):
    count = hierarchies(n)[0][n]
    return count, n * count

"""Mappings and graphs that decompose."""
from .numbers import comb, factorial, hierarchies
from . import Chapter

CHAPTER = Chapter(7, "mappings", "Mappings and graphs that decompose", "A map of n points to themselves is a set of cycles of rooted trees; "
                  "graphs that decompose are trees, forests, stars and networks in series and parallel.")


def falling(n, k):
    return factorial(n) // factorial(n - k)


@CHAPTER.add("rooted", 12, "How many nodes do rooted labelled trees have?",
             "n^(n-1) trees, A000169 (Cayley, A theorem on trees, 1889); n^n nodes, A000312.",
             "A first test of a type that leads to itself through a set.", example=True)
def rooted(n):
    return (n ** (n - 1), n ** n) if n else (0, 0)


@CHAPTER.add("components", 18, "How many components do the maps of n points to themselves have?",
             "n^n maps, A000312. Connected maps A001865: c(n) = sum of n!/(n-k)! n^(n-k-1) over k from 1 to n (Katz, Probability of "
             "indecomposability of a random mapping function, 1955). Components: sum of C(n, k) c(k) (n-k)^(n-k).",
             "About half of log n, plus a constant (Flajolet, Odlyzko, Random mapping statistics, 1990).")
def components(n):
    def connected(m):
        return sum(falling(m, k) * m ** (m - k) for k in range(1, m + 1)) // m
    return n ** n, sum(comb(n, k) * connected(k) * (n - k) ** (n - k) for k in range(1, n + 1))


@CHAPTER.add("cyclic_points", 18, "How many points lie on cycles?",
             "n^n maps; the sum of n!/(n-k)! n^(n-k) over k from 1 to n, which is n^n Q(n), with Ramanujan's Q (Knuth, The Art of Computer "
             "Programming, volume 1, 1968, 1.2.11.3).",
             "About the square root of pi n / 2 points. One more is the mean of the birthday problem.")
def cyclic_points(n):
    return n ** n, sum(falling(n, k) * n ** (n - k) for k in range(1, n + 1))


@CHAPTER.add("no_image", 18, "How many points are no image?",
             "n (n-1)^n: a point is missed where all n images are other points.",
             "The share tends to 1/e. A node alone on a cycle is its own image.")
def no_image(n):
    return n ** n, n * (n - 1) ** n if n else 0


@CHAPTER.add("idempotent", 18, "How many fixed points do idempotent maps have?",
             "A000248: the sum of C(n, k) k^(n-k), k the number of fixed points (Harris, Schoenfeld, The number of idempotent elements in "
             "symmetric semigroups, 1967).",
             "Forests of stars.")
def idempotent(n):
    ways = [comb(n, k) * k ** (n - k) for k in range(n + 1)]
    return sum(ways), sum(k * w for k, w in enumerate(ways))


@CHAPTER.add("forests", 18, "How many trees do forests of rooted labelled trees have?",
             "(n+1)^(n-1) forests, A000272; with k trees C(n-1, k-1) n^(n-k) (Cayley; Moon, Counting Labelled Trees, 1970).",
             "The average 2n/(n+1) tends to 2.")
def forests(n):
    ways = [comb(n - 1, k - 1) * n ** (n - k) if k else int(n == 0) for k in range(n + 1)]
    return sum(ways), sum(k * w for k, w in enumerate(ways))


@CHAPTER.add("height_sum", 18, "What is the path length of all rooted labelled trees of n nodes?",
             "n^(n-1) trees; A001864, n! times the sum of n^k/k! for k up to n-2 (Riordan, Sloane, The enumeration of rooted trees by "
             "total height, 1969).",
             "The average grows as n^(3/2), as for binary trees; the constant is another.")
def height_sum(n):
    return (n ** (n - 1), sum(factorial(n) // factorial(k) * n ** k for k in range(n - 1))) if n else (0, 0)


@CHAPTER.add("tree_leaves", 18, "How many leaves do rooted labelled trees have?",
             "n^(n-1) trees; n (n-1)^(n-1) leaves: a leaf is taken off a tree of n-1 nodes with n-1 places for it.",
             "The share tends to 1/e, as of points that are no image.")
def tree_leaves(n):
    return (n ** (n - 1), n * (n - 1) ** (n - 1)) if n else (0, 0)


@CHAPTER.add("one_child", 18, "How many nodes with exactly one child do rooted labelled trees have?",
             "n^(n-1) trees; n (n-1)^(n-1) nodes for n at least 2. Rooted trees are words of n-1 letters over n nodes in which a node "
             "occurs once for each child (Prüfer, Neuer Beweis eines Satzes über Permutationen, 1918), and (n-1)^(n-1) of them have a "
             "given node once.",
             "As many as there are leaves, at each size from 2 on: compare with `tree_leaves`.")
def one_child(n):
    return (n ** (n - 1), n * (n - 1) ** (n - 1) if n > 1 else 0) if n else (0, 0)


@CHAPTER.add("rounds", 18, "n children play rounds, one in the middle and the others in a ring: how many rounds?",
             "By the round of the child n: a(n) = sum of C(n-1, k-1) k (k-2)! a(n-k) for k from 2 on, and t(n) likewise; computed here.",
             "No child plays alone: the count at size 1 is 0.")
def rounds(n):
    counts, totals = [1], [0]
    for m in range(1, n + 1):
        ways = [(k, comb(m - 1, k - 1) * k * factorial(k - 2)) for k in range(2, m + 1)]
        counts.append(sum(w * counts[m - k] for k, w in ways))
        totals.append(sum(w * (totals[m - k] + counts[m - k]) for k, w in ways))
    return counts[n], totals[n]


@CHAPTER.add("networks", 12, "How many compositions, in series and in parallel, do networks of n edges have?",
             "A000084, twice A000669 for n at least 2 (MacMahon, The combinations of resistances, 1892; Riordan, Shannon, The number of "
             "two-terminal series-parallel networks, 1942); the compositions are the forks of these hierarchies, computed here.",
             "Two types that lead to each other: series has parts in parallel, and the other way round.", example=True)
def networks(n):
    trees, forks = hierarchies(n)
    return (2 * trees[n], 2 * forks[n]) if n > 1 else (n, 0)

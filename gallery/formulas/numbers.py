"""Numbers that several chapters use."""
from functools import lru_cache
from math import comb, factorial


def catalan(n):
    return comb(2 * n, n) // (n + 1)


def fibonacci(n):
    """0, 1, 1, 2, 3, .."""
    a, b = 0, 1
    for _ in range(n):
        a, b = b, a + b
    return a


@lru_cache(None)
def stirling2(n, k):
    """Partitions of n elements into k blocks."""
    if n == 0 or k == 0:
        return int(n == k)
    return k * stirling2(n - 1, k) + stirling2(n - 1, k - 1)


@lru_cache(None)
def motzkin(n):
    return sum(comb(n, 2 * k) * catalan(k) for k in range(n // 2 + 1))


def labelled(components, most):
    """How many sets of components there are on n labels, and how many components they have together, where there are
    `components(k)` components on k labels: the component of the label n takes k - 1 of the other labels."""
    counts, totals = [1], [0]
    for n in range(1, most + 1):
        ways = [comb(n - 1, k - 1) * components(k) for k in range(1, n + 1)]
        counts.append(sum(w * counts[n - k] for k, w in enumerate(ways, 1)))
        totals.append(sum(w * (totals[n - k] + counts[n - k]) for k, w in enumerate(ways, 1)))
    return counts, totals


def multisets(kinds, most):
    """How many multisets of parts of sum n there are, and how many parts they have together, where there are `kinds(k)` parts of
    size k: Euler's rule n a(n) = sum of sigma(k) a(n - k), and the copies of a part of size k counted one by one."""
    sigma = [0] + [sum(d * kinds(d) for d in range(1, k + 1) if k % d == 0) for k in range(1, most + 1)]
    number = [0] + [sum(kinds(d) for d in range(1, k + 1) if k % d == 0) for k in range(1, most + 1)]
    counts = [1]
    for n in range(1, most + 1):
        counts.append(sum(sigma[k] * counts[n - k] for k in range(1, n + 1)) // n)
    return counts, [sum(number[k] * counts[n - k] for k in range(1, n + 1)) for n in range(most + 1)]


def hierarchies(most):
    """Hierarchies of n leaves and their forks: of all multisets of hierarchies of n leaves half are one alone, for n at least 2."""
    trees, forks, forests = [0, 1], [0, 0], [1, 1]
    for n in range(2, most + 1):
        def over(values, k):
            return sum(values(d) for d in range(1, k + 1) if k % d == 0 and d < n)
        trees.append(sum(over(lambda d: d * trees[d], k) * forests[n - k] for k in range(1, n + 1)) // n)
        forests.append(2 * trees[n])
        forks.append(trees[n] + sum(over(lambda d: forks[d], k) * forests[n - k] for k in range(1, n + 1)))
    return trees, forks


__all__ = ["catalan", "comb", "factorial", "fibonacci", "hierarchies", "labelled", "motzkin", "multisets", "stirling2"]

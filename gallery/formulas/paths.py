"""Lattice paths and tilings."""
from .numbers import catalan, comb, factorial, fibonacci
from . import Chapter

CHAPTER = Chapter(6, "paths", "Lattice paths and tilings", "Dyck, Motzkin, Schröder and Delannoy paths by their first return; tilings by "
                  "their first block. Of a rise and the fall that answers it one is counted.")


def sums(ways):
    ways = list(ways)
    return sum(w for _, w in ways), sum(k * w for k, w in ways)


@CHAPTER.add("returns", 20, "How often do Dyck paths of 2n steps come back to the ground?",
             "C(n) paths, A000108; C(n+1) - C(n) returns, A000245.",
             "The average tends to 3. The same numbers as `root_degree` in the chapter on trees.")
def returns(n):
    return catalan(n), catalan(n + 1) - catalan(n)


@CHAPTER.add("peaks", 20, "How many peaks do Dyck paths of 2n steps have?",
             "C(2n-1, n) for n at least 1, A001700; with k peaks Narayana numbers C(n, k) C(n, k-1) / n, A001263.",
             "Two procedures say whether a rise came just before.")
def peaks(n):
    return (sums((k, comb(n, k) * comb(n, k - 1) // n) for k in range(1, n + 1))) if n else (1, 0)


@CHAPTER.add("area", 20, "What is the area below all Dyck paths of 2n steps?",
             "4^n - C(2n+1, n), A008549, in unit squares, halves joined.",
             "A cost that depends on the height: what is inside an arch is raised, two squares for each of its rises.")
def area(n):
    return catalan(n), 4 ** n - comb(2 * n + 1, n)


@CHAPTER.add("flat_steps", 20, "How many flat steps do Motzkin paths of n steps have?",
             "Motzkin numbers, A001006; with k rises C(n, 2k) C(k) (Donaghey, Shapiro, Motzkin numbers, 1977).",
             "A third of the steps, nearly.")
def flat_steps(n):
    return sums((n - 2 * k, comb(n, 2 * k) * catalan(k)) for k in range(n // 2 + 1))


@CHAPTER.add("diagonals", 20, "How many diagonal steps do Schröder paths to (n, n) have?",
             "Large Schröder numbers, A006318; with k rises C(n+k, 2k) C(k).",
             "The same types as Motzkin paths; only what a rise weighs is another.")
def diagonals(n):
    return sums((n - k, comb(n + k, 2 * k) * catalan(k)) for k in range(n + 1))


@CHAPTER.add("delannoy", 20, "How many diagonal steps do paths from (0, 0) to (n, n) have, with steps right, up and diagonal?",
             "Central Delannoy numbers, A001850; with k diagonals (2n-k)! / ((n-k)! (n-k)! k!) (Comtet, Advanced Combinatorics, 1974).",
             "A sequence of diagonals and of arches above and below; the arches are Schröder paths.")
def delannoy(n):
    return sums((k, factorial(2 * n - k) // (factorial(n - k) ** 2 * factorial(k))) for k in range(n + 1))


@CHAPTER.add("bridges", 20, "How often do walks of n rises and n falls come back to the ground?",
             "C(2n, n) walks, A000984; 4^n - C(2n, n) returns (Feller, An Introduction to Probability Theory, volume 1, 1950).",
             "About the square root of pi n returns.")
def bridges(n):
    return comb(2 * n, n), 4 ** n - comb(2 * n, n)


@CHAPTER.add("dominoes", 20, "How many vertical dominoes do the tilings of a strip of 2 by n have?",
             "F(n+1) tilings, A000045; with k pairs of flat ones C(n-k, k) (Graham, Knuth, Patashnik, Concrete Mathematics, 1994, 7.1).",
             "The share of vertical ones tends to 1/sqrt 5.")
def dominoes(n):
    return sums((n - 2 * k, comb(n - k, k)) for k in range(n // 2 + 1))


@CHAPTER.add("strips", 20, "How many tiles do the tilings of a strip of length n by squares, dominoes and bars of three have?",
             "Tribonacci numbers, A000073: a(n) = a(n-1) + a(n-2) + a(n-3); tiles t(n) likewise, with a(n) added; computed here.",
             "Weights of atoms are lengths of tiles.")
def strips(n):
    counts, totals = [1], [0]
    for m in range(1, n + 1):
        counts.append(sum(counts[-3:]))
        totals.append(sum(totals[-3:]) + counts[m])
    return counts[n], totals[n]


@CHAPTER.add("three_rows", 20, "Domino tilings of 3 by 2n: into how many blocks can they be cut?",
             "A001835: a(n) = 4 a(n-1) - a(n-2) (Graham, Knuth, Patashnik, Concrete Mathematics, 1994, 7.3); 3 blocks of two columns and 2 "
             "of each larger even width. Blocks: t(n) = sum of b(k) (t(n-k) + a(n-k)), computed here.",
             "`x | x | x` is one thing in three colours.")
def three_rows(n):
    counts, totals = [1, 3], [0, 3]
    for m in range(2, n + 1):
        totals.append(sum((3 if k == 1 else 2) * (totals[m - k] + counts[m - k]) for k in range(1, m + 1)))
        counts.append(4 * counts[-1] - counts[-2])
    return counts[n], totals[n]

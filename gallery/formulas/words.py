"""Words and runs."""
from .numbers import comb, fibonacci
from . import Chapter

CHAPTER = Chapter(1, "words", "Words and runs", "Words over two or three letters, with and without forbidden patterns. A pattern is "
                  "forbidden by writing the words as blocks that can't make it.")


@CHAPTER.add("ones", 20, "How many ones do the binary words of length n have together?",
             "2^n words, A000079; n 2^(n-1) ones, A001787: each of the n places is a one in half of the words.",
             "The average n/2 is exact at each size.")
def ones(n):
    return 2 ** n, n * 2 ** n // 2


@CHAPTER.add("sparse", 20, "How many ones do the binary words without two neighbouring ones have?",
             "F(n+2) words, A000045; the ones are Fibonacci numbers convolved with themselves, A001629. Words with k ones: C(n-k+1, k) "
             "(Riordan, An Introduction to Combinatorial Analysis, 1958).",
             "The share of ones tends to (5 - sqrt 5)/10, about 0.276, not to a third or a quarter.")
def sparse(n):
    ways = [comb(n - k + 1, k) for k in range((n + 1) // 2 + 1)]
    return fibonacci(n + 2), sum(k * w for k, w in enumerate(ways))


@CHAPTER.add("tribonacci", 18, "How many ones do the binary words without three ones in a row have?",
             "Tribonacci numbers, A000073: w(n) = w(n-1) + w(n-2) + w(n-3). The ones, by the last block: "
             "t(n) = t(n-1) + t(n-2) + t(n-3) + w(n-2) + 2 w(n-3), computed here.",
             "Two forbidden neighbours cost more ones than three: compare the averages with `sparse`.")
def tribonacci(n):
    counts, totals = [1, 2, 4], [0, 1, 4]
    while len(counts) <= n:
        totals.append(sum(totals[-3:]) + counts[-2] + 2 * counts[-3])
        counts.append(sum(counts[-3:]))
    return counts[n], totals[n]


@CHAPTER.add("runs", 18, "How many runs (longest stretches of one letter) do the binary words of length n have?",
             "2^n words; (n + 1) 2^(n-1) runs for n at least 1: a run begins at the first place, and at each other place with "
             "probability 1/2.",
             "The two types call each other: words that begin with 0, and words that begin with 1.")
def runs(n):
    return 2 ** n, (n + 1) * 2 ** (n - 1) if n else 0


@CHAPTER.add("neighbours", 16, "How many letters a do the words over a, b, c have in which no two neighbours are equal?",
             "3 2^(n-1) words for n at least 1 (Smirnov words), and n 2^(n-1) letters a, A001787, since the three letters share alike.",
             "A type for each last letter: that is a finite automaton, written as types.")
def neighbours(n):
    return (3 * 2 ** (n - 1), n * 2 ** (n - 1)) if n else (1, 0)


@CHAPTER.add("even_runs", 20, "Binary words in which each run of ones is even: how many pairs of ones?",
             "F(n+1) words, A000045; the sum of k C(n-k, k), since k pairs and n - 2k zeros are put in a row.",
             "The same numbers as tilings of a strip by squares and dominoes.")
def even_runs(n):
    ways = [comb(n - k, k) for k in range(n // 2 + 1)]
    return sum(ways), sum(k * w for k, w in enumerate(ways))


@CHAPTER.add("palindromes", 20, "How many ones do the binary palindromes of length n have?",
             "2^ceil(n/2) palindromes; half of all their letters are ones.",
             "Both sides of a palindrome are one choice: an atom of weight 2.")
def palindromes(n):
    count = 2 ** ((n + 1) // 2)
    return count, n * count // 2


@CHAPTER.add("waiting", 20, "A coin is tossed until two heads come in a row: how many games have n tosses?",
             "F(n-1) games for n at least 2, A000045; n F(n-1) tosses.",
             "With each game of n tosses weighed by 2^-n the mean is 6 tosses: the report gives the numbers F(n-1) of that sum.")
def waiting(n):
    count = fibonacci(n - 1) if n > 1 else 0
    return count, n * count


@CHAPTER.add("few", 20, "How many ones do the binary words with at most three ones have?",
             "The sum of the C(n, k) for k up to 3, and of the k C(n, k).",
             "`card <= 3` says \"at most three\".")
def few(n):
    return sum(comb(n, k) for k in range(4)), sum(k * comb(n, k) for k in range(4))

"""Puzzles and dice."""
from .numbers import comb, fibonacci
from . import Chapter

CHAPTER = Chapter(10, "puzzles", "Puzzles and dice", "Small questions; many of them fit one line of paper, and that is the use of them.")


def throws(dice, n):
    """Throws of dice, each a list of faces, that show n."""
    return sum(throws(dice[1:], n - face) for face in dice[0]) if dice else int(n == 0)


DIE = (1, 2, 3, 4, 5, 6)


@CHAPTER.add("dice", 12, "In how many ways do two dice show n?", "6 - |n - 7| for n from 2 to 12; three points each.",
             "The average is 3 wherever there is a throw, and `-` elsewhere.", example=True)
def dice(n):
    count = max(6 - abs(n - 7), 0)
    return count, 3 * count


@CHAPTER.add("three_dice", 18, "How many sixes are there among the throws of three dice that show n?",
             "Throws counted face by face; sixes: three times the throws of two dice that show n - 6.",
             "9 and 10 by three dice: 25 and 27 throws, Galileo's question.")
def three_dice(n):
    return throws([DIE] * 3, n), 3 * throws([DIE] * 2, n - 6)


@CHAPTER.add("sicherman", 12, "Dice with faces 1 2 2 3 3 4 and 1 3 4 5 6 8: how often do they show n, and how many ones?",
             "The counts of two common dice (Sicherman; Gardner, Mathematical Games, Scientific American, 1978): (z + .. + z^6)^2 has "
             "this one other product; ones counted face by face.",
             "Same sums, other dice: the counts are those of `dice`.")
def sicherman(n):
    small, large = (1, 2, 2, 3, 3, 4), (1, 3, 4, 5, 6, 8)
    return max(6 - abs(n - 7), 0), small.count(n - 1) + large.count(n - 1)


@CHAPTER.add("hanoi", 40, "How many moves does the tower of Hanoi with n discs take?",
             "2^n - 1, A000225: a recurrence m(n) = 2 m(n-1) + 1.", "One structure a size: then the report is a table of a function.")
def hanoi(n):
    return 1, 2 ** n - 1


@CHAPTER.add("fibonacci_calls", 30, "How many calls does the naive recursive program for Fibonacci numbers make?",
             "2 F(n+1) - 1, Leonardo numbers A001595.",
             "Numbers as structures: zero, or the next of a number. The cost of the naive program is the number it computes.")
def fibonacci_calls(n):
    return 1, 2 * fibonacci(n + 1) - 1


@CHAPTER.add("second_head", 20, "A coin is tossed until the second head: how many tails?",
             "n - 1 games of n tosses, (n-1) (n-2) tails: the negative binomial distribution (Feller, An Introduction to Probability Theory, "
             "volume 1, 1950).",
             "A game is the product of its stretches.")
def second_head(n):
    return max(n - 1, 0), (n - 1) * (n - 2) if n else 0


@CHAPTER.add("committee", 20, "From n people a committee with a chair is chosen: how many seats?",
             "n 2^(n-1) ways, A001787; n (n+1) 2^(n-2) seats, A001788.",
             "Count it by the chair first, or by the committee first: that proves the identity of binomials.")
def committee(n):
    return n * 2 ** n // 2, n * (n + 1) * 2 ** n // 4


@CHAPTER.add("weights", 18, "Weights 1, 2, 4 and 8, one of each: which loads can be weighed, and with how many weights?",
             "Each load from 0 to 15 in one way; the ones of n in binary, A000120.",
             "From 16 on the count is 0.")
def weights(n):
    return (1, bin(n).count("1")) if n < 16 else (0, 0)


@CHAPTER.add("stamps", 22, "At most three stamps of 1, 4 and 7: which postages are there, and with how many stamps?",
             "Listed stamp by stamp; computed here.",
             "The least postage that can't be paid is the first size with count 0.")
def stamps(n):
    found = [a + b + c for a in range(4) for b in range(4 - a) for c in range(4 - a - b) if a + 4 * b + 7 * c == n]
    return len(found), sum(found)

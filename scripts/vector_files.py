"""Plan files that scripts/make_vectors.py stores, by groups: pairs of a name and a file. Those about thresholds are in scripts/vector_thresholds.py, those with
limits beyond 2^20 in scripts/vector_limits.py."""
import implementation  # it puts reference/ on the path
from files import (CONTENT, DIVISOR_OFFSET, MAGIC, MAX_BOUND, MAX_BUDGET, MAX_COEFFICIENT, MAX_DIVISOR, Constraint, constraint_content,
                   constraint_of, head_fields, problem_file, sealed)

HALF = MAX_COEFFICIENT // 2
FAR = 2**20  # Limits that are far out and not yet at an end of their range.


def blocks(contents):
    return b"".join(sealed(content, k) for k, content in enumerate(contents))


def head(budget, limits, m, n=None, letters=MAGIC):
    return head_fields(len(limits) if n is None else n, m, budget, limits, letters)


def line(row):
    return constraint_content(constraint_of(row))


def divided(divisor, constant, *coefficients):
    return Constraint(constant, list(coefficients), divisor)


def with_byte(content, place, value):
    """A block's content with one byte set."""
    padded = bytearray(content.ljust(CONTENT, b"\0"))
    padded[place] = value
    return bytes(padded)


PLAN_A_LIMITS = [(0, 1)] * 2
PLAN_A_LINES = [[1, -1, -1], [0, -1, 1]]
PLAN_A = problem_file(5, PLAN_A_LIMITS, PLAN_A_LINES)
PLAN_B_LINES = [[-2, 6, -3], [1, -6, 3]]
PLAN_C_LINES = [divided(3, 0, 1, 1), [2, -1, -1]]


def torn_files():
    """Refused with 1."""
    whole = problem_file(0, [(0, 0)], [])
    yield "torn-empty", b""
    yield "torn-511", whole[:511]
    yield "torn-513", whole + b"\0"
    yield "torn-768", PLAN_A[:768]
    yield "torn-1535", PLAN_A[:1535]
    yield "torn-before-bad-check", b"\xff" * 700
    # A program reads at most 65,536 bytes: 129 whole blocks with right checks are too long, 128 are judged by the table.
    many = [head(5, PLAN_A_LIMITS, 64)] + [line([0, 1, 1])] * 128
    yield "torn-66048", blocks(many)
    yield "torn-65537", blocks(many)[:65537]
    yield "size-65536", blocks(many[:128])


def bad_files():
    """Refused with 2 to 7, alone and where higher numbers apply too."""
    good = head(5, PLAN_A_LIMITS, 2)
    first, second = (line(numbers) for numbers in PLAN_A_LINES)
    broken = bytearray(PLAN_A)
    broken[508] ^= 1
    yield "check-of-head", bytes(broken)
    broken = bytearray(PLAN_A)
    broken[1535] ^= 128
    yield "check-of-last-line", bytes(broken)
    yield "check-of-block-past-the-lines", PLAN_A + bytes(512)
    yield "check-before-letters-and-size", bytes(1024)
    yield "check-with-another-index", sealed(good, 0) + sealed(first, 2) + sealed(second, 1)
    yield "letters", blocks([head(5, PLAN_A_LIMITS, 2, letters=b"BLUF"), first, second])
    yield "letters-before-size", blocks([head(5, [], 0, letters=b"blue")])
    yield "size-n-0", blocks([head(5, [], 0)])
    yield "size-n-33", blocks([head(5, [(0, 1)] * 33, 0)])
    yield "size-m-65", blocks([head(5, [(0, 1)], 65)] + [line([0, 1])] * 65)
    yield "size-budget", problem_file(MAX_BUDGET + 1, PLAN_A_LIMITS, PLAN_A_LINES)
    yield "size-block-missing", blocks([good, first])
    yield "size-block-too-many", blocks([good, first, second, line([0])])
    yield "size-before-limits", blocks([head(5, [(1, 0)], 1)])
    yield "limits-crossed", problem_file(5, [(0, 1), (1, 0)], PLAN_A_LINES)
    yield "limits-upper-one-more", problem_file(5, [(0, MAX_BOUND + 1)], [])
    yield "limits-lower-one-less", problem_file(5, [(-MAX_BOUND - 1, 0)], [])
    yield "limits-before-heavy-and-stray", blocks([with_byte(head(5, [(1, 0)], 1), 100, 1), line([0, MAX_COEFFICIENT + 1])])
    yield "heavy-coefficient", problem_file(5, PLAN_A_LIMITS, [[0, 0, MAX_COEFFICIENT + 1]])
    yield "heavy-coefficient-negative", problem_file(5, PLAN_A_LIMITS, [[0, -MAX_COEFFICIENT - 1, 0]])
    yield "heavy-constant", problem_file(5, PLAN_A_LIMITS, [[MAX_COEFFICIENT + 1, 1, 0]])
    yield "heavy-constant-negative", problem_file(5, PLAN_A_LIMITS, [[-MAX_COEFFICIENT - 1, 1, 0]])
    yield "heavy-before-stray", blocks([good, with_byte(first, 507, 1), line([0, -MAX_COEFFICIENT - 1, 0])])
    yield "stray-limits-past-n", blocks([head(5, PLAN_A_LIMITS + [(1, 0)], 2, n=2), first, second])
    yield "stray-coefficient-past-n", blocks([good, first, line([0, -1, 1, MAX_COEFFICIENT + 1])])
    yield "stray-last-byte-of-head", blocks([with_byte(good, 507, 1), first, second])
    yield "stray-last-byte-of-line", blocks([good, first, with_byte(second, 507, 128)])


def edge_files():
    """Accepted, at the edges of sizes and numbers, with limits far out."""
    yield "no-lines", problem_file(0, [(3, 9), (-7, -7), (-2, 5)], [])
    yield "no-lines-widest", problem_file(MAX_BUDGET, [(-FAR, FAR)] * 32, [])
    yield "one-value", problem_file(MAX_BUDGET, [(FAR, FAR)], [[-FAR, 1]])
    cover = [[1] + [-1 if i == j % 32 or i % 31 == j % 31 else 0 for i in range(32)] for j in range(64)]
    yield "n-32-m-64", problem_file(9, [(0, 1)] * 32, cover)
    yield "lowest-value-largest", problem_file(1, [(FAR, FAR)] * 32, [[MAX_COEFFICIENT] * 32 + [MAX_COEFFICIENT - 1]])
    yield "lowest-value-least", problem_file(1, [(FAR, FAR)] * 32, [[-MAX_COEFFICIENT] * 32 + [1 - MAX_COEFFICIENT]])
    negative = [MAX_COEFFICIENT] + [-MAX_COEFFICIENT] * 31 + [1 - MAX_COEFFICIENT]
    yield "lowest-value-largest-negative", problem_file(1, [(-FAR, -FAR)] * 32, [negative])
    yield "no-coefficient-false", problem_file(5, PLAN_A_LIMITS, [[1], [-1, 1, 1]])
    yield "no-coefficient-met", problem_file(5, PLAN_A_LIMITS, [[0], [-MAX_COEFFICIENT], [1, -1, -1]])
    yield "no-coefficient-false-no-budget", problem_file(0, PLAN_A_LIMITS, [[-1, 1, 1], [MAX_COEFFICIENT]])


def bound_files():
    """Implied bounds, with both signs of coefficient and constant: a second line leaves the bound as the only value, or none."""
    cases = [("plus-plus", [7, 3], -3), ("plus-minus", [-7, 3], 2), ("minus-plus", [7, -3], 3), ("minus-minus", [-7, -3], -2)]
    for name, numbers, bound in cases:
        sign = 1 if numbers[1] < 0 else -1
        yield "bound-%s" % name, problem_file(1, [(-9, 9)], [numbers, [-sign * bound, sign]])
        yield "bound-%s-missed" % name, problem_file(1, [(-9, 9)], [numbers, [-sign * bound + 1, sign]])
    yield "rounding", problem_file(5, [(0, 10)] * 2, [[-2, 6, -3], [5, -4, -6], [-29, 10, 5]])
    yield "halved-into-range", problem_file(5, [(0, 1), (0, 10), (0, 1)], [[2, MAX_COEFFICIENT, -1, 1], [-1, MAX_COEFFICIENT, 1, 1]])
    yield "divided-by-the-divisor", problem_file(5, [(0, 10)] * 2, [[-7, 2, 3], [8, -2, -3]])


def walk_files():
    """Dead ends, cuts and turning."""
    yield "plan-a", PLAN_A
    yield "plan-a-budget-0", problem_file(0, PLAN_A_LIMITS, PLAN_A_LINES)
    yield "plan-a-lines-exchanged", problem_file(5, PLAN_A_LIMITS, PLAN_A_LINES[::-1])
    yield "plan-a-at-the-end-of-32", problem_file(5, [(0, 1)] * 32, [[1] + [0] * 30 + [-1, -1], [0] * 31 + [-1, 1]])
    yield "plan-b", problem_file(1, [(0, 10)] * 2, PLAN_B_LINES)
    yield "plan-b-budget-0", problem_file(0, [(0, 10)] * 2, PLAN_B_LINES)
    yield "back-below-the-depth-met", problem_file(5, [(0, 2)] * 4, [[1, -1, -1, 1, 1], [0, 0, 1, -1, -1]])
    yield "back-two-below", problem_file(5, [(0, 2)] * 5, [[-1, -2, 1, 1, 1, 1], [4, 0, 0, -2, -2, -2]])
    yield "back-below-and-outcome-not-false", problem_file(20, [(0, 3)] * 4, [[10, 3, -3, 4, -4], [-4, -5, 2, -4, 4]])
    five = [[5, 0, 2, 1, -3, -2], [4, 1, -1, 2, 1, -3], [-4, -2, 3, -3, 1, 3], [13, 2, 0, 5, -1, -8]]
    yield "five-lines-taken-in", problem_file(5, [(0, 2)] * 5, five)
    yield "outcome-not-false", problem_file(5, [(0, 1)] * 2, [[1, -2, 1], [-1, 2, 1]])
    yield "none-at-depth-1", problem_file(5, [(0, 2)] * 3, [[0, -1, -1, 1], [1, 1, 1, -1]])
    yield "none-at-depth-2", problem_file(5, [(0, 1)] * 4, [[2, 3, 2, -3, -3], [-2, -3, -3, 3, 3]])
    yield "none-at-depth-1-spent", problem_file(0, [(0, 2)] * 3, [[0, -1, -1, 1], [1, 1, 1, -1]])
    yield "lines-equal", problem_file(5, PLAN_A_LIMITS, PLAN_A_LINES + PLAN_A_LINES)
    yield "lines-multiples", problem_file(5, PLAN_A_LIMITS, [[3, -3, -3], [0, -7, 7]] + PLAN_A_LINES)
    yield "cut-is-the-false-line", problem_file(5, [(0, 1)] * 2, [[-4, 1, 0], [3, 2, -1], [3, 2, -1]])
    others = [[-1, -3, 2], [1, -2, -3], [0, 3, 1], [1, -3, -3]]
    yield "cut-is-another-line", problem_file(5, [(0, 2)] * 2, others + [[2, 0, -2], [1, 0, -1]])
    yield "cut-is-an-older-cut", problem_file(5, [(0, 3)] * 3, [[9, -2, -5, 4], [7, -3, 2, -3]])
    yield "creep-up", problem_file(5, [(0, FAR)] * 2, [[1, 1, -1], [0, -1, 1]])
    yield "creep-down", problem_file(5, [(-FAR, 0)] * 2, [[0, 1, -1], [1, -1, 1]])


def range_files():
    """Outcomes of exactly 2^30 in size, which are taken, and of one more, which are not. The first line raises v3, and so makes the second false."""
    zeros = [(0, 0), (0, 0), (0, 5)]
    yield "outcome-coefficient", problem_file(5, zeros, [[1, HALF, 0, -1], [0, HALF, 1, 1]])
    yield "outcome-coefficient-one-more", problem_file(5, zeros, [[1, HALF, 0, -1], [0, HALF + 1, 1, 1]])
    yield "outcome-coefficient-negative", problem_file(5, zeros, [[1, -HALF, 0, -1], [0, -HALF, 1, 1]])
    yield "outcome-coefficient-negative-one-more", problem_file(5, zeros, [[1, -HALF, 0, -1], [0, -HALF - 1, 1, 1]])
    fixed = [(1, 1), (0, 0), (-5, 5)]
    yield "outcome-constant", problem_file(5, fixed, [[HALF, 1 - HALF, 0, -1], [HALF, -HALF, 1, 1]])
    yield "outcome-constant-one-more", problem_file(5, fixed, [[HALF, 1 - HALF, 0, -1], [HALF + 1, -HALF - 1, 1, 1]])
    fixed[1] = (1, 1)
    yield "outcome-constant-negative", problem_file(5, fixed, [[-HALF, HALF + 1, 0, -1], [-HALF, HALF - 1, 1, 1]])
    fixed[1] = (2, 2)
    yield "outcome-constant-negative-one-more", problem_file(5, fixed, [[-HALF, HALF + 1, 0, -1], [-HALF - 1, HALF - 1, 1, 1]])
    yield "outcome-83-bits", problem_file(6, [(-FAR, FAR)] * 8, BEYOND)


# The outcomes' coefficients have 61 bits, and with limits of 2^20 their lowest values 83: they must be refused before those are computed.
BEYOND = [
    [371378013, -1073741817, -1073741819, 1073741823, -1073741820, 1073741817, 1073741821, 1073741819, 1073741817],
    [-558807171, -1073741819, -1073741817, -1073741819, -1073741821, -1073741816, -1073741818, -1073741820, -1073741817],
]

CUTS = [
    [42, 0, 0, 6, 6, -13, 0, -11, 3, 19, -6, -7],
    [-44, 0, 0, -6, -6, 13, 0, 11, -3, -19, 6, 7],
    [71, -8, 0, 17, -6, -14, 0, -14, 3, 0, 7, 5],
    [-72, 8, 0, -17, 6, 14, 0, 14, -3, 0, -7, -5],
    [50, 14, -16, -9, 9, -18, -17, -6, 17, 13, -19, 17],
    [-51, -14, 16, 9, -9, 18, 17, 6, -17, -13, 19, -17],
    [-26, 0, 8, -20, -9, 8, 9, 0, 20, 0, 2, 2],
    [7, -6, 0, 0, 0, -4, 12, 0, 18, 0, -4, 13],
    [-9, 6, 0, 0, 0, 4, -12, 0, -18, 0, 4, -13],
    [-59, 1, 0, 20, 0, 0, 0, 0, 0, 0, 0, 18],
]


def cut_files():
    """More cuts than are kept. From dead end 107 on, 28 times a bound's cause is a cut that is no longer kept."""
    limits = [(0, 4)] * 11
    for made, budget in [(63, 85), (64, 87), (65, 89), (130, 221)]:
        yield "cuts-%d-made" % made, problem_file(budget, limits, CUTS)
    for name, budget in [("below", 246), ("at", 247), ("above", 248)]:
        yield "cuts-dropped-budget-%s-the-count" % name, problem_file(budget, limits, CUTS)


def knapsack(budget, most, total, weights):
    """The weights, each taken up to `most` times, add up to the total. A last variable that is 0 keeps the line from being rounded."""
    numbers = weights + [109]
    limits = [(0, most)] * len(weights) + [(0, 0)]
    return problem_file(budget, limits, [[-total] + numbers, [total] + [-a for a in numbers]])


def block_files():
    """A verdict with the last of the 256 blocks that the programs ask for at once, one call later, and one block later."""
    yield "blocks-256-none", knapsack(MAX_BUDGET, 6, 1311, [68, 152, 64, 70, 76])
    yield "blocks-256-spent", knapsack(256, 10, 3595, [108, 144, 102, 124, 132])
    yield "blocks-257-spent", knapsack(257, 10, 3595, [108, 144, 102, 124, 132])


def bad_divisor_files():
    """Refused with 10, alone and beside others; and with what comes before and after it."""
    good = head(5, PLAN_A_LIMITS, 2)
    first, second = (line(numbers) for numbers in PLAN_A_LINES)
    for name, divisor in [("1", 1), ("minus-1", -1), ("minus-5", -5), ("one-more", MAX_DIVISOR + 1), ("least", -(2**31)), ("most", 2**31 - 1)]:
        yield "divisor-%s" % name, problem_file(5, PLAN_A_LIMITS, [divided(divisor, 1, -1, -1), [0, -1, 1]])
    yield "divisor-in-the-last-line", problem_file(5, PLAN_A_LIMITS, [divided(5, 1, -1, -1), divided(1, 0, -1, 1)])
    yield "divisor-with-32-quantities", problem_file(5, [(0, 1)] * 32, [divided(-2, 1, *[1] * 32)])
    yield "limits-before-divisor", problem_file(5, [(0, 1), (1, 0)], [divided(1, 1, -1, -1)])
    yield "heavy-before-divisor", problem_file(5, PLAN_A_LIMITS, [divided(1, 1, -1, -1), [MAX_COEFFICIENT + 1, 1, 0]])
    yield "heavy-before-divisor-in-one-line", problem_file(5, PLAN_A_LIMITS, [divided(1, 0, MAX_COEFFICIENT + 1, 1)])
    yield "heavy-before-divisor-and-stray", blocks([with_byte(good, 507, 1), line(divided(1, 1, 1, 1)), line([0, -MAX_COEFFICIENT - 1, 0])])
    yield "divisor-before-stray-in-head", blocks([with_byte(good, 100, 1), first, line(divided(1, 0, -1, 1))])
    yield "divisor-before-stray-in-line", blocks([good, with_byte(first, 507, 1), line(divided(MAX_DIVISOR + 1, 0, -1, 1))])
    yield "divisor-before-stray-beside-it", blocks([good, with_byte(line(divided(1, 1, -1, -1)), DIVISOR_OFFSET + 4, 1), second])
    yield "stray-before-a-divisor", blocks([good, with_byte(line(divided(5, 1, -1, -1)), DIVISOR_OFFSET - 1, 1), second])
    yield "stray-after-a-divisor", blocks([good, with_byte(line(divided(5, 1, -1, -1)), DIVISOR_OFFSET + 4, 1), second])
    yield "stray-coefficient-32-of-31", blocks([head(5, [(0, 1)] * 31, 1), line([0] * 32 + [1])])
    yield "stray-divisor-in-head", blocks([with_byte(good, DIVISOR_OFFSET, 5), first, second])


def divisor_files():
    """Divisor lines: when they are false, what a dead end on them gives, and what they leave alone."""
    yield "plan-c", problem_file(5, [(0, 2)] * 2, PLAN_C_LINES)
    yield "plan-c-budget-0", problem_file(0, [(0, 2)] * 2, PLAN_C_LINES)
    yield "plan-c-budget-1", problem_file(1, [(0, 2)] * 2, PLAN_C_LINES)
    yield "plan-c-lines-exchanged", problem_file(5, [(0, 2)] * 2, PLAN_C_LINES[::-1])
    # Items on dialogues and on talks are printed five to a passage.
    paper = [(2, 10), (1, 7), (1, 5), (2, 7), (4, 8)]
    fives = [divided(5, 0, 1, 1), divided(5, 0, 0, 0, 1, 1)]
    points = [[-46, 1, 2, 2, 2, 3], [46, -1, -2, -2, -2, -3]]
    others = [[-24] + [1] * 5, [24] + [-1] * 5] + points + [[-70, 2, 3, 3, 2, 3], [0, 0, 0, -2, 1, 0]]
    yield "five-to-a-passage", problem_file(100, paper, fives + others)
    yield "five-to-a-passage-fives-last", problem_file(100, paper, others + fives)
    yield "five-to-a-passage-none", problem_file(500, paper, fives + others + [[5, -1, 0, 0, 0, 0], [-5, 1, 0, 0, 0, 0]])
    # An equation as two lines, with what divides one of its quantities or another sum.
    equation = [[-41, 3, 5, 7], [41, -3, -5, -7]]
    yield "equation-and-divisor", problem_file(50, [(0, 9)] * 3, equation + [divided(4, 0, 0, 0, 1)])
    yield "equation-and-divisor-of-a-sum", problem_file(50, [(0, 9)] * 3, equation + [divided(6, 3, 1, 2, 3)])
    yield "equation-and-divisor-none", problem_file(200, [(0, 9)] * 3, equation + [divided(7, 0, 1, 1, 0), divided(6, 5, 1, 0, 1)])
    yield "divisor-none-at-once", problem_file(5, [(0, 9)] * 2, [divided(4, 1, 2, 2)])
    yield "divisor-none-at-once-budget-0", problem_file(0, [(0, 9)] * 2, [divided(4, 1, 2, 2)])
    yield "divisor-none-of-parities", problem_file(50, [(0, 2)] * 3, [divided(2, 0, 1, 1, 0), divided(2, 0, 0, 1, 1), divided(2, 1, 1, 0, 1)])
    yield "divisor-none-not-seen-at-once", problem_file(9, [(1, 3)], [divided(5, 0, 1)])
    yield "divisor-without-coefficients-met", problem_file(5, [(0, 1)], [divided(7, -14, 0)])
    yield "divisor-without-coefficients-false", problem_file(5, [(0, 1)], [divided(7, -13, 0)])
    yield "divisor-first-of-the-false", problem_file(5, [(0, 3)] * 2, [divided(6, 3, 2, 4), [1, -1, 1], [1]])
    yield "inequality-first-of-the-false", problem_file(5, [(0, 3)] * 2, [[1], divided(6, 3, 2, 4)])
    # The divisor of the open quantities alone: 3 does not count once v2 is fixed.
    yield "divisor-fixed-left-out", problem_file(9, [(0, 4), (1, 1)], [divided(6, 1, 2, 3)])
    yield "divisor-fixed-left-out-false", problem_file(9, [(0, 4), (2, 2)], [divided(6, 1, 2, 3)])
    yield "divisor-of-a-negative-rest", problem_file(9, [(-9, -5), (-3, 3)], [divided(7, -3, 1, -2)])
    yield "divisor-is-not-rounded", problem_file(9, [(1, 9)], [divided(4, 0, 2)])
    yield "divisor-constant-is-not-rounded", problem_file(9, [(0, 9)] * 2, [divided(9, 3, 3, 6), [3, -1, -1]])
    yield "divisor-implies-no-bound", problem_file(9, [(0, 9)] * 2, [divided(4, 3, -1, 0), [-12, 1, 1]])
    # A cut with the numbers of a divisor line is made; a false line with such a twin keeps its own number.
    yield "cut-with-the-numbers-of-a-divisor-line", problem_file(9, [(0, 2)] * 3, [[2, -2, -2, 2], [0, -1, 2, -1], divided(2, 2, -3, 0, 1)])
    yield "false-line-with-a-divisor-twin", problem_file(5, PLAN_A_LIMITS, [divided(2, 3, 2, -1), [3, 2, -1]])
    yield "divisor-2", problem_file(9, [(0, 1)] * 3, [divided(2, 0, 1, 1, 1), [1, -1, 0, -1]])
    far = [(FAR - 3, FAR)]
    yield "divisor-largest", problem_file(9, far * 2, [divided(MAX_DIVISOR, 0, 1, 0), divided(MAX_DIVISOR, MAX_DIVISOR // 2, 0, MAX_DIVISOR // 2)])
    yield "divisor-largest-none", problem_file(9, [(-FAR, 3 - FAR)], [divided(MAX_DIVISOR, 4, 1)])
    heaviest = [MAX_COEFFICIENT] * 31 + [MAX_COEFFICIENT - 1]
    corner = [(FAR, FAR)] * 32
    yield "rest-largest", problem_file(9, corner, [divided(MAX_DIVISOR - 1, MAX_COEFFICIENT, *heaviest)])
    yield "rest-largest-met", problem_file(9, corner, [divided(MAX_DIVISOR, MAX_COEFFICIENT, *heaviest)])
    yield "rest-least", problem_file(9, corner, [divided(MAX_DIVISOR - 1, -MAX_COEFFICIENT, *[-a for a in heaviest])])
    yield "divisor-at-depth-32", problem_file(9, [(0, 1)] * 32, [divided(2, 1, *[1] * 32)])
    # Neighbours in a ring of 32 differ: v1 + v2 + 1 is even, and so on, said twice.
    ring = [[1 if i in (k, (k + 1) % 32) else 0 for i in range(32)] for k in range(32)]
    twice = [divided(2, 1, *numbers) for numbers in ring] + [divided(4, 2, *[2 * a for a in numbers]) for numbers in ring]
    yield "divisor-n-32-m-64", problem_file(40, [(0, 1)] * 32, twice)
    yield "cuts-dropped-with-a-divisor", problem_file(260, [(0, 4)] * 11, CUTS + [divided(2, 1, *[1] * 7)])


def jump_files():
    """Five pigeons in four holes, with divisors of some of the seats taken: cuts go back over up to four levels, between dead ends on divisors."""
    seats = range(20)
    pigeons = [[1] + [-1 if i // 4 == k else 0 for i in seats] for k in range(5)] + [[-1] + [1 if i % 4 == k else 0 for i in seats] for k in range(4)]
    threes = divided(3, 0, *[1 if i in (5, 8, 11) else 0 for i in seats])
    pair, four = (divided(2, 1, *[1 if i in some else 0 for i in seats]) for some in [(4, 12), (3, 4, 10, 11)])
    yield "back-over-levels-and-a-divisor", problem_file(60, [(0, 1)] * 20, [threes] + pigeons)
    yield "back-over-levels-and-divisors", problem_file(60, [(0, 1)] * 20, [pair, four] + pigeons)
    yield "back-over-levels-and-divisors-last", problem_file(60, [(0, 1)] * 20, pigeons + [pair, four])


def listing_files():
    """Solutions struck out at each depth, between cuts that are dropped, and with a budget at the conflicts that it takes and below."""
    yield "struck-at-each-depth", problem_file(0, [(0, 1)] * 31, [[-1] + [1] * 31])
    yield "struck-between-cuts-dropped", problem_file(297, [(0, 4)] * 11, CUTS)
    yield "struck-between-cuts-dropped-spent", problem_file(296, [(0, 4)] * 11, CUTS)
    for budget in [2, 3, 4]:
        yield "plan-c-budget-%d" % budget, problem_file(budget, [(0, 2)] * 2, PLAN_C_LINES)


def sparse(n, constant, terms):
    """A row of n coefficients, 0 where no term is given; variables count from 0."""
    return [constant] + [terms.get(i, 0) for i in range(n)]


def ring(n, gap):
    """v1 <= v2 <= .. <= vn <= v1 - gap."""
    return [sparse(n, gap if i == n - 1 else 0, {i: 1, (i + 1) % n: -1}) for i in range(n)]


def switches(pairs):
    """Switches of 0 and 1, and a pair of variables for each, which creeps to a dead end while the switch is 0, and is equal while it is 1."""
    places = [(k, pairs + 2 * k, pairs + 2 * k + 1) for k in range(pairs)]
    return [sparse(3 * pairs, *row) for k, v, w in places for row in [(1, {k: -1, v: 1, w: -1}), (0, {v: -1, w: 1})]]


def creep_files():
    """Bounds that creep up one by one, and their count: to 'none', to turns that are spent in the middle, and between strikes."""
    yield "creep-ring", problem_file(0, [(0, 9)] * 6, ring(6, 0))
    yield "creep-ring-none", problem_file(1, [(0, 99)] * 6, ring(6, 1))
    yield "creep-ring-spent", problem_file(0, [(0, 99)] * 6, ring(6, 1))
    for name, budget in [("by-threes", 14), ("by-threes-spent", 9)]:
        yield "creep-ring-%s" % name, problem_file(budget, [(0, 20)] * 4, ring(4, 0) + [divided(3, 0, 0, 0, 0, 1)])
    for budget, highest in [(0, 100), (2, 100), (3, 2)]:
        yield "creep-switches-budget-%d" % budget, problem_file(budget, [(0, 1)] * 3 + [(0, highest)] * 6, switches(3))
    yield "creep-switches-none", problem_file(9, [(0, 1)] * 4 + [(-50, 50)] * 8, switches(4) + [sparse(12, -3, {i: 1 for i in range(4)})])
    # (0, 0, 0) is the only solution; once it is struck out v2 and v3 creep.
    once = [[0, -300, 1, 0], [0, -300, 0, 1], [0, 1, 1, -1], [0, 0, -1, 1]]
    for name, budget in [("none", 1), ("spent", 0)]:
        yield "struck-then-creep-%s" % name, problem_file(budget, [(0, 3)] + [(0, 300)] * 2, once)


GROUPS = [torn_files, bad_files, edge_files, bound_files, walk_files, range_files, cut_files, block_files, bad_divisor_files, divisor_files, jump_files,
          listing_files, creep_files]

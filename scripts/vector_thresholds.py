"""Plan files about thresholds ('unused, or at least so many') that scripts/make_vectors.py stores."""
import implementation  # it puts reference/ on the path
from files import MAX_COEFFICIENT, THRESHOLD_OFFSET, problem_file
from vector_files import FAR, PLAN_A_LIMITS, PLAN_A_LINES, blocks, divided, head, line, with_byte

PAIR = [(0, 4)] * 2


def equation(total, *coefficients):
    return [[-total, *coefficients], [total] + [-a for a in coefficients]]


def bad_threshold_files():
    """Refused with 13, alone and beside others; and with what comes before and after it."""
    for name, threshold in [("1", 1), ("minus-1", -1), ("one-more", 5)]:
        yield "threshold-%s" % name, problem_file(5, PAIR, PLAN_A_LINES, [0, threshold])
    for name, lower in [("1", 1), ("minus-1", -1)]:
        yield "threshold-with-lower-limit-%s" % name, problem_file(5, [(0, 4), (lower, 4)], PLAN_A_LINES, [3, 3])
    yield "limits-before-threshold", problem_file(5, [(0, 4), (1, 0)], PLAN_A_LINES, [1])
    yield "threshold-before-heavy", problem_file(5, PAIR, [[1, MAX_COEFFICIENT + 1, 0]], [0, 1])
    yield "threshold-before-divisor", problem_file(5, PAIR, [divided(1, 1, -1, -1)], [0, 1])
    lines = [line(row) for row in PLAN_A_LINES]
    good = head(5, PLAN_A_LIMITS, 2)
    end = THRESHOLD_OFFSET + 4 * len(PLAN_A_LIMITS)
    yield "threshold-before-stray", blocks([with_byte(with_byte(good, THRESHOLD_OFFSET, 2), end, 2)] + lines)
    yield "stray-threshold-past-n", blocks([with_byte(good, end, 2)] + lines)
    yield "stray-before-thresholds", blocks([with_byte(good, THRESHOLD_OFFSET - 1, 2)] + lines)
    yield "stray-threshold-33-of-32", blocks([with_byte(head(5, [(0, 4)] * 32, 0), THRESHOLD_OFFSET + 4 * 32, 2)])


def threshold_files():
    """Bounds that jump over the gap: implied ones, turned ones, and what comes of them."""
    yield "threshold-lower-jumps", problem_file(5, PAIR, [[1, -1, 0], [-4, 1, 1]], [3])
    yield "threshold-upper-jumps", problem_file(5, PAIR, [[-2, 1, 0], [1, -1, -1]], [3])
    # Plan A: its first dead end turns v1 = 0 to v1 >= 3; v2 >= 1 becomes v2 >= 2.
    yield "plan-a-with-thresholds", problem_file(5, PAIR, PLAN_A_LINES, [3, 2])
    # With v1 = 0 line 1 gives v2 <= 2, which becomes 0; line 2, false by then, is combined with it.
    yield "threshold-upper-taken-in", problem_file(5, [(0, 1), (0, 4)], [[-2, -4, 1], [3, -3, -1]], [0, 3])
    yield "threshold-struck", problem_file(0, PAIR, [], [3, 2])
    yield "threshold-at-the-limit", problem_file(20, [(0, 3), (0, 4), (0, 5)], equation(8, 1, 1, 1), [3, 4, 5])
    yield "threshold-2-everywhere", problem_file(40, [(0, 3)] * 5, equation(11, 1, 2, 1, 3, 1), [2] * 5)
    # 5 is no sum of two numbers out of 0, 3 and 4.
    yield "threshold-none-by-the-gap", problem_file(9, PAIR, equation(5, 1, 1), [3, 3])
    # v1 >= 1 becomes v1 >= 3, which makes line 2 false; their outcome, - v2, is not false and so not taken.
    yield "threshold-outcome-not-false", problem_file(9, [(0, 4), (0, 1)], [[1, -1, 0], [-1, 1, -1]], [3])
    yield "threshold-largest", problem_file(9, [(0, FAR)] * 32, [[FAR] + [-1] * 31 + [0], [1] + [0] * 31 + [-1]], [FAR] * 32)


def threshold_divisor_files():
    """With divisors, whose test does not see the gap."""
    yield "threshold-divisor", problem_file(20, [(0, 7)] * 2, [divided(5, 0, 1, 1), [1, -1, -1]], [3, 4])
    yield "threshold-divisor-in-the-gap", problem_file(9, [(0, 4)], [divided(5, 3, 1)], [3])
    # A paper whose passages have five items, and whose parts have none or at least so many.
    paper = [(0, 10), (0, 7), (0, 5), (0, 7), (0, 8)]
    lines = [divided(5, 0, 1, 1), divided(5, 0, 0, 0, 1, 1)] + equation(24, *[1] * 5) + equation(46, 1, 2, 2, 2, 3)
    for name, budget in [("paper", 100), ("paper-spent", 12)]:
        yield "threshold-%s" % name, problem_file(budget, paper, lines, [4, 3, 3, 6, 2])


GROUPS = [bad_threshold_files, threshold_files, threshold_divisor_files]

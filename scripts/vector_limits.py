"""Plan files with limits beyond 2^20, most of them at the ends of their range, that scripts/make_vectors.py stores. Those refused for one more are in
scripts/vector_files.py."""
import implementation  # it puts reference/ on the path
from files import MAX_BOUND, MAX_COEFFICIENT, MAX_DIVISOR, problem_file
from vector_files import BEYOND, FAR, HALF, PLAN_A_LINES, blocks, divided, head, line, with_byte

ALL = (-MAX_BOUND, MAX_BOUND)
HIGHEST = (MAX_BOUND, MAX_BOUND)
LOWEST = (-MAX_BOUND, -MAX_BOUND)
# The last coefficient keeps lines from being rounded.
HEAVY = [MAX_COEFFICIENT] * 31 + [MAX_COEFFICIENT - 1]


def negated(numbers):
    return [-a for a in numbers]


def moved(rows, distance):
    """The rows of variables that are so much larger."""
    return [[row[0] - distance * sum(row[1:])] + row[1:] for row in rows]


def other_defect_files():
    """Refused for something else: 13, 6, 10 and 7. The divisor is in the range of limits."""
    limits = [(0, FAR + 1), ALL]
    yield "limits-wide-threshold", problem_file(5, [(0, MAX_BOUND), ALL], PLAN_A_LINES, [MAX_BOUND + 1])
    yield "limits-wide-heavy", problem_file(5, limits, [[0, 0, MAX_COEFFICIENT + 1]])
    yield "limits-wide-divisor", problem_file(5, limits, [divided(MAX_BOUND, 1, -1, -1)])
    yield "limits-wide-stray", blocks([with_byte(head(5, [ALL] * 2, 2), 507, 1)] + [line(row) for row in PLAN_A_LINES])


def sum_files():
    """Sums of 32 terms of 2^54, and bounds that they imply."""
    signs = [1, -1] * 16
    yield "sum-largest", problem_file(1, [HIGHEST, LOWEST] * 16, [[MAX_COEFFICIENT] + [s * a for s, a in zip(signs, HEAVY)]])
    # The lowest value is -2^59 at first. With 16 variables at the lowest limit the others must be at the highest, where the sum is 0.
    numbers = HEAVY[:30] + [MAX_COEFFICIENT - 63, MAX_COEFFICIENT - 1]
    yield "sum-least-to-0", problem_file(1, [ALL] * 32, [[-MAX_COEFFICIENT] + negated(numbers)])
    # Line 1 raises v32 to 2^24; there line 2 is above 0 by one, and so is what they give together.
    balanced = HEAVY[:16] + negated(HEAVY[16:])
    rows = [[-MAX_BOUND] + balanced, [MAX_BOUND + 1] + negated(balanced)]
    yield "sum-past-0-by-one", problem_file(1, [HIGHEST] * 31 + [ALL], rows)


def bound_files():
    """Bounds that go from one end of the range to the other: at once, in strides and one by one."""
    # v1 is raised, v2 lowered and v3 raised; then line 4 is above 0 by one.
    heavy, next_to_it = MAX_COEFFICIENT, MAX_COEFFICIENT - 1
    rows = [[MAX_BOUND, -1, 0, 0, 0], [-MAX_BOUND, heavy, next_to_it, 0, 0], [MAX_BOUND, 0, -next_to_it, -heavy, 0], [0, 1, 2, 1, 1]]
    yield "bounds-over-all-values", problem_file(5, [ALL] * 3 + [(1, 1)], rows)
    yield "creep-in-strides", problem_file(5, [ALL] * 2, [[1000, 1, -1], [0, -1, 1]])
    yield "creep-over-all-values", problem_file(5, [(0, MAX_BOUND)] * 2, [[1, 1, -1], [0, -1, 1]])


def walk_files():
    """Dead ends, cuts, bounds that jump, and solutions struck out."""
    # Four variables of 0 and 1, moved to the end of the range.
    rows = moved([[2, 3, 2, -3, -3], [-2, -3, -3, 3, 3]], -MAX_BOUND)
    yield "none-at-depth-2-far-out", problem_file(5, [(-MAX_BOUND, 1 - MAX_BOUND)] * 4, rows)
    equation = [56957708, -1, -7, 17, -9]
    limits = [(MAX_BOUND - 5, MAX_BOUND), (-MAX_BOUND, 5 - MAX_BOUND), ALL, (0, 4)]
    yield "equation-far-out", problem_file(60, limits, [equation, negated(equation), [-49891972, 0, 2, -9, 3]])
    yield "plan-a-over-all-values", problem_file(9, [ALL] * 2, PLAN_A_LINES + [[-2, 1, 0]])
    # Multiples of 2^20: each strike leads on to the next one.
    yield "struck-over-all-values", problem_file(0, [ALL, (-16, 16)], [[0, 1, -FAR], [0, -1, FAR]])
    # Plan A, whose first dead end turns v1 = 0 to v1 >= 2^24; v3 <= 2^20 becomes 0, and v4 >= 1 becomes 2^20 + 1.
    rows = PLAN_A_LINES + [[-FAR, 0, 0, 1, 0], [1, 0, 0, 0, -1]]
    limits, thresholds = [(0, MAX_BOUND)] * 3 + [(0, FAR + 1)], [MAX_BOUND, MAX_BOUND - 1, FAR + 1, FAR + 1]
    yield "plan-a-with-thresholds-far-out", problem_file(9, limits, rows, thresholds)


def divisor_files():
    """Divisors, which end at 2^20, of sums near 2^59, and beside bounds that change by 2^20 and more."""
    q = MAX_DIVISOR - 1
    constant = MAX_COEFFICIENT - (MAX_COEFFICIENT + MAX_BOUND * sum(HEAVY)) % q
    rows = [divided(q, constant, *HEAVY), divided(q, -constant, *negated(HEAVY)), divided(q, constant - 1, *HEAVY)]
    yield "rest-largest-far-out", problem_file(1, [HIGHEST] * 32, rows)
    # v3 is 2^20 times v1 + v2.
    rows = [divided(MAX_DIVISOR, 1, 1, 0, 0), divided(3, 0, 0, 1, 1), [0, -FAR, -FAR, 1], [0, FAR, FAR, -1]]
    yield "divisors-far-out", problem_file(20, [(MAX_BOUND - 3, MAX_BOUND), (-MAX_BOUND, 6 - MAX_BOUND), ALL], rows)


def outcome_files():
    """Outcomes with a coefficient of 2^30, which are taken, and of one more, which are not, where variables are far out."""
    # With v1 = 0 line 2 raises v4, and so makes line 3 false. The outcome with line 1, which raises v2, is out of range: it is not taken.
    limits = [(0, 1), ALL, HIGHEST, (0, 3)]
    rows = [[MAX_BOUND, 0, -1, 0, 0], [1, -1, HALF, -HALF, -1]]
    yield "outcome-far-out", problem_file(9, limits, rows + [[-MAX_BOUND, -1, HALF, 1 - HALF, 1]])
    yield "outcome-far-out-one-more", problem_file(9, limits, rows + [[MAX_BOUND, -1, HALF, -1 - HALF, 1]])
    yield "outcome-87-bits", problem_file(6, [ALL] * 8, BEYOND)


GROUPS = [other_defect_files, sum_files, bound_files, walk_files, divisor_files, outcome_files]

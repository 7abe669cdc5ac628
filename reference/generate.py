"""Generated files, for comparisons: `generate(seed, kind, budget)`. The same seed and kind give the same bytes.

Problems of inequalities are in reference/problems.py, damaged files in reference/damage.py. Here, each a function of a random generator that gives domain
bounds and rows (an inequality's constant, then its coefficients; or a constraint), are those with divisor constraints:
  div, divbig             small boxes; with small numbers, and with the largest divisors, coefficients and domain bounds
  passage                 examination papers whose items are printed so many to a passage
  sums                    equations, each as two inequalities, and what divides other sums of the same variables
  residues                remainders that contradict each other, at once or only when all is decided; most have no solution
  jumps                   pigeonhole problems with divisors: both sorts of conflicts far down, and cuts that go back over many levels
  divisor_edges           divisors at the edges of their range, or one beyond
and with thresholds, whose list such a function gives as well:
  thresh, threshbig       small boxes; with limits and thresholds to 2^24
  threshdiv               with divisor constraints too
  gaps                    totals that variables reach only in steps, so that many have no solution
  threshold_edges         thresholds at the edges of their range, or one beyond
and with the widest limits:
  wide                    narrow boxes far out and wide ones; bounds that creep over all of it in strides; sums near 2^59
"""
import random

from damage import DAMAGE, by_name
from files import MAX_BOUND, MAX_BUDGET, MAX_COEFFICIENT, MAX_DIVISOR, Constraint, problem_file
from problems import (between, blue, bluew, creep, creepd, creepn, dense, edges, equation, frob, heavy, knap, market, parity, pigeon, rand, small,
                      some_box, some_point, tiny, tinybig, value)

BUDGETS = [0, 1, 2, 5, 20, 63, 64, 65, 66, 130, 500]


# ---- problems with divisor constraints

def multiple(rnd, q, numbers, point):
    """q divides the sum of numbers times variables plus a constant, so that the point meets it; one in eight misses."""
    return Constraint(q * rnd.randint(-2, 2) - value(numbers, point) + (rnd.random() < 0.12), numbers, q)


def some_of(rnd, n, most):
    """1 for up to so many of n variables, 0 for the others."""
    chosen = rnd.sample(range(n), rnd.randint(1, min(most, n)))
    return [1 if i in chosen else 0 for i in range(n)]


def div(rnd):
    """Random rows, some with a divisor, some twice: with a divisor and then without."""
    limits, rows = tiny(rnd, 4)
    chosen = []
    for row in rows:
        sort = rnd.randrange(4)
        chosen += [Constraint(row[0], row[1:], rnd.choice([2, 3, 4, 5, 6, 7, 12]))] * (sort > 0) + [row] * (sort < 2)
    return limits, chosen


def divbig(rnd):
    n = rnd.randint(1, 4)
    lows = [rnd.choice([-MAX_BOUND, MAX_BOUND - 9, 0]) for _ in range(n)]
    limits = [(low, min(MAX_BOUND, low + rnd.choice([0, 1, 3, 9, 2 * MAX_BOUND]))) for low in lows]
    point = some_point(rnd, limits)
    rows = []
    for _ in range(rnd.randint(1, 4)):
        q = rnd.choice([2, 6, 999983, MAX_DIVISOR - 1, MAX_DIVISOR, MAX_DIVISOR])
        numbers = [rnd.choice([0, 1, q, MAX_DIVISOR // 2, MAX_COEFFICIENT, rnd.randint(1, MAX_COEFFICIENT)]) * rnd.choice([1, -1]) for _ in range(n)]
        # A multiple of q away from the value at the point, if it is in range.
        rows.append(Constraint(-value(numbers, point) % q + rnd.choice([0, 0, 0, -q, 1]), numbers, q))
    return limits, rows + [[rnd.randint(-9, 9) - value(numbers, point)] + numbers for numbers in [some_of(rnd, n, n)]]


def passage(rnd):
    n, q = rnd.randint(3, 10), rnd.choice([3, 4, 5, 5, 5, 6])
    limits = [(0, rnd.randint(2, 3 * q)) for _ in range(n)]
    point = some_point(rnd, limits)
    rows = [Constraint(rnd.choice([0, 0, 0, 1]), some_of(rnd, n, 3), q) for _ in range(rnd.randint(1, 4))]
    for numbers in [[1] * n, [rnd.randint(1, 4) for _ in range(n)]]:
        middle = value(numbers, point)
        rows += between(numbers, middle - rnd.randint(0, q), middle + rnd.randint(0, q))
    rnd.shuffle(rows)
    return limits, rows


def sums(rnd):
    limits = some_box(rnd, rnd.randint(2, 7), 8)
    point = some_point(rnd, limits)
    rows = []
    for _ in range(rnd.randint(1, 3)):
        numbers = [rnd.randint(-3, 9) for _ in limits]
        rows += equation(numbers, value(numbers, point))
        rows.append(multiple(rnd, rnd.choice([2, 3, 5, 7, 16]), [rnd.randint(-6, 6) for _ in limits], point))
    rnd.shuffle(rows)
    return limits, rows


def residues(rnd):
    """A ring of neighbours whose differences have remainders; they add up to 0 by chance only. Sometimes one sum that q cannot divide."""
    q, n = rnd.choice([2, 2, 3, 4, 5]), rnd.randint(2, 6)
    rows = []
    for i in range(n):
        numbers = [0] * n
        numbers[i], numbers[(i + 1) % n] = 1, -1
        rows.append(Constraint(rnd.randint(-q, q), numbers, q))
    if rnd.random() < 0.25:
        rows.insert(rnd.randint(0, n), Constraint(rnd.randint(1, 9), [4 * rnd.randint(-2, 2) for _ in range(n)], 2 * rnd.randint(1, 6)))
    return some_box(rnd, n, q), rows


def jumps(rnd):
    """Pigeons in holes, with what divides the number of some seats taken."""
    limits, rows = pigeon(rnd)
    for _ in range(rnd.randint(1, 3)):
        numbers = [rnd.randint(1, 2) * (rnd.random() < 0.3) for _ in limits]
        rows.insert(rnd.randint(0, len(rows)), Constraint(rnd.randint(-3, 3), numbers, rnd.choice([2, 2, 3, 4])))
    return limits, rows


DIVISOR_EDGES = [2, MAX_DIVISOR, MAX_DIVISOR, 0, 1, -1, -2, MAX_DIVISOR + 1, -MAX_DIVISOR, 2**31 - 1, -(2**31)]


def divisor_edges(rnd):
    """Most often with all divisors in range."""
    n, good = rnd.choice([1, 2, 31, 32]), rnd.random() < 0.6
    limits = [(0, rnd.randint(0, 2)) for _ in range(n)]
    choices = DIVISOR_EDGES[:4] if good else DIVISOR_EDGES
    ends = [0, 1, 1, 2, MAX_DIVISOR, MAX_DIVISOR // 2, MAX_COEFFICIENT]
    rows = []
    for _ in range(rnd.randint(1, 3)):
        numbers = [rnd.choice(ends) * rnd.choice([1, -1]) for _ in range(n)]
        rows.append(Constraint(rnd.choice(ends), numbers, rnd.choice(choices)))
    return limits, rows


# ---- problems with thresholds

NARROW = 20  # Variables with a higher limit have a threshold near it: else there would be too many solutions to list.
LIGHT = MAX_COEFFICIENT // MAX_BOUND - 4  # Coefficients that add up to this give constants in range, whatever the limits.


def some_domain(rnd, upper):
    """Limits and a threshold, or none; the ends of their range are common."""
    if upper > NARROW:
        return (0, upper), upper - rnd.randint(0, 4)
    lower = rnd.choice([0] * 7 + [-2, 1])
    fits = lower == 0 and upper >= 2
    return (lower, upper), rnd.choice([0, 2, upper, rnd.randint(2, upper), rnd.randint(2, upper)]) if fits else 0


def allowed_point(rnd, limits, thresholds):
    return [rnd.choice([lower, rnd.randint(threshold or lower, upper)]) for (lower, upper), threshold in zip(limits, thresholds)]


def with_thresholds(rnd, n, uppers):
    """Variables with limits and thresholds, a few without and with any lower limit, and a point of theirs."""
    limits, thresholds = map(list, zip(*(some_domain(rnd, rnd.choice(uppers)) for _ in range(n))))
    return limits, thresholds, allowed_point(rnd, limits, thresholds)


def near_rows(rnd, count, size, point):
    """Rows that the point meets or nearly meets."""
    rows = []
    for _ in range(count):
        numbers = [rnd.randint(-size, size) * (rnd.random() < 0.7) for _ in point]
        rows.append([rnd.choice([1, 0, 0, 0, -1, -2, -5]) - value(numbers, point)] + numbers)
    return rows


def thresh(rnd):
    limits, thresholds, point = with_thresholds(rnd, rnd.randint(1, 5), range(1, 9))
    return limits, near_rows(rnd, rnd.randint(0, 6), rnd.choice([1, 4]), point), thresholds


def threshbig(rnd):
    """With limits and thresholds to 2^24; the numbers are small enough for constants in range."""
    limits, thresholds, point = with_thresholds(rnd, rnd.randint(1, 4), [1, 2, 9, MAX_BOUND - 1, MAX_BOUND, MAX_BOUND])
    return limits, near_rows(rnd, rnd.randint(1, 5), LIGHT // len(point), point), thresholds


def threshdiv(rnd):
    limits, thresholds, point = with_thresholds(rnd, rnd.randint(2, 6), range(2, 13))
    rows = near_rows(rnd, rnd.randint(1, 3), 3, point)
    rows += [multiple(rnd, rnd.choice([2, 3, 4, 5, 7, 12]), some_of(rnd, len(point), 4), point) for _ in range(rnd.randint(1, 3))]
    rnd.shuffle(rows)
    return limits, rows, thresholds


def gaps(rnd):
    """Sums whose values lie far apart, as few of the variables may be used and none of them a little; a total at random is often missed."""
    n, upper = rnd.randint(3, 9), rnd.randint(4, 9)
    thresholds = [rnd.randint(upper // 2, upper) for _ in range(n)]
    weights = [rnd.randint(1, 3) for _ in range(n)]
    rows = equation(weights, rnd.randint(1, upper * sum(weights) // 2))
    rows += [[rnd.randint(2, upper)] + [-a for a in some_of(rnd, n, 3)] for _ in range(rnd.randint(0, 3))]
    return [(0, upper)] * n, rows, thresholds


def threshold_edges(rnd):
    """Thresholds at the edges of their range; not always, one of them beyond, or beside a lower limit that is not 0. The first row leaves few solutions."""
    n = rnd.choice([1, 2, 31, 32])
    limits = [(0, rnd.choice([2, 3, MAX_BOUND])) for _ in range(n)]
    thresholds = [upper if upper > NARROW else rnd.choice([0, 2, upper]) for _, upper in limits]
    i, sort = rnd.randrange(n), rnd.randrange(5)
    if sort == 0:
        limits[i] = (rnd.choice([-1, 1]), limits[i][1])
    elif sort == 1:
        thresholds[i] = rnd.choice([1, -1, limits[i][1] + 1, MAX_BOUND + 1, 2**31 - 1, -(2**31)])
    few = [-MAX_BOUND] + [1 if upper > NARROW else MAX_BOUND // 4 for _, upper in limits]
    return limits, [few] + near_rows(rnd, rnd.randint(0, 3), 3, [0] * n), thresholds


# ---- problems with the widest limits

def far_domain(rnd):
    """A few values anywhere, most often at an end of the range, with a threshold or none."""
    width = rnd.randint(0, 6)
    low = rnd.choice([-MAX_BOUND, MAX_BOUND - width, rnd.randint(-MAX_BOUND, MAX_BOUND - width)])
    return some_domain(rnd, rnd.randint(MAX_BOUND // 16, MAX_BOUND)) if rnd.random() < 0.2 else ((low, low + width), 0)


def heavy_row(rnd, point):
    """A row that the point meets or nearly meets, with coefficients to 2^30."""
    numbers, i, j = [0] * len(point), rnd.randrange(len(point)), rnd.randrange(len(point))
    factor = rnd.choice([1, -1]) * rnd.randint(1, MAX_COEFFICIENT // MAX_BOUND)
    numbers[i] += factor * point[j]
    numbers[j] -= factor * point[i]
    return [rnd.choice([1, 0, 0, -1, -MAX_COEFFICIENT])] + numbers


def far_boxes(rnd):
    """One of the variables has all values; equations tie it to the others."""
    limits, thresholds = map(list, zip(*(far_domain(rnd) for _ in range(rnd.randint(2, 8)))))
    i, size = rnd.randrange(len(limits)), LIGHT // len(limits)
    limits[i], thresholds[i] = rnd.choice([(-MAX_BOUND, MAX_BOUND), (0, MAX_BOUND), (-MAX_BOUND, 0)]), 0
    point = [rnd.randint(threshold or lower, upper) for (lower, upper), threshold in zip(limits, thresholds)]
    rows = near_rows(rnd, rnd.randint(0, 2), size, point) + [heavy_row(rnd, point) for _ in range(rnd.choice([0, 0, 1]))]
    for factor in rnd.choice([[1], [-size], [size, 0]]):
        numbers = [rnd.randint(-size, size) for _ in limits]
        numbers[i] = factor
        rows += equation(numbers, value(numbers, point) + rnd.choice([0] * 7 + [1]))
    if rnd.random() < 0.3:
        rows.append(multiple(rnd, rnd.choice([2, 3, 7, 1000, MAX_DIVISOR - 1, MAX_DIVISOR]), some_of(rnd, len(point), 3), point))
    rnd.shuffle(rows)
    return limits, rows, thresholds


def far_strides(rnd):
    """Two variables whose bounds creep over all values, up or down, to a dead end."""
    ways = rnd.choice([[[1, -1], [-1, 1]], [[-1, 1], [1, -1]]])
    return [(-MAX_BOUND, MAX_BOUND)] * 2, [[gap] + numbers for gap, numbers in zip([MAX_BOUND // rnd.randint(1, 999), 0], ways)]


def far_sums(rnd):
    """32 variables at the ends of the range: a sum near 2^59 in size, and such terms that come to nearly 0, where one variable has all values."""
    point = [rnd.choice([-MAX_BOUND, MAX_BOUND]) for _ in range(32)]
    limits = [(v, v) for v in point]
    limits[rnd.randrange(1, 32, 2)] = (-MAX_BOUND, MAX_BOUND)
    terms = [v // MAX_BOUND * (MAX_COEFFICIENT - (i == 31)) for i, v in enumerate(point)]
    sign, balanced = rnd.choice([1, -1, -1, -1]), [a * (-1) ** i for i, a in enumerate(terms)]
    near_zero = [rnd.choice([1, 0, 0, -1]) - value(balanced, point)] + balanced
    return limits, rnd.sample([[rnd.choice([1, -1]) * MAX_COEFFICIENT] + [sign * a for a in terms], near_zero], 2)


def wide(rnd):
    return rnd.choice([far_boxes, far_boxes, far_boxes, far_strides, far_sums])(rnd)


# ---- by name

FAMILIES = by_name(tiny, tinybig, rand, pigeon, parity, market, knap, frob, creep, creepn, creepd, blue, bluew, div, divbig, passage,
                   thresh, threshbig, threshdiv, wide)
PROBLEMS = {**FAMILIES, **by_name(heavy, small, dense, edges, sums, residues, jumps, divisor_edges, gaps, threshold_edges)}


def some_budget(rnd, kind):
    return rnd.choice([0, 1, 5, MAX_BUDGET, MAX_BUDGET, MAX_BUDGET + 1] if kind == "edges" else BUDGETS)


def generate(seed, kind, budget=None, good=None):
    """A file. `good` gives the files that are damaged; without it they are of the kinds above."""
    rnd = random.Random("%d %s" % (seed, kind))
    if kind in DAMAGE:
        return DAMAGE[kind](rnd, good or (lambda: generate(rnd.randrange(10**6), rnd.choice(list(FAMILIES)), budget)))
    limits, rows, *thresholds = PROBLEMS[kind](rnd)
    return problem_file(some_budget(rnd, kind) if budget is None else budget, limits, rows, *thresholds)

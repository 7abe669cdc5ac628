"""Made-up states: a valid one with something changed, so that one of the conditions of error 9 is broken, or just not. Each function gives pairs of a name and
the numbers that are put, a field, indexes and a value each. Past n, m, the kept cuts and the depth the state has zeros."""
from state_view import DECISION, DOMAIN, FLIPPED, HEAVIEST, LARGEST, LEAST, LIMIT, MOST, MOST_DIVISOR

LEAST_WORD, MOST_WORD = -(2**63), 2**63 - 1


def sizes(s):
    """n, m and the depth."""
    yield "n of 0", [("n", 0)]
    yield "n of 33", [("n", 33)]
    yield "n of %d" % LARGEST, [("n", LARGEST)]
    yield "a variable fewer", [("n", s.n - 1)]
    if s.n < 32:
        yield "a variable more", [("n", s.n + 1)]
        yield "n of 32", [("n", 32)]
        yield "a level more than the variables", [("depth", s.n + 1)]
        yield "a depth of 32", [("depth", 32)]
    yield "a depth of 33", [("depth", 33)]
    yield "a depth of %d" % LARGEST, [("depth", LARGEST)]
    if s.depth:
        yield "a level fewer", [("depth", s.depth - 1)]
    if s.depth < s.n:
        yield "a level more", [("depth", s.depth + 1)]
    yield "m of 65", [("m", 65)]
    yield "m of %d" % LARGEST, [("m", LARGEST)]
    if s.m:
        yield "m of 0", [("m", 0)]
        yield "a constraint fewer", [("m", s.m - 1)]
    if s.m < 64:
        yield "m of 64", [("m", 64)]
        yield "a constraint more", [("m", s.m + 1)]


def cuts_added(s, count):
    """So many further cuts, all zeros, with their numbers."""
    return [("made", s.made + count)] + [("number", s.cuts + k, s.last + 1 + k) for k in range(count)]


def counts(s):
    """The budget, the conflicts, the cuts made and the bounds set."""
    yield "a budget of 1000000000", [("budget", 10**9)]
    yield "a budget of 1000000001", [("budget", 10**9 + 1)]
    yield "a budget of %d" % LARGEST, [("budget", LARGEST)]
    yield "a budget of the conflicts counted", [("budget", s.conflicts)]
    if s.conflicts:
        yield "a budget of a conflict fewer", [("budget", s.conflicts - 1)]
    yield "as many conflicts as the budget", [("conflicts", s.budget)]
    yield "a conflict more than the budget", [("conflicts", s.budget + 1)]
    yield "as many conflicts as cuts", [("conflicts", s.made)]
    if s.made:
        yield "a conflict fewer than cuts", [("conflicts", s.made - 1)]
    missing = s.conflicts - s.made
    if missing <= 3 and s.cuts + missing < 64:
        yield "as many cuts made as conflicts", cuts_added(s, missing)
        yield "a cut made more than the conflicts", cuts_added(s, missing + 1)
    yield "%d cuts made" % LARGEST, [("made", LARGEST)]
    for name, count in [("one bound set fewer than the limit", LIMIT - 1), ("as many bounds set as the limit", LIMIT),
                        ("one bound set more than the limit", LIMIT + 1), ("%d bounds set" % LARGEST, LARGEST)]:
        yield name, [("propagations", count)]


def rows(s):
    """Constants and coefficients, at the ends of their range and one past it; and where nothing is read."""
    for j, name in s.some_rows().items():
        for size in (HEAVIEST, HEAVIEST + 1):
            sign = -1 if j % 2 else 1
            yield "a constant of %d in %s" % (sign * size, name), [("row", j, 0, sign * size)]
            yield "a last coefficient of %d in %s" % (-sign * size, name), [("row", j, s.n, -sign * size)]
    if s.rows:
        yield "a constant of %d" % LEAST_WORD, [("row", s.rows - 1, 0, LEAST_WORD)]
        yield "a coefficient of %d" % MOST_WORD, [("row", 0, 1, MOST_WORD)]
        yield "a coefficient of %d" % (-HEAVIEST - 1), [("row", s.rows - 1, 1, -HEAVIEST - 1)]
        yield "a coefficient of %d" % (HEAVIEST + 1), [("row", s.rows // 2, 1 + s.n // 2, HEAVIEST + 1)]
        if s.n < 32:
            yield "a wild coefficient past n", [("row", s.rows - 1, s.n + 1, MOST_WORD)]
    if s.rows < 128:
        yield "a wild row past the kept ones", [("row", s.rows, 0, MOST_WORD), ("row", s.rows, 1, LEAST_WORD)]


def divisors(s):
    for number in (-1, 0, 1, 2, MOST_DIVISOR, MOST_DIVISOR + 1) if s.m else ():
        yield "a divisor of %d" % number, [("divisor", s.m - 1, number)]
    if s.m > 1:
        for number in (1, 2, MOST_WORD, LEAST_WORD):
            yield "a first divisor of %d" % number, [("divisor", 0, number)]
    if s.m < 64:
        yield "a divisor of -1 past the constraints", [("divisor", s.m, -1)]


def numbers(s):
    """The numbers of the kept cuts."""
    if s.cuts < 64:
        yield "a number past the kept cuts", [("number", s.cuts, LARGEST)]
    if not s.cuts:
        return
    first, last = s.last - s.cuts + 1, s.last
    yield "the newest cut's number one more", [("number", s.cuts - 1, last + 1)]
    yield "the newest cut's number one less", [("number", s.cuts - 1, last - 1)]
    yield "the oldest cut's number one more", [("number", 0, first + 1)]
    yield "the oldest cut's number 0", [("number", 0, 0)]
    if s.cuts > 1:
        yield "the oldest two cuts' numbers exchanged", [("number", 0, first + 1), ("number", 1, first)]
        yield "all cuts' numbers one more", [("number", k, first + k + 1) for k in range(min(s.cuts, 9))]
        yield "a number in the middle", [("number", s.cuts // 2, last)]


def bounds(s):
    """Bounds at the ends of their range and one past it, and bounds that meet or cross; at several levels."""
    last = s.n - 1
    for d in s.some_levels():
        for side, bound, past in [("lower", LEAST, LEAST - 1), ("upper", MOST, MOST + 1)]:
            for number in (bound, past):
                yield "last %s bounds of %d to level %d" % (side, number, d), [(side, e, last, number) for e in range(d + 1)]
            yield "a first %s bound of %d at level %d" % (side, past, d), [(side, d, 0, past)]
        yield "a lower bound of the upper one at level %d" % d, [("lower", d, last, s.upper(d, last))]
        yield "a lower bound above the upper one at level %d" % d, [("lower", d, 0, s.upper(d, 0) + 1)]
        yield "an upper bound below the lower one at level %d" % d, [("upper", d, last, s.lower(d, last) - 1)]
    yield "a lower bound of %d" % LEAST_WORD, [("lower", s.depth, last, LEAST_WORD)]
    yield "an upper bound of %d" % MOST_WORD, [("upper", s.depth, 0, MOST_WORD)]
    if s.depth < 32:
        yield "crossed bounds past the depth", [("lower", s.depth + 1, 0, 5), ("upper", s.depth + 1, 0, MOST + 1)]
    if s.n < 32:
        yield "crossed bounds past n", [("lower", s.depth, s.n, 5), ("upper", 0, s.n, LEAST - 1)]


def reasons(s):
    """Reasons: the last constraint's number and one more, the numbers about those of 'decision' and 'flipped', and what is not read."""
    for d in s.some_levels():
        for side, field, i in [("a lower", "below", s.n - 1), ("an upper", "above", 0)]:
            for number in (s.last, s.last + 1):
                yield "%d as %s bound's reason at level %d" % (number, side, d), [(field, d, i, number)]
        yield "%d as a reason at level %d" % (FLIPPED - 1, d), [("above", d, s.n - 1, FLIPPED - 1)]
        yield "'flipped' and 'decision' as reasons at level %d" % d, [("below", d, 0, FLIPPED), ("above", d, s.n - 1, DECISION)]
        yield "1 and 'domain' as reasons at level %d" % d, [("below", d, s.n - 1, 1), ("above", d, s.n - 1, DOMAIN)]
    if s.n < 32:
        yield "wild reasons past n", [("below", 0, s.n, FLIPPED - 1), ("above", s.depth, s.n, FLIPPED - 1)]
    if s.depth < 32:
        yield "a wild reason past the depth", [("below", s.depth + 1, 0, FLIPPED - 1)]


def nesting(s):
    """Each level inside the one above it."""
    for d in sorted({1, (s.depth + 1) // 2, s.depth} - {0}) if s.depth else ():
        i, j = 0, s.n - 1
        at = " at level %d" % d
        yield "a lower bound below that of the level above" + at, [("lower", d, i, s.lower(d - 1, i) - 1)]
        yield "an upper bound above that of the level above" + at, [("upper", d, j, s.upper(d - 1, j) + 1)]
        yield "a last lower bound below that of the level above" + at, [("lower", d, j, s.lower(d - 1, j) - 1)]
        yield "a first upper bound above that of the level above" + at, [("upper", d, i, s.upper(d - 1, i) + 1)]
        yield "the bounds of the level above" + at, [(side, d, v, number) for v in range(s.n) if v != s.decided(d) for side, number in
                                                    [("lower", s.lower(d - 1, v)), ("upper", s.upper(d - 1, v))]]


def decisions(s):
    """The decided variable: in range, open above, and both its bounds at the lower bound above."""
    yield "a wild decided variable at level 0", [("decided", 0, LARGEST)]
    for d in sorted({1, (s.depth + 1) // 2, s.depth} - {0}) if s.depth else ():
        at, i = " at level %d" % d, s.decided(d)
        value = s.lower(d - 1, i)
        yield "a decided variable out of range" + at, [("decided", d, s.n)]
        yield "a decided variable of %d" % LARGEST + at, [("decided", d, LARGEST)]
        yield "a decided variable open" + at, [("upper", d, i, value + 1)]
        yield "a decided variable at its next value" + at, [("lower", d, i, value + 1), ("upper", d, i, value + 1)]
        yield "a decided variable below its lower bound" + at, [("lower", d, i, value - 1), ("upper", d, i, value - 1)]
        yield "a decided variable not open above" + at, [("upper", d - 1, i, value)]
        for name, v in others_decided(s, d):
            yield name + at, [("decided", d, v)]
    if s.depth < 32:
        yield "a wild decided variable past the depth", [("decided", s.depth + 1, LARGEST)]


def others_decided(s, d):
    """Other variables as the decided one: not open above, open above and here, and open above but fixed here."""
    sorts = {}
    for v in range(s.n):
        if v != s.decided(d):
            sorts.setdefault((s.is_open(d - 1, v), s.is_open(d, v)), v)
    names = {(False, False): "a variable with one value as the decided one", (True, True): "an open variable as the decided one",
             (True, False): "another variable as the decided one"}
    return [(names[sort], v) for sort, v in sorts.items()]


NUMBERS = [sizes, counts, rows, divisors, numbers]
LEVELS = [bounds, reasons, nesting, decisions]

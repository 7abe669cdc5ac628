"""Made-up states of every mark: marked solution and marked 'none', rightly and wrongly. Each function gives pairs of a name and the numbers that are put."""
from state_view import DECISION, DOMAIN, INFEASIBLE, SOLVED, UNDECIDED


def marks(s):
    """The state with each mark."""
    for name, status in [("no mark", UNDECIDED), ("marked 'none'", INFEASIBLE), ("marked solution", SOLVED)]:
        if status != s.status:
            yield name, [("status", status)]


def fixed(s):
    """Every variable has its lower bound as its only value in the deepest level."""
    return [put for i in range(s.n) if s.is_open(s.depth, i) for put in [("upper", s.depth, i, s.lower(s.depth, i)), ("above", s.depth, i, DOMAIN)]]


def met(s):
    """Every kept constraint is met at the lower bounds of the deepest level, one that was not with nothing left over."""
    return [("row", j, 0, s.row(j)[0] - s.value(j, s.depth)) for j in range(s.rows) if not s.is_met(j, s.depth)]


def solved(s):
    """Marked solution, with every variable fixed and every constraint met."""
    return fixed(s) + met(s) + [("status", SOLVED)]


def solutions(s):
    """Marked solution: with all as it must be, with a constraint false by one, and with a variable open."""
    yield "marked solution, all fixed and met", solved(s)
    for j, name in s.some_rows().items():
        constant = s.row(j)[0] - s.value(j, s.depth)
        yield "marked solution with %s false" % name, solved(s) + [("row", j, 0, constant + 1)]
    if s.m:
        yield "marked solution with a divisor constraint that is met", solved(s) + divided(s, 0, s.depth, 0)
        yield "marked solution with a false divisor constraint", solved(s) + divided(s, 0, s.depth, 1)
        yield "marked solution with a divisor constraint false below 0", solved(s) + divided(s, s.m - 1, s.depth, -1)
    outer = s.depth - 1
    for i in (0, s.n - 1):
        above = s.upper(outer, i) if s.depth else s.lower(0, i) + 1
        if s.lower(s.depth, i) < above and (not s.depth or s.decided(s.depth) != i):
            yield "marked solution with variable %d open" % (i + 1), solved(s) + [("upper", s.depth, i, s.lower(s.depth, i) + 1)]


def divided(s, j, d, rest):
    """Constraint j with a divisor of 2 and this value at the lower bounds of a level, more or less a multiple of 2."""
    return [("divisor", j, 2), ("row", j, 0, s.row(j)[0] - s.value(j, d) + rest)]


def emptied(s, j, constant, divisor=2):
    """Constraint j with a divisor, this constant and no coefficient, so that it is false everywhere or nowhere."""
    return [("row", j, 0, constant)] + [("row", j, 1 + i, 0) for i in range(s.n) if s.row(j)[1 + i]] + [("divisor", j, divisor)]


def infeasible(s):
    """Marked 'none': with a constraint false at level 0 by one, at the edge, and with one that is false from level 1 on."""
    mark = ("status", INFEASIBLE)
    for j, name in s.some_rows().items():
        for word, over in [("false by one", 1), ("at its edge", 0)]:
            constant = s.row(j)[0] - s.activity(j, 0) + over
            divisor = [("divisor", j, 0)] if j < s.m else []
            yield "marked 'none' with %s %s" % (name, word), [("row", j, 0, constant), *divisor, mark]
    if not s.m:
        return
    yield "marked 'none' with a false divisor constraint", emptied(s, 0, -1) + [mark]
    yield "marked 'none' with a divisor constraint that is met", emptied(s, 0, 2) + [mark]
    yield "marked 'none' with a false last divisor constraint", emptied(s, s.m - 1, 7, 2**20) + [mark]
    if s.depth:
        yield "marked 'none' with a constraint false from level 1 on", false_from_1(s) + [mark]
        yield "marked 'none' with a divisor constraint false from level 1 on", divisor_false_from_1(s) + [mark]


def false_from_1(s):
    """Constraint 1 as an inequality that asks the variable decided at level 1 to be above the value decided."""
    i = s.decided(1)
    return emptied(s, 0, s.lower(1, i) + 1, 0) + [("row", 0, 1 + i, -1)]


def divisor_false_from_1(s):
    """Constraint 1 with a divisor of 2 and the variable decided at level 1 alone."""
    i = s.decided(1)
    return emptied(s, 0, 1 - s.lower(1, i)) + [("row", 0, 1 + i, 1)]


def with_mark(puts, status):
    return puts + [("status", status)]


def deeper(s):
    """The first open variable of the deepest level decided at one more level; None where all are fixed."""
    i = next((i for i in range(s.n) if s.is_open(s.depth, i)), None)
    if i is None or s.depth == 32:
        return None
    d = s.depth
    copies = [(field, d + 1, v, number) for field in ("lower", "upper", "below", "above") for v, number in enumerate(s.raw.row(field, d, s.n))]
    there = s.raw.copy()
    return [put for put in copies if there.row(put[0], d + 1, s.n)[put[2]] != put[3]] + [
        ("upper", d + 1, i, s.lower(d, i)), ("above", d + 1, i, DECISION), ("decided", d + 1, i), ("depth", d + 1)]


MARKS = [marks, solutions, infeasible]

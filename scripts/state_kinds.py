"""Made-up states that are valid, or nearly, and what a search makes of them: divisor constraints, reasons, thresholds and bounds far out. Each function gives
pairs of a name and the numbers that are put."""
from state_marks import divisor_false_from_1, emptied, false_from_1
from state_view import FLIPPED, LEAST, MOST, UNDECIDED

FAR = 2**20
THRESHOLD = 3


def divided_kinds(s):
    """Divisor constraints that are false at every level, from level 1 on, and at the level gone back to."""
    if not s.m:
        return
    unspent = [("status", UNDECIDED), ("budget", s.conflicts + 1)]
    yield "a divisor constraint false at every level", emptied(s, 0, -1) + unspent
    yield "a divisor constraint false at every level, with no budget", emptied(s, 0, -1) + [("status", UNDECIDED), ("budget", s.conflicts)]
    if s.depth:
        yield "a divisor constraint false from level 1 on", divisor_false_from_1(s) + unspent
        behind = false_from_1(s) + (emptied(s, s.m - 1, -1) if s.m > 1 else [])
        yield "a divisor constraint false at the level gone back to", behind + [("status", UNDECIDED), ("budget", s.conflicts + 2)]


def reason_kinds(s):
    """Every bound of the deepest level with the same reason: each constraint in turn, one with a divisor among them, kept cuts, and one that is gone."""
    names = {number: "constraint %d" % number for number in range(1, s.m + 1)[:6]}
    names.update({s.last: "the newest cut" if s.made else "the last constraint", s.last - s.cuts + 1: "the oldest cut"} if s.cuts else {})
    if s.made > s.cuts:
        names[s.m + 1] = "a cut that is gone"
    divided = [j for j in range(s.m) if s.divisor(j)]
    for number, name in names.items():
        sort = " with a divisor" if number - 1 in divided else ""
        yield "%s%s as every reason" % (name, sort), reasons_of(s, number) + [("status", UNDECIDED)]
    yield "'flipped' as every reason", reasons_of(s, FLIPPED) + [("status", UNDECIDED)]
    if s.m:
        yield "constraint 1 with a divisor and as every reason", reasons_of(s, 1) + [("divisor", 0, 2), ("status", UNDECIDED)]


def reasons_of(s, number):
    return [(field, s.depth, i, number) for field in ("below", "above") for i in range(s.n)]


def grown(s, threshold, places):
    """No mark, and one variable more, which no constraint has, with this threshold and these bounds at each level from 0 to the depth."""
    bounds = [(side, d, s.n, number) for d, pair in enumerate(places[: s.depth + 1]) for side, number in zip(("lower", "upper"), pair) if number]
    return [("n", s.n + 1), ("threshold", s.n, threshold), ("status", UNDECIDED)] + bounds


def placed(s, from_level, pair, above=None, below=None):
    """These bounds at a level, others above it, and others below it; the same where they are not given."""
    levels = s.depth + 1
    return [above or pair] * from_level + [pair] + [below or pair] * (levels - from_level - 1)


def everywhere(s, *pair):
    return placed(s, 0, pair)


def gap_kinds(s):
    """Thresholds in range and not, and bounds in the gap and at its ends, at several levels."""
    if s.n == 32:
        return
    for threshold in (1, -1, 0, 2, MOST, MOST + 1, 2**63 - 1, -(2**63)):
        yield "a threshold of %d" % threshold, grown(s, threshold, everywhere(s, -1, 0))
    for d in s.some_levels():
        for v in (0, 1, THRESHOLD - 1, THRESHOLD):
            yield "a threshold of %d and a lower bound of %d at level %d" % (THRESHOLD, v, d), grown(
                s, THRESHOLD, placed(s, d, (v, 5), (0, 5), (5, 5)))
            yield "a threshold of %d and an upper bound of %d at level %d" % (THRESHOLD, v, d), grown(
                s, THRESHOLD, placed(s, d, (0, v), (0, 5), (0, 0)))
    if s.depth < 32:
        yield "a bound in a gap past the depth", grown(s, THRESHOLD, everywhere(s, 0, 5)) + [("lower", s.depth + 1, s.n, 1)]
    yield "a bound in a gap past n", grown(s, 0, everywhere(s, 0, 5)) + [("n", s.n), ("threshold", s.n, THRESHOLD), ("lower", 0, s.n, 1)]
    yield "a threshold of 1 past n", [("threshold", s.n, 1), ("status", UNDECIDED)]
    yield "a threshold beside a negative lower bound", grown(s, 2, everywhere(s, -1, 4))
    yield "a threshold above every upper bound", grown(s, MOST, everywhere(s, -1, 0))


def wide_kinds(s):
    """One variable more with bounds at and near the ends of the range, past 2^20, and past the ends at level 0 alone."""
    if s.n == 32:
        return
    whole = (LEAST, MOST)
    yield "bounds at both ends of the range", grown(s, 0, everywhere(s, *whole))
    for d in sorted({0, min(1, s.depth), s.depth}):
        yield "bounds at the lower end of the range from level %d on" % d, grown(s, 0, placed(s, d, (LEAST, LEAST), whole))
        yield "bounds at the upper end of the range from level %d on" % d, grown(s, 0, placed(s, d, (MOST, MOST), whole))
    for first in (LEAST, MOST - 1, -FAR - 2, FAR + 1):
        yield "bounds of %d and %d" % (first, first + 1), grown(s, 0, everywhere(s, first, first + 1))
    yield "a lower bound past the range at level 0", grown(s, 0, placed(s, 0, (LEAST - 1, MOST), None, whole))
    yield "an upper bound past the range at level 0", grown(s, 0, placed(s, 0, (LEAST, MOST + 1), None, whole))
    yield "a threshold at the end of the range", grown(s, MOST, everywhere(s, 0, MOST))
    yield "a lower bound in the widest gap", grown(s, MOST, everywhere(s, 1, MOST))
    yield "an upper bound in the widest gap", grown(s, MOST, everywhere(s, 0, MOST - 1))


KINDS = [divided_kinds, reason_kinds, gap_kinds, wide_kinds]

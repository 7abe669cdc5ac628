"""Valid search states (docs/SPECIFICATION.md, section 10): the conditions of error 9."""
from bounds import constraint_in_range, first_falsified, first_open, in_gap
from files import MAX_BOUND, MIN_THRESHOLD, divisor_fits, in_range, sizes_fit
from search import DECISION, DOMAIN, FLIPPED, KEPT_CUTS, MAX_PROPAGATIONS, SOLVED, UNDECIDED


def reason_valid(reason, last):
    return reason in (DOMAIN, DECISION, FLIPPED) or 1 <= reason <= last


def level_valid(level, last):
    bounds = all(lower <= upper and in_range(lower, MAX_BOUND) and in_range(upper, MAX_BOUND) for lower, upper in zip(level.lower, level.upper))
    return bounds and all(reason_valid(reason, last) for reason in level.lower_reason + level.upper_reason)


def thresholds_valid(search):
    """Each is 0 or from 2 to the highest limit, and no bound lies in its gap."""
    fit = all(threshold == 0 or MIN_THRESHOLD <= threshold <= MAX_BOUND for threshold in search.thresholds)
    bounds = [side for level in search.levels for side in (level.lower, level.upper)]
    return fit and not any(in_gap(threshold, value) for side in bounds for threshold, value in zip(search.thresholds, side))


def nested(level, outer):
    """The level inside the one above it, its decision variable open there and at its lower bound here."""
    n, i = len(outer.lower), level.decided
    if i is None or not 0 <= i < n:
        return False
    inside = all(outer.lower[v] <= level.lower[v] and level.upper[v] <= outer.upper[v] for v in range(n))
    return inside and outer.lower[i] < outer.upper[i] and level.lower[i] == level.upper[i] == outer.lower[i]


def status_valid(search):
    if search.status == SOLVED:
        deepest = search.levels[-1]
        return first_open(deepest) is None and first_falsified(search.kept(), deepest) is None
    return search.status == UNDECIDED or first_falsified(search.kept(), search.levels[0]) is not None


def valid(search):
    """None of the conditions of error 9 holds. Here n is the length of a level's lists. A step keeps every condition but that of the bounds set."""
    n, m = len(search.levels[0].lower), len(search.inputs)
    last = m + search.made
    if not (sizes_fit(n, m, search.budget) and search.depth <= n and search.made <= search.conflicts <= search.budget):
        return False
    if not all(constraint_in_range(constraint) for _, constraint in search.kept()):
        return False
    if not all(divisor_fits(constraint.divisor) for constraint in search.inputs):
        return False
    if [number for number, _ in search.cuts] != list(range(last - min(search.made, KEPT_CUTS) + 1, last + 1)):
        return False
    if not all(level_valid(level, last) for level in search.levels):
        return False
    if not all(nested(level, outer) for outer, level in zip(search.levels, search.levels[1:])):
        return False
    return status_valid(search) and thresholds_valid(search) and search.propagations <= MAX_PROPAGATIONS

"""Constraints and bounds in a box (docs/SPECIFICATION.md, section 4), as literally as Python allows. A box is a level's lower and upper bounds; variables count
from 0 here, constraint numbers from 1."""
from math import gcd

from files import MAX_COEFFICIENT, Constraint, in_range


# ---- thresholds

def in_gap(threshold, value):
    """Between 0 and the threshold, where the variable has no value."""
    return 1 <= value < threshold


def lifted(threshold, value):
    """What a lower bound that would become this value becomes."""
    return threshold if in_gap(threshold, value) else value


def sunk(threshold, value):
    """The same of an upper bound."""
    return 0 if in_gap(threshold, value) else value


# ---- constraints and bounds

def ceil_div(z, d):
    return -(-z // d)


def activity(constraint, level):
    """The minimum activity."""
    return constraint.constant + sum(a * (level.lower[i] if a > 0 else level.upper[i]) for i, a in constraint.terms)


def open_divisor(constraint, level):
    """The gcd of the divisor and the coefficients of the open variables."""
    return gcd(constraint.divisor, *(a for i, a in constraint.terms if level.lower[i] < level.upper[i]))


def rest(constraint, level):
    """The constant, and the terms of the variables that have one value."""
    return constraint.constant + sum(a * level.lower[i] for i, a in constraint.terms if level.lower[i] == level.upper[i])


def falsified(constraint, level):
    if constraint.divisor:
        return rest(constraint, level) % open_divisor(constraint, level) != 0
    return activity(constraint, level) > 0


def rounded(constraint):
    h = gcd(*constraint.coefficients)
    if h == 0 or constraint.divisor:
        return constraint
    return Constraint(ceil_div(constraint.constant, h), [a // h for a in constraint.coefficients])


def resolvent(f, j, i):
    a, b = abs(f.coefficients[i]), abs(j.coefficients[i])
    g = gcd(a, b)
    s, t = b // g, a // g
    numbers = [s * x + t * y for x, y in zip(f.coefficients, j.coefficients)]
    return rounded(Constraint(s * f.constant + t * j.constant, numbers))


def constraint_in_range(constraint):
    return all(in_range(number, MAX_COEFFICIENT) for number in [constraint.constant] + constraint.coefficients)


# ---- scans

def first_falsified(kept, level):
    """The number of the first falsified constraint, or None."""
    return next((number for number, constraint in kept if falsified(constraint, level)), None)


def improve(number, constraint, level, thresholds):
    """Sets the first bound that the constraint improves, past the gap; whether there is one. A divisor constraint implies no bound."""
    if constraint.divisor:
        return False
    whole = activity(constraint, level)
    for i, a in constraint.terms:
        if a > 0:
            bound = -(whole - a * level.lower[i]) // a
            if bound < level.upper[i]:
                level.upper[i], level.upper_reason[i] = sunk(thresholds[i], bound), number
                return True
        else:
            bound = ceil_div(whole - a * level.upper[i], -a)
            if bound > level.lower[i]:
                level.lower[i], level.lower_reason[i] = lifted(thresholds[i], bound), number
                return True
    return False


def first_open(level):
    """The first variable with L < U, or None."""
    return next((i for i, (lower, upper) in enumerate(zip(level.lower, level.upper)) if lower < upper), None)

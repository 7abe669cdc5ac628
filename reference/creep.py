"""Bounds that creep: two constraints that set bounds by turns, up to 2^25 times in one step. Here many such moves are made at once.

A round is two moves. Each sets a bound of a variable without a threshold that stays open, by a constraint whose coefficient there is 1 or -1, so that the
new bound is a sum of other bounds. If the next round and one that is many rounds ahead have the same moves with the same changes, then so has every round
between: all that is asked on the way (is an inequality falsified, does it improve a bound?) is the sign of a sum that is linear in the bounds; these change
alike with each round; and such a sign, the same at both ends, is the same between them. A divisor constraint sees which variables are open, and the values
of the others: they stay.
"""
from bounds import first_falsified, improve

MOVES_BEFORE = 1000  # A step makes so many moves one by one before it looks for rounds.
ROUNDS = [2**k for k in range(24, 0, -1)]


def bounds_of(level):
    """Each side's bounds and reasons."""
    return [(level.lower, level.lower_reason), (level.upper, level.upper_reason)]


def next_move(level, kept, thresholds):
    """Sets the next bound: the side, the variable, the constraint's number and the change. None where the next move is of another sort."""
    if first_falsified(kept, level) is not None:
        return None
    before = [bounds[:] for bounds, _ in bounds_of(level)]
    setter = next(((number, constraint) for number, constraint in kept if improve(number, constraint, level, thresholds)), None)
    if setter is None:
        return None
    number, constraint = setter
    after = [bounds for bounds, _ in bounds_of(level)]
    side, i = next((side, i) for side in (0, 1) for i, bound in enumerate(after[side]) if bound != before[side][i])
    fits = abs(constraint.coefficients[i]) == 1 and thresholds[i] == 0 and level.lower[i] < level.upper[i]
    return (side, i, number, after[side][i] - before[side][i]) if fits else None


def next_round(level, kept, thresholds):
    """Makes two moves; None where one of them is of another sort."""
    moves = [next_move(level, kept, thresholds) for _ in range(2)]
    return None if None in moves or not all(level.lower[i] < level.upper[i] for _, i, _, _ in moves) else moves


def shift(level, moves, rounds):
    """Makes the moves so many times, unasked."""
    for side, i, number, change in moves:
        bounds, reasons = bounds_of(level)[side]
        bounds[i], reasons[i] = bounds[i] + rounds * change, number


def creep(level, kept, thresholds):
    """Makes rounds while they are alike: how many moves these were."""
    made = 0
    for rounds in ROUNDS:
        near = next_round(level.copy(), kept, thresholds)
        if near is None:
            return made
        ahead = level.copy()
        shift(ahead, near, rounds)
        if next_round(ahead.copy(), kept, thresholds) == near:
            level.lower, level.upper, level.lower_reason, level.upper_reason = ahead.lower, ahead.upper, ahead.lower_reason, ahead.upper_reason
            made += len(near) * rounds
    return made

"""Problems and search states as arrays of the sizes that the library declares, of which a script may set every number.

A number is 64 bits: bounds, coefficients, divisors and thresholds are signed, all others not. Numbers that nothing is promised of are None: those that a
call or a change leaves past n, m, the kept cuts and the depth. A script may not come to read them.
"""
from itertools import chain

from digest import signed
from files import MAX_CONSTRAINTS, MAX_VARIABLES, Constraint, Problem
from search import DECISION, DOMAIN, FLIPPED, INFEASIBLE, SOLVED, UNDECIDED, Level, Search

STATUSES = [UNDECIDED, INFEASIBLE, SOLVED]
REASONS = {0: DOMAIN, 2**64 - 1: DECISION, 2**64 - 2: FLIPPED}
REASON_NUMBERS = {reason: number for number, reason in REASONS.items()}
ROW = 1 + MAX_VARIABLES
MAX_CUTS = 64
LEVELS = 1 + MAX_VARIABLES

# The arrays and their sizes; a single number has none.
SIZES = {"n": (), "m": (), "budget": ()}
PROBLEM = {**SIZES, "lower": (MAX_VARIABLES,), "upper": (MAX_VARIABLES,), "row": (MAX_CONSTRAINTS, ROW), "divisor": (MAX_CONSTRAINTS,),
           "threshold": (MAX_VARIABLES,)}
SCALARS = {**SIZES, "conflicts": (), "propagations": (), "made": (), "depth": (), "status": ()}
BOUNDS = dict.fromkeys(["lower", "upper", "below", "above"], (LEVELS, MAX_VARIABLES))
STATE = {**SCALARS, "threshold": (MAX_VARIABLES,), "divisor": (MAX_CONSTRAINTS,), "number": (MAX_CUTS,), "row": (MAX_CONSTRAINTS + MAX_CUTS, ROW),
         **BOUNDS, "decided": (LEVELS,)}
SIGNED = ["lower", "upper", "row", "divisor", "threshold"]


class Arrays:
    """Arrays by name, each flat; a single number is an array of one."""

    def __init__(self, shapes, filled=0):
        self.shapes = shapes
        self.arrays = {}
        for name, shape in shapes.items():
            size = 1
            for length in shape:
                size *= length
            self.arrays[name] = [filled] * size

    def copy(self):
        other = Arrays.__new__(type(self))
        other.shapes = self.shapes
        other.arrays = {name: numbers[:] for name, numbers in self.arrays.items()}
        return other

    def get(self, name):
        return self.arrays[name][0]

    def put(self, name, indexes, word):
        place = 0
        for index, length in zip(indexes, self.shapes[name]):
            place = place * length + index
        self.arrays[name][place] = signed(word) if name in SIGNED else word

    def row(self, name, j, count):
        """The first numbers of row j of an array."""
        start = j * self.shapes[name][1]
        return self.arrays[name][start : start + count]

    def put_row(self, name, j, numbers):
        start = j * self.shapes[name][1]
        self.arrays[name][start : start + len(numbers)] = numbers


class RawProblem(Arrays):
    def __init__(self, filled=0):
        super().__init__(PROBLEM, filled)

    def words(self):
        return list(chain.from_iterable(self.arrays.values()))

    def problem(self):
        """The problem that is meant; None where the arrays cannot hold it."""
        n, m, budget = (self.get(name) for name in SIZES)
        if n > MAX_VARIABLES or m > MAX_CONSTRAINTS:
            return None
        limits = list(zip(self.arrays["lower"][:n], self.arrays["upper"][:n]))
        rows = [self.row("row", j, 1 + n) for j in range(m)]
        constraints = [Constraint(row[0], row[1:], divisor) for row, divisor in zip(rows, self.arrays["divisor"])]
        return Problem(limits, constraints, budget, self.arrays["threshold"][:n])

    @classmethod
    def of(cls, problem, filled=0):
        raw = cls(filled)
        n, m = len(problem.limits), len(problem.constraints)
        for name, number in zip(SIZES, [n, m, problem.budget]):
            raw.put(name, [], number)
        for i, (lower, upper) in enumerate(problem.limits):
            raw.put("lower", [i], lower)
            raw.put("upper", [i], upper)
        raw.arrays["threshold"][:n] = problem.thresholds
        for j, constraint in enumerate(problem.constraints):
            raw.put_row("row", j, [constraint.constant] + constraint.coefficients)
            raw.put("divisor", [j], constraint.divisor)
        return raw


class RawState(Arrays):
    def __init__(self, filled=0):
        super().__init__(STATE, filled)

    def fits(self):
        """The arrays hold all that the sizes speak of."""
        return self.get("n") <= MAX_VARIABLES and self.get("m") <= MAX_CONSTRAINTS and self.get("depth") < LEVELS

    def kept_cuts(self):
        return min(self.get("made"), MAX_CUTS)

    def words(self):
        """All that is read, in a fixed order."""
        words = [self.get(name) for name in SCALARS]
        if not self.fits():
            return words
        n, m, cuts = self.get("n"), self.get("m"), self.kept_cuts()
        words += self.arrays["threshold"][:n] + self.arrays["divisor"][:m] + self.arrays["number"][:cuts]
        words += chain.from_iterable(self.row("row", j, 1 + n) for j in range(m + cuts))
        for d in range(self.get("depth") + 1):
            words += chain.from_iterable(self.row(name, d, n) for name in BOUNDS)
            words += self.arrays["decided"][d : d + 1] if d else []
        return words

    def litter(self, word):
        """Every number that is not read becomes this one."""
        if not self.fits():
            return
        n, m, cuts, levels = self.get("n"), self.get("m"), self.kept_cuts(), self.get("depth") + 1
        whole = RawState(word)
        whole.arrays = {name: [signed(word)] * len(numbers) if name in SIGNED else numbers for name, numbers in whole.arrays.items()}
        for name in SCALARS:
            whole.arrays[name] = self.arrays[name]
        for name, count in [("threshold", n), ("divisor", m), ("number", cuts)]:
            whole.arrays[name][:count] = self.arrays[name][:count]
        whole.arrays["decided"][1:levels] = self.arrays["decided"][1:levels]
        for j in range(m + cuts):
            whole.put_row("row", j, self.row("row", j, 1 + n))
        for name in BOUNDS:
            for d in range(levels):
                whole.put_row(name, d, self.row(name, d, n))
        self.arrays = whole.arrays

    def search(self):
        """The state that is meant; None where the arrays cannot hold it."""
        if not self.fits():
            return None
        n, m, cuts = self.get("n"), self.get("m"), self.kept_cuts()
        rows = [self.row("row", j, 1 + n) for j in range(m + cuts)]
        inputs = [Constraint(row[0], row[1:], divisor) for row, divisor in zip(rows, self.arrays["divisor"][:m])]
        kept = [(number, Constraint(row[0], row[1:])) for number, row in zip(self.arrays["number"], rows[m:])]
        levels = [self.level(d, n) for d in range(self.get("depth") + 1)]
        return Search(inputs, self.arrays["threshold"][:n], self.get("budget"), levels, kept, self.get("made"), self.get("conflicts"),
                      self.get("propagations"), STATUSES[self.get("status")])

    def level(self, d, n):
        below, above = ([REASONS.get(number, number) for number in self.row(name, d, n)] for name in ["below", "above"])
        return Level(self.row("lower", d, n), self.row("upper", d, n), below, above, self.arrays["decided"][d] if d else None)

    @classmethod
    def of(cls, search):
        raw = cls(None)
        n, m = len(search.thresholds), len(search.inputs)
        scalars = [n, m, search.budget, search.conflicts, search.propagations, search.made, search.depth, STATUSES.index(search.status)]
        for name, number in zip(SCALARS, scalars):
            raw.put(name, [], number)
        raw.arrays["threshold"][:n] = search.thresholds
        raw.arrays["divisor"][:m] = [constraint.divisor for constraint in search.inputs]
        raw.arrays["number"][: len(search.cuts)] = [number for number, _ in search.cuts]
        for j, (_, constraint) in enumerate(search.kept()):
            raw.put_row("row", j, [constraint.constant] + constraint.coefficients)
        for d, level in enumerate(search.levels):
            raw.put_level(d, level)
        return raw

    def put_level(self, d, level):
        reasons = ([REASON_NUMBERS.get(reason, reason) for reason in side] for side in [level.lower_reason, level.upper_reason])
        for name, numbers in zip(BOUNDS, [level.lower, level.upper, *reasons]):
            self.put_row(name, d, numbers)
        if d:
            self.put("decided", [d], level.decided)

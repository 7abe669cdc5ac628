"""A search state as a script finds it, and the numbers of it that a made-up state changes."""
import implementation  # it puts reference/ on the path
from digest import WORD

LEAST, MOST = -(2**24), 2**24
HEAVIEST = 2**30
MOST_DIVISOR = 2**20
LIMIT = 2**62
LARGEST = WORD - 1
UNDECIDED, INFEASIBLE, SOLVED = range(3)
DOMAIN, DECISION, FLIPPED = 0, WORD - 1, WORD - 2


class View:
    """The numbers of a state that is whole: its arrays hold all that its sizes speak of."""

    def __init__(self, raw):
        self.raw = raw
        self.n, self.m, self.budget, self.conflicts, self.propagations, self.made, self.depth, self.status = raw.words()[:8]
        self.cuts = raw.kept_cuts()
        self.rows = self.m + self.cuts
        self.last = self.m + self.made

    def lower(self, d, i):
        return self.raw.row("lower", d, self.n)[i]

    def upper(self, d, i):
        return self.raw.row("upper", d, self.n)[i]

    def is_open(self, d, i):
        return self.lower(d, i) < self.upper(d, i)

    def decided(self, d):
        return self.raw.arrays["decided"][d]

    def row(self, j):
        """The constant and the coefficients of a kept constraint."""
        return self.raw.row("row", j, 1 + self.n)

    def divisor(self, j):
        return self.raw.arrays["divisor"][j] if j < self.m else 0

    def value(self, j, d):
        """The sum of a kept constraint at the lower bounds of a level."""
        constant, *coefficients = self.row(j)
        return constant + sum(a * self.lower(d, i) for i, a in enumerate(coefficients))

    def is_met(self, j, d):
        """Whether it is met at these bounds."""
        value = self.value(j, d)
        return value % self.divisor(j) == 0 if self.divisor(j) else value <= 0

    def activity(self, j, d):
        constant, *coefficients = self.row(j)
        return constant + sum(a * (self.lower(d, i) if a > 0 else self.upper(d, i)) for i, a in enumerate(coefficients))

    def some_levels(self):
        """The outermost level, one in the middle and the deepest."""
        return sorted({0, self.depth // 2, self.depth})

    def some_rows(self):
        """The first and the last constraint, the oldest and the newest cut, by position."""
        return {j: name for j, name in [(self.rows - 1, "the newest cut"), (self.m, "the oldest cut"), (self.m - 1, "the last constraint"),
                                        (0, "the first constraint")] if 0 <= j < self.rows and (j < self.m) == ("constraint" in name)}

    def changed(self, puts):
        """The state with other numbers."""
        raw = self.raw.copy()
        for field, *indexes, value in puts:
            raw.put(field, indexes, value % WORD)
        return View(raw)


def counted(number, word):
    return "%d %s" % (number, word if number == 1 else word + "s")


def described(view):
    """A state in words."""
    mark = ["no mark", "marked 'none'", "marked solution"][view.status]
    return "%s, %s, %s, depth %d, %s" % (counted(view.n, "variable"), counted(view.m, "constraint"), counted(view.made, "cut"), view.depth, mark)

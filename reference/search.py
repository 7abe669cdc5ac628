"""The search (docs/SPECIFICATION.md, sections 5 to 8), as literally as Python allows. Variables count from 0 here, constraint numbers from 1."""
from dataclasses import dataclass, field, replace

from bounds import constraint_in_range, falsified, first_falsified, first_open, improve, lifted, resolvent, rounded
from creep import MOVES_BEFORE, creep
from files import Constraint, Record, write_record

KEPT_CUTS = 64
MAX_PROPAGATIONS = 2**62

# Reasons of a bound, beside the number of a constraint.
DOMAIN, DECISION, FLIPPED = "domain", "decision", "flipped"

# Statuses of a state, a step's answers, and an exclusion's.
UNDECIDED, INFEASIBLE, SOLVED = "undecided", "infeasible", "solved"
GO_ON, NONE, SPENT, SOLUTION = "go on", "none", "spent", "solution"
STRUCK, ENDED, UNSOLVED = "struck", "ended", "no form"


@dataclass
class Level:
    """Bounds, their reasons, and from level 1 on the decision variable."""

    lower: list
    upper: list
    lower_reason: list
    upper_reason: list
    decided: int = None

    def copy(self):
        return Level(self.lower[:], self.upper[:], self.lower_reason[:], self.upper_reason[:], self.decided)


@dataclass
class Search:
    """A search state. `cuts` are the kept ones, pairs of number and constraint, the oldest first; the deepest level is the last. `propagations` counts the
    bounds that constraints set."""

    inputs: list
    thresholds: list
    budget: int
    levels: list
    cuts: list = field(default_factory=list)
    made: int = 0
    conflicts: int = 0
    propagations: int = 0
    status: str = UNDECIDED

    def copy(self):
        return replace(self, levels=[level.copy() for level in self.levels], cuts=self.cuts[:])

    @property
    def depth(self):
        return len(self.levels) - 1

    def kept(self):
        """The kept constraints with their numbers, in the order of these."""
        return list(enumerate(self.inputs, 1)) + self.cuts


@dataclass
class Answer:
    """What a step gives. `record` is the journal record's 512 bytes, or None."""

    verdict: str
    values: list
    count: int
    propagations: int
    record: bytes
    state: Search


# ---- opening

def open_problem(problem):
    n = len(problem.limits)
    lower, upper = [pair[0] for pair in problem.limits], [pair[1] for pair in problem.limits]
    level = Level(lower, upper, [DOMAIN] * n, [DOMAIN] * n)
    return Search([rounded(c) for c in problem.constraints], problem.thresholds, problem.budget, [level])


# ---- moves

def decide(search, i):
    level = search.levels[-1].copy()
    level.upper[i], level.upper_reason[i], level.decided = level.lower[i], DECISION, i
    search.levels.append(level)


def descend(search):
    """Moves 2 and 3 as often as they can be made: the number of a falsified constraint, or None at the solution."""
    kept, moves = search.kept(), 0
    while True:
        level = search.levels[-1]
        number = first_falsified(kept, level)
        if number is not None:
            return number
        if any(improve(number, constraint, level, search.thresholds) for number, constraint in kept):
            search.propagations += 1
            moves += 1
            if moves % MOVES_BEFORE == 0:
                search.propagations += creep(level, kept, search.thresholds)
            continue
        variable = first_open(level)
        if variable is None:
            return None
        decide(search, variable)


# ---- conflicts

def reason_used(f, i, level):
    """The reason of the bound that F's minimum activity uses at variable i, or None where its coefficient is 0."""
    a = f.coefficients[i]
    return None if a == 0 else level.lower_reason[i] if a > 0 else level.upper_reason[i]


def analyze(search, f):
    """The cut, and for each variable the number of the constraint resolved with there, or 0."""
    kept, level = dict(search.kept()), search.levels[-1]
    used = [0] * len(f.coefficients)
    for i in reversed(range(len(used))):
        number = reason_used(f, i, level)
        j = kept.get(number)
        if j is None or j.divisor or f.coefficients[i] * j.coefficients[i] >= 0:
            continue
        outcome = resolvent(f, j, i)
        if constraint_in_range(outcome) and falsified(outcome, level):
            f, used[i] = outcome, number
    return f, used


def keep(search, cut):
    """The cut's number; it is made unless a kept constraint equals it."""
    equal = next((number for number, constraint in search.kept() if constraint == cut), None)
    if equal is not None:
        return equal
    search.made += 1
    number = len(search.inputs) + search.made
    search.cuts = (search.cuts + [(number, cut)])[-KEPT_CUTS:]
    return number


def back_up(search, d):
    """Drops the levels d and deeper, and flips the decision of level d: the lower bound rises to the next value."""
    variable = search.levels[d].decided
    del search.levels[d:]
    level = search.levels[-1]
    level.lower[variable] = lifted(search.thresholds[variable], level.lower[variable] + 1)
    level.lower_reason[variable] = FLIPPED


def learn(search, f):
    """The cut's number, the cut, and the constraints resolved with. From a divisor constraint nothing is learned: all are 0."""
    if f.divisor:
        zeros = [0] * len(f.coefficients)
        return 0, Constraint(0, zeros), zeros
    cut, used = analyze(search, f)
    return keep(search, cut), cut, used


def backjump_level(search, constraint):
    """The least depth whose level falsifies the constraint."""
    return next(e for e, level in enumerate(search.levels) if falsified(constraint, level))


def conflict(search, number):
    """Counts a conflict at the falsified constraint with this number, and goes back: d, and the journal record."""
    search.conflicts += 1
    depth = search.depth
    f = dict(search.kept())[number]
    cut_number, cut, used = learn(search, f)
    d = backjump_level(search, f if f.divisor else cut)
    if d == 0:
        search.status = INFEASIBLE
    else:
        back_up(search, d)
    return d, write_record(Record(search.conflicts, number, cut_number, depth, d, cut, used))


# ---- a step and a run

def answer(verdict, state, record=None):
    values = state.levels[-1].lower if verdict == SOLUTION else []
    return Answer(verdict, values, state.conflicts, state.propagations, record, state)


def step(search):
    """One step of a valid state; the state that is given stays as it is, and comes back where the budget is spent."""
    if search.status != UNDECIDED:
        return answer(NONE if search.status == INFEASIBLE else SOLUTION, search)
    after = search.copy()
    number = descend(after)
    if number is None:
        after.status = SOLVED
        return answer(SOLUTION, after)
    if search.conflicts == search.budget:
        return answer(SPENT, search)
    d, record = conflict(after, number)
    return answer(NONE if d == 0 else GO_ON, after, record)


def run(search):
    """Steps to a verdict: the last answer, and the records of all of them."""
    records = []
    while True:
        stepped = step(search)
        if stepped.record:
            records.append(stepped.record)
        if stepped.verdict != GO_ON:
            return stepped, records
        search = stepped.state


# ---- striking out a solution

def exclude(search):
    """Strikes out the solution of a valid state: the answer, and the state after it; the state that is given stays as it is."""
    if search.status != SOLVED:
        return UNSOLVED, search
    if search.depth == 0:
        return ENDED, search
    after = search.copy()
    back_up(after, after.depth)
    after.status = UNDECIDED
    return STRUCK, after

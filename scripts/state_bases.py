"""The states that made-up ones are made of: problems, and how far a search or a listing of them goes. The names of the problems' files start with 'state-'."""
import implementation  # it puts reference/ on the path
from files import MAX_BOUND, problem_file
from problems import equation
from vector_files import CUTS, divided

BITS = [(0, 1)] * 6
FAR_UP, FAR_DOWN = (MAX_BOUND - 2, MAX_BOUND), (-MAX_BOUND, 2 - MAX_BOUND)


def equations(*pairs):
    """Each a total and the coefficients of an equation."""
    return [row for total, *numbers in pairs for row in equation(numbers, total)]


def base_files():
    """Six variables of 0 and 1 with two equations; with a divisor constraint after them; with small numbers, and so with more solutions; four variables, two
    with more values and most with thresholds; four variables far out."""
    yield "equations-a", problem_file(64, BITS, equations([0, -1, -2, -3, 2, 1, 3], [-2, 3, 3, -3, 1, -2, -1]))
    yield "equations-b", problem_file(64, BITS, equations([2, -2, 0, 1, -2, 3, 3], [3, 3, 0, 2, -3, 3, 3]))
    yield "equations-c", problem_file(64, BITS, equations([-2, 1, 3, 0, -3, -3, -2], [0, 3, 0, -1, -3, -2, 3]))
    yield "equations-d", problem_file(64, BITS, equations([-1, 0, -1, -2, -1, 3, -3], [-1, 0, 0, 1, -1, -2, 2]))
    yield "equations-e", problem_file(64, BITS, equations([0, 0, -2, 2, 3, -1, 0], [2, -2, 1, 3, -2, 1, -1]))
    yield "divided-a", problem_file(64, BITS, equations([2, 2, 2, -2, 3, -3, -3], [0, 2, 1, 3, -3, -2, -3]) + [divided(2, 3, -3, -1, 0, 2, 3, 0)])
    yield "divided-b", problem_file(64, BITS, equations([0, 1, 0, -2, -1, 0, 3], [-1, -2, 3, 1, -2, 3, -2]) + [divided(3, -3, 0, -1, 2, 2, 1, 2)])
    yield "solutions-a", problem_file(64, BITS, equations([-1, 0, -1, 1, -1, -1, -1], [1, 0, 1, -1, 1, 1, 1]) + [divided(6, 1, -1, -1, 1, -1, 1, -1)])
    yield "solutions-b", problem_file(64, BITS, equations([-1, 0, -1, -1, 0, -1, -1], [0, 1, 1, 1, -1, -1, 1]) + [divided(4, 1, -1, -1, -1, -1, 1, 1)])
    yield "solutions-c", problem_file(64, BITS, equations([-1, -1, 1, -1, 0, -1, 1], [0, 1, 0, 0, 0, -1, -1]) + [divided(6, -1, 0, 1, -1, 0, 0, -1)])
    yield "solutions-d", problem_file(64, BITS, equations([-1, 1, 1, -1, 1, 1, -1], [0, -1, 1, 0, 1, -1, -1]) + [divided(3, 1, -1, 0, -1, -1, 1, 1)])
    gaps = [(0, 4), (0, 4), (0, 1), (0, 1)]
    yield "gaps-a", problem_file(100, gaps, equations([2, 1, -1, 0, 2]) + [divided(4, -1, 0, -3, -1, 1)])
    yield "gaps-b", problem_file(48, gaps, equations([0, -3, 3, 2, 3]) + [divided(2**20, -3, -1, 2, 3, 1)], [3, 2])
    yield "gaps-c", problem_file(16, gaps, equations([1, 3, 0, 0, 3]) + [divided(4, -1, -3, -3, -2, 3)], [4, 4])
    yield "far-a", problem_file(54, [FAR_UP, (1 - MAX_BOUND, 3 - MAX_BOUND), (MAX_BOUND - 2, MAX_BOUND - 1), FAR_DOWN],
                                equations([0, 1, 1, -1, -1], [2 - MAX_BOUND, -1, 0, 1, 1]) + [divided(3, 2 * MAX_BOUND - 4, -1, -1, -1, 1)])
    yield "far-b", problem_file(54, [(MAX_BOUND - 2, MAX_BOUND - 1), (1 - MAX_BOUND, 3 - MAX_BOUND), (MAX_BOUND - 3, MAX_BOUND - 1), FAR_DOWN],
                                equations([3 - MAX_BOUND, 0, 1, -1, -1], [0, 1, 1, -1, -1]) + [divided(6, MAX_BOUND, 0, 1, 1, 1)])
    # More cuts than are kept, and rows for 64 constraints and 64 cuts.
    yield "cuts", problem_file(223, [(0, 4)] * 11, CUTS)
    yield "rows", problem_file(130, [(0, 4)] * 11, CUTS + [[-9 - k] + [0] * 10 + [1] for k in range(54)])
    # At most one of 32 variables is 1: every depth up to the deepest there can be.
    yield "deep", problem_file(9, [(0, 1)] * 32, [[-1] + [1] * 32])
    yield "one", problem_file(9, [(0, 3)], [[0, -1]])


STEP, STRIKE = ["step"], ["exclude"]


class Base:
    """A state: the problem's name, and the calls on its opened state that lead to it."""

    def __init__(self, name, *calls):
        self.name, self.calls = name, [line for call in calls for line in call]


# Those on which every condition of error 9 is tried, at several depths, marked and not, with cuts and without.
EVERYTHING = [
    Base("equations-a"),
    Base("equations-a", STEP),
    Base("equations-a", STEP * 4),
    Base("equations-b", STEP),
    Base("equations-b", STEP * 6),
    Base("equations-c", STEP * 3),
    Base("equations-d", STEP),
    Base("equations-e", STEP * 4),
    Base("divided-a", STEP * 4),
    Base("divided-b", STEP * 4),
    Base("solutions-a", STEP),
    Base("solutions-a", STEP, STRIKE),
    Base("gaps-a", STEP, STRIKE, STEP * 3, STRIKE, STEP),
    Base("far-a", STEP * 2, STRIKE),
    Base("far-b", STEP),
    Base("cuts", ["trace 65536", "trace 47616"]),
    Base("one"),
]
# Those at the ends of the arrays.
WHOLE_ARRAYS = [Base("rows", ["trace 65536"]), Base("deep", ["run"]), Base("deep", ["run"], STRIKE)]
# Those with a further variable, with a threshold or far out.
FURTHER = [Base("equations-a", STEP), Base("solutions-a", STEP, STRIKE), Base("gaps-a"), Base("gaps-a", STEP, STRIKE, STEP * 3, STRIKE, STEP),
           Base("gaps-a", STEP, STRIKE, STEP * 3, STRIKE, STEP * 5), Base("gaps-b", STEP * 2), Base("gaps-b", STEP * 3), Base("gaps-c", STEP),
           Base("far-a", STEP * 2), Base("solutions-c", STEP * 6)]
# Those that are struck out, listed, and brought to the limit of bounds set.
STRUCK = [Base("solutions-a"), Base("solutions-a", STEP), Base("solutions-b", STEP), Base("solutions-b", STEP * 2), Base("solutions-c", STEP * 6),
          Base("solutions-c", STEP * 6, STRIKE), Base("solutions-d", STEP * 2), Base("gaps-a", STEP), Base("gaps-b", STEP * 2), Base("gaps-b", STEP * 3),
          Base("far-a", STEP), Base("far-a", STEP * 2), Base("far-b")]

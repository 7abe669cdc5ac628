"""Scripts of problems in hand that are changed: a constraint put at the end or in place of another, constraints left out, a variable closed. After each change the
problem is checked, written, opened and run."""
from files import BLOCK, MAX_CONSTRAINTS, MAX_COEFFICIENT, MAX_DIVISOR

# Plans with few conflicts, with inequalities, divisors and thresholds.
PLANS = ["plan-a", "01-blueprint-n8", "09-random-n16-none", "14-pigeon-6-5", "16-parity-8", "divisor-2", "divisor-first-of-the-false", "cut-is-another-line",
         "back-two-below", "back-over-levels-and-divisors"]
# A row that no plan uses, and what is put there: its constant, coefficients from the first variable on, and its divisor.
SPARE = MAX_CONSTRAINTS - 1
ROWS = [(1, [-1, -1], 0), (1, [1, 1, 1], 2), (1, [], 0), (-1, [1], 0), (0, [1] * 32, MAX_DIVISOR), (-MAX_COEFFICIENT, [MAX_COEFFICIENT] * 32, 0),
        (0, [MAX_COEFFICIENT + 1], 0), (0, [1], 1), (0, [], -2)]
REPLACING = 3  # So many of them are put in place of others too.
MASKS = [0, 1, 2, 0x5555555555555555, 0xAAAAAAAAAAAAAAAA, 2**64 - 1, 2**64 - 2, 2**63, 2**32 - 1]


def show(script):
    script.do("check", "write %d" % (BLOCK * (1 + MAX_CONSTRAINTS)), "begin", "run")


def put_spare(script, row, n):
    """Puts a constraint of n variables into the spare row, where zeros stand."""
    constant, coefficients, divisor = row
    numbers = [constant] + coefficients[:n]
    script.do(*("set row %d %d %d" % (SPARE, i, z) for i, z in enumerate(numbers) if z), *["set divisor %d %d" % (SPARE, divisor)] * (divisor != 0))


def change_plan(script, name):
    """Every change of one plan, each from the plan as it was read."""
    script.say(name)
    script.do("load %s.plan" % name, "read")
    n, m = script.player.problem.get("n"), script.player.problem.get("m")
    for k, row in enumerate(ROWS):
        places = [0, max(m, 1) - 1, m] if k < REPLACING else []
        for change in ["append %d" % SPARE] + ["replace %d %d" % (j, SPARE) for j in places]:
            script.do("read")
            put_spare(script, row, n)
            script.do(change)
            show(script)
    for j in sorted({0, m // 2, m - 1} & set(range(m))):
        script.do("read", "append %d" % j)
        show(script)
        script.do("append %d" % m, "replace 0 %d" % m)
        show(script)
    for mask in MASKS + [2**64 - 1 - 2**j for j in range(min(m, 6))]:
        script.do("read", "choose %d" % mask)
        show(script)
    for i in range(n):
        script.do("read", "close %d" % i)
        show(script)
    script.do("read", "close 0", "close %d" % (n - 1), "choose 5", "append 0")
    show(script)


def change_edges(script):
    """Full arrays, sizes past them, and limits that do not hold 0."""
    script.say("64 constraints, and one fewer")
    script.do("load sample-32-64.plan", "read", "append 0", "choose -2", "check", "append 0")
    show(script)
    script.do("append 0", "choose 0")
    show(script)
    script.say("sizes past the arrays")
    for size, number in [("n", 33), ("n", 2**64 - 1), ("m", 65), ("m", 2**63)]:
        script.do("load plan-a.plan", "read", "set %s %d" % (size, number), "append 0", "replace 0 1", "choose 1", "close 0", "check", "begin", "state")
    script.say("limits without 0, crossed limits, and a threshold")
    for lower, upper, threshold in [(1, 2, 0), (-2, -1, 0), (2, 1, 0), (0, 3, 2), (0, 3, 1), (-1, 3, 2)]:
        script.do("load plan-a.plan", "read", "set lower 0 %d" % lower, "set upper 0 %d" % upper, "set threshold 0 %d" % threshold)
        show(script)
        script.do("close 1")
        show(script)
        script.do("close 0")
        show(script)


def write_changes(script):
    for name in PLANS:
        script.part("changes: " + name)
        change_plan(script, name)
    script.part("changes: edges")
    change_edges(script)

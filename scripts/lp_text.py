"""Sums, rows and whole problems written in the LP format, which scripts/lp.py reads."""
import textwrap

WIDTH = 100


def sum_text(coefficients, names):
    """A sum such as `2 x - y`, without the variables whose coefficient is 0; `0` where nothing is left."""
    words = []
    for coefficient, name in zip(coefficients, names):
        if coefficient:
            words += ["-" if coefficient < 0 else "+", "" if abs(coefficient) == 1 else str(abs(coefficient)), name]
    text = " ".join(word for word in words if word)
    return (text[2:] if text.startswith("+ ") else text) or "0"


def variables_of(problem):
    return ["v%d" % (i + 1) for i in range(len(problem.limits))]


def multiplier(number):
    """The free variable of the divisor constraint with this number."""
    return "k%d" % number


def row_text(number, constraint, names):
    """An inequality, or the equation of a divisor constraint. LP wants a variable in each row, so an empty sum is 0 times the first one."""
    if constraint.divisor:
        return "%s = %d" % (sum_text(constraint.coefficients + [-constraint.divisor], names + [multiplier(number)]), -constraint.constant)
    left = sum_text(constraint.coefficients, names)
    return "%s <= %d" % ("0 " + names[0] if left == "0" else left, -constraint.constant)


def wrapped(text):
    # Continuation lines are indented: a word in the first column may be taken for a section.
    return textwrap.fill(text, WIDTH, initial_indent=" ", subsequent_indent="    ", break_long_words=False, break_on_hyphens=False)


def write_lp(problem):
    """The problem as LP, variables v1 to vn; a divisor constraint is an equation with a free variable of its own, and a threshold the lower limit of a
    semi-continuous variable. The objective names every variable of the problem, so that each reader has them first and in this order."""
    names = variables_of(problem)
    multipliers = [multiplier(k) for k, c in enumerate(problem.constraints, 1) if c.divisor]
    lines = ["\\ budget %d" % problem.budget, "Minimize", wrapped("obj: " + " + ".join("0 " + name for name in names)), "Subject To"]
    lines += [wrapped("c%d: %s" % (k, row_text(k, c, names))) for k, c in enumerate(problem.constraints, 1)]
    domains = list(zip(names, problem.thresholds, problem.limits))
    lines += ["Bounds"] + [" %d <= %s <= %d" % (threshold or lower, name, upper) for name, threshold, (lower, upper) in domains]
    lines += [" %s free" % name for name in multipliers]
    lines += ["General", wrapped(" ".join(names + multipliers))]
    semi = [name for name, threshold, _ in domains if threshold]
    lines += ["Semi-Continuous", wrapped(" ".join(semi))] if semi else []
    return "\n".join(lines + ["End"]) + "\n"

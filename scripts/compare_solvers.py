#!/usr/bin/env python3
"""Compares the verdicts of the program `verdict` with other solvers, as a Markdown table.

    scripts/compare_solvers.py VERDICT [--limit SECONDS] [--solvers glpsol,cbc,z3,cvc5] [--random N] [--seed S] [--thresholds] [PLAN ..]

VERDICT is the program, with arguments or without, in one word. N small random problems, a third of their constraints with a divisor, and half of
their variables with a threshold where --thresholds is given, come after the plans. All go to z3 and cvc5 as SMT-LIB 2, and those without thresholds to
glpsol and cbc as LP: glpsol reads no section Semi-Continuous, and cbc was not tried on it. Each answers 'solution' or 'none', or is stopped after the
limit (20 s). Where `verdict` gives a solution, the SMT solvers are also asked for one that comes earlier in dictionary order: 'first' says that there is
none. The exit status is 1 where some answer disagrees.
"""
import argparse
import random
import shlex
import shutil
import subprocess
import sys
import tempfile
import time
from pathlib import Path

from lp_text import variables_of, write_lp
from problem import smt_number, write_smt2  # It makes reference/files.py known.
from files import Constraint, Problem, read_problem, write_problem

# How each solver is called on a file, and the words of its two answers in what it prints, the more exact ones first.
SOLVERS = {
    "glpsol": (["glpsol", "--lp"], "lp", [
        ("NO PRIMAL FEASIBLE", "none"), ("NO INTEGER FEASIBLE", "none"), ("INTEGER OPTIMAL SOLUTION FOUND", "solution")]),
    "cbc": (["cbc", "{}", "solve", "quit"], "lp", [("infeasible", "none"), ("Optimal solution found", "solution")]),
    "z3": (["z3"], "smt2", [("unsat", "none"), ("sat", "solution")]),
    "cvc5": (["cvc5"], "smt2", [("unsat", "none"), ("sat", "solution")]),
}


def answer_of(solver, text, limit):
    """The solver's answer to a text: solution, none, time or unknown; and its seconds."""
    command, kind, words = SOLVERS[solver]
    with tempfile.TemporaryDirectory() as folder:
        path = Path(folder) / ("model." + kind)
        path.write_text(text)
        command = [word.replace("{}", str(path)) for word in command] + ([] if "{}" in command else [str(path)])
        start = time.time()
        try:
            printed = subprocess.run(command, stdout=subprocess.PIPE, stderr=subprocess.STDOUT, timeout=limit, cwd=folder).stdout.decode()
        except subprocess.TimeoutExpired:
            return "time", limit
    return next((answer for word, answer in words if word in printed), "unknown"), time.time() - start


def earlier(values, names):
    """That a point comes before these values in dictionary order."""
    test = "false"
    for name, value in reversed(list(zip(names, values))):
        number = smt_number(value)
        test = "(or (< %s %s) (and (= %s %s) %s))" % (name, number, name, number, test)
    return "(assert %s)\n" % test


def column(solver, problem, ours, values, limit):
    """What a solver says of a problem, and whether it disagrees with us."""
    if SOLVERS[solver][1] == "lp" and any(problem.thresholds):
        return "not asked", False
    text = write_lp(problem) if SOLVERS[solver][1] == "lp" else write_smt2(problem)
    answer, seconds = answer_of(solver, text, limit)
    said, wrong = "%s, %.1f s" % (answer, seconds), answer in ("solution", "none") and answer != ours
    if ours == "solution" and SOLVERS[solver][1] == "smt2":
        before, seconds = answer_of(solver, text.replace("(check-sat)", earlier(values, variables_of(problem)) + "(check-sat)"), limit)
        said += "; %s, %.1f s" % ({"none": "first", "solution": "NOT FIRST"}.get(before, before), seconds)
        wrong = wrong or before == "solution"
    return said, wrong


def verdict_of(program, plan):
    """solution, none or spent; and the values of a solution."""
    printed = subprocess.run(shlex.split(program), input=plan, stdout=subprocess.PIPE, check=True).stdout.decode().splitlines()
    words = next(line.split() for line in printed if line.startswith(("solution", "none", "spent")))
    return words[0], [int(word) for word in words[1:]]


def small_problem(source):
    """A few variables and constraints, most of the constraints near a point inside the limits: both verdicts are common."""
    lowers = [source.randint(-4, 3) for _ in range(source.randint(1, 6))]
    limits = [(lower, lower + source.randint(0, 5)) for lower in lowers]
    constraints = []
    for _ in range(source.randint(1, 7)):
        coefficients = [source.choice([0, 0, source.randint(-6, 6)]) for _ in limits]
        point = [source.randint(*pair) for pair in limits]
        distance = source.choice([0, source.randint(-3, 6)])
        divisor = source.choice([0, 0, source.choice([2, 3, 4, 5, 12])])
        constraints.append(Constraint(distance - sum(a * v for a, v in zip(coefficients, point)), coefficients, divisor))
    return Problem(limits, constraints, 1000000)


def with_thresholds(problem, source):
    """The same problem, half of its variables now 0 or at least a threshold."""
    for i in range(len(problem.limits)):
        if source.random() < 0.5:
            upper = source.randint(2, 6)
            problem.limits[i], problem.thresholds[i] = (0, upper), source.randint(2, upper)
    return problem


def main():
    parser = argparse.ArgumentParser(description=__doc__, formatter_class=argparse.RawDescriptionHelpFormatter)
    parser.add_argument("verdict")
    parser.add_argument("--limit", type=float, default=20)
    parser.add_argument("--solvers", default="glpsol,z3")
    parser.add_argument("--random", type=int, default=0)
    parser.add_argument("--seed", type=int, default=1)
    parser.add_argument("--thresholds", action="store_true")
    parser.add_argument("plans", nargs="*", type=Path)
    options = parser.parse_intermixed_args()
    solvers, source = options.solvers.split(","), random.Random(options.seed)
    for solver in solvers:
        if solver not in SOLVERS or not shutil.which(solver):
            sys.exit("%s is not known or not installed" % solver)
    plans = [(path.stem, path.read_bytes()) for path in options.plans]
    for k in range(options.random):
        problem = small_problem(source)
        plans.append(("random %d" % (k + 1), write_problem(with_thresholds(problem, source) if options.thresholds else problem)))
    print("| plan | verdict | %s |\n|%s" % (" | ".join(solvers), "---|" * (2 + len(solvers))))
    disagreements = 0
    for name, plan in plans:
        ours, values = verdict_of(options.verdict, plan)
        columns = [column(solver, read_problem(plan), ours, values, options.limit) for solver in solvers]
        disagreements += sum(wrong for _, wrong in columns)
        print("| %s | %s | %s |" % (name, ours, " | ".join(said for said, _ in columns)), flush=True)
    print("\nDisagreements: %d" % disagreements)
    sys.exit(1 if disagreements else 0)


if __name__ == "__main__":
    main()

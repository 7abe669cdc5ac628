#!/usr/bin/env python3
"""Problem files from and to the formats of other solvers.

    scripts/problem.py file < model.lp > model.plan     from LP (CPLEX LP: glpsol, cbc, SCIP, HiGHS, Gurobi)
    scripts/problem.py lp   < model.plan > model.lp     to LP
    scripts/problem.py smt2 < model.plan > model.smt2   to SMT-LIB 2 (z3, cvc5)

Variables are in the order of LP's section General, then Binary; the first solution in dictionary order is with respect to it. The budget
is a comment, '\\ budget 1000'; without one it is 1000000. That 5 divides x + y + 2 is an equation, x + y - 5 k = -2, whose variable k is 'free' in
Bounds and stands in no other row; it is none of the problem's variables. That x is 0 or at least 3 is a bound '3 <= x <= 9' with x in the sections General and
Semi-Continuous. What a file cannot hold is told in one sentence with its line, and nothing is written.
"""
import sys

from lp import LpError, read_lp  # It makes reference/files.py known.
from lp_text import variables_of, write_lp
from files import FileError, read_problem, write_problem

ERRORS = {
    1: "its length is under 512 bytes or no multiple of 512",
    2: "a block's check is wrong",
    3: "the letters BLUE are missing",
    4: "a size or the budget is out of range, or the number of blocks is wrong",
    5: "a limit is out of range or limits are crossed",
    6: "a coefficient or constant is out of range",
    7: "a byte that should be zero is not",
    10: "a divisor is negative, 1 or above 2^20",
    13: "a threshold is negative, 1 or above its variable's upper limit, or the lower limit beside it is not 0",
}


def smt_number(number):
    """SMT-LIB has no negative numerals."""
    return str(number) if number >= 0 else "(- %d)" % -number


def smt_sum(coefficients, names):
    terms = ["(* %s %s)" % (smt_number(a), name) for a, name in zip(coefficients, names) if a]
    return "(+ %s)" % " ".join(terms) if len(terms) > 1 else "".join(terms) or "0"


def smt_constraint(constraint, names):
    """An inequality, or what a divisor divides: SMT-LIB's remainder by a positive number is never negative."""
    left = smt_sum(constraint.coefficients, names)
    if constraint.divisor:
        return "(= 0 (mod (+ %s %s) %d))" % (left, smt_number(constraint.constant), constraint.divisor)
    return "(<= %s %s)" % (left, smt_number(-constraint.constant))


def write_smt2(problem):
    """The problem in SMT-LIB 2, logic QF_LIA. The budget has no counterpart there."""
    names = variables_of(problem)
    lines = ["(set-option :produce-models true)", "(set-logic QF_LIA)"]
    lines += ["(declare-fun %s () Int)" % name for name in names]
    for name, (lower, upper) in zip(names, problem.limits):
        lines.append("(assert (and (<= %s %s) (<= %s %s)))" % (smt_number(lower), name, name, smt_number(upper)))
    lines += ["(assert (or (<= %s 0) (<= %d %s)))" % (name, threshold, name) for name, threshold in zip(names, problem.thresholds) if threshold]
    lines += ["(assert %s)" % smt_constraint(c, names) for c in problem.constraints]
    return "\n".join(lines + ["(check-sat)", "(get-model)"]) + "\n"


def file_from_lp(data):
    return write_problem(read_lp(data.decode("utf-8-sig", "replace"))[0])


def lp_from_file(data):
    return write_lp(read_problem(data)).encode()


def smt2_from_file(data):
    return write_smt2(read_problem(data)).encode()


COMMANDS = {"file": file_from_lp, "lp": lp_from_file, "smt2": smt2_from_file}


def main():
    if len(sys.argv) != 2 or sys.argv[1] not in COMMANDS:
        sys.exit(__doc__)
    try:
        output = COMMANDS[sys.argv[1]](sys.stdin.buffer.read())
    except LpError as error:
        sys.exit(str(error))
    except FileError as error:
        sys.exit("this is no problem file: %s (error %d)" % (ERRORS[error.number], error.number))
    sys.stdout.buffer.write(output)


if __name__ == "__main__":
    main()

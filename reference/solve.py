#!/usr/bin/env python3
"""A second implementation of docs/SPECIFICATION.md, plain and slow, to compare with.

    reference/solve.py verdict < FILE                what the program `verdict` prints
    reference/solve.py journal [--hex] < FILE        the journal's bytes; with --hex each record in hexadecimal, one to a line
    reference/solve.py list < FILE                   what the program `solutions` prints
    reference/solve.py gen SEED KIND [BUDGET]        a generated problem file; the kinds are listed in reference/generate.py
"""
import sys

from files import FileError, TRUNCATED, blocks_of, read_problem, read_record
from generate import generate
from search import ENDED, SOLUTION, STRUCK, exclude, open_problem, run

LONGEST_INPUT = 65536


def read_input(data):
    """The problem in a program's input."""
    if len(data) > LONGEST_INPUT:
        raise FileError(TRUNCATED)
    return read_problem(data)


def plan_line(problem):
    return "plan %d %d %d" % (len(problem.limits), len(problem.constraints), problem.budget)


def verdict_line(answer):
    return " ".join([answer.verdict] + [str(value) for value in answer.values]) if answer.verdict == SOLUTION else answer.verdict


def report(problem, answer, records):
    """The lines that `verdict` prints."""
    yield plan_line(problem)
    for record in map(read_record, records):
        yield "end %d line %d cut %d depth %d back %d" % (record.count, record.falsified, record.cut_number, record.depth, record.back)
    yield verdict_line(answer)
    yield "ends %d" % answer.count
    yield "set %d" % answer.propagations


def solve(data):
    """What the programs `verdict` and `journal` write for an input: text and bytes."""
    try:
        problem = read_input(data)
    except FileError as error:
        return "refused %d\n" % error.number, b""
    answer, records = run(open_problem(problem))
    return "".join(line + "\n" for line in report(problem, answer, records)), b"".join(records)


def listing(data):
    """The lines that the program `solutions` prints for an input, one by one: there may be very many."""
    try:
        problem = read_input(data)
    except FileError as error:
        yield "refused %d" % error.number
        return
    yield from solutions(problem, open_problem(problem), lambda search: run(search)[0], exclude)


def solutions(problem, search, run_to_verdict, strike):
    """The lines from the opened state on, by these two calls."""
    yield plan_line(problem)
    struck, said = 0, STRUCK
    while said == STRUCK:
        answer = run_to_verdict(search)
        yield verdict_line(answer)
        said, search = strike(answer.state)
        struck += said == STRUCK
    if said == ENDED:
        yield ENDED
    yield "ends %d" % answer.count
    yield "struck %d" % struck
    yield "set %d" % answer.propagations


def main(arguments):
    if arguments[:1] == ["gen"] and len(arguments) in (3, 4):
        sys.stdout.buffer.write(generate(int(arguments[1]), arguments[2], *map(int, arguments[3:])))
        return
    if arguments not in (["verdict"], ["journal"], ["journal", "--hex"], ["list"]):
        sys.exit(__doc__)
    data = sys.stdin.buffer.read(LONGEST_INPUT + 1)
    if arguments == ["list"]:
        for line in listing(data):
            print(line)
        return
    text, journal = solve(data)
    if arguments[0] == "journal":
        text = "".join(block.hex() + "\n" for block in blocks_of(journal))
    sys.stdout.buffer.write(journal if arguments == ["journal"] else text.encode())


if __name__ == "__main__":
    main(sys.argv[1:])

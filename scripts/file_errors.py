"""Cases of reading and writing with several errors at once: the one that is told is the first in the order of the call."""
from itertools import combinations

from file_cases import BLOCK, FAR, MAX_BOUND, MAX_BUDGET, MAX_COEFFICIENT, MAX_DIVISOR, byte, put, reading, spoil, word, writing

WHOLE = 3 * BLOCK
ORDER = [1, 2, 3, 4, 5, 13, 6, 10, 7]

# What makes each error in a sample file of three blocks, and in its problem; 1 is a byte too few, and so is 8 in writing.
IN_FILE = {2: spoil(2, 508), 3: byte(0, 2, 79), 4: word(0, 8, MAX_BUDGET + 1), 5: word(0, 20, MAX_BOUND + 1), 13: word(0, 268, 1),
           6: word(1, 8, -MAX_COEFFICIENT - 1), 10: word(2, 132, MAX_DIVISOR + 1), 7: byte(1, 400, 1)}
IN_PROBLEM = {4: put("budget", MAX_BUDGET + 1), 5: put("lower", 1, 3), 13: put("threshold", 0, 1), 6: put("row", 1, 2, MAX_COEFFICIENT + 1),
              10: put("divisor", 1, 1)}


def named(numbers):
    """The errors' numbers in words, in the order of the calls."""
    first = ", ".join(str(number) for number in numbers[:-1])
    return "error %d" % numbers[0] if len(numbers) == 1 else "errors %s and %d" % (first, numbers[-1])


def read_with(name, numbers, *edits):
    return reading(name, 3, 2, *edits, *(IN_FILE[number] for number in numbers if number != 1), length=WHOLE - (1 in numbers))


def write_with(name, numbers, *edits):
    return writing(name, 3, 2, *edits, *(IN_PROBLEM[number] for number in numbers if number != 8), length=WHOLE - (8 in numbers))


def read_errors():
    for count in (1, 2):
        for numbers in combinations(ORDER, count):
            yield read_with(named(numbers), numbers)
    for numbers in [(6, 10, 7), (13, 6, 10, 7), (5, 13, 6, 10, 7), tuple(ORDER)]:
        yield read_with(named(numbers), numbers)
    yield reading("errors 10 and 7 in one block", 3, 2, word(1, 132, 1), byte(1, 136, 1))
    yield reading("errors 13 and 7 in one block", 3, 2, word(0, 268, 1), byte(0, 400, 1))
    yield reading("errors 5 and 13 at one variable", 3, 2, word(0, 268, 1), word(0, 12, 1), word(0, 16, 0))
    yield reading("errors 2 and 10 in another block", 3, 2, word(2, 132, MAX_DIVISOR + 1), spoil(1, 508))
    yield reading("errors 2 and 13 in another block", 3, 2, word(0, 268, 1), spoil(1, 508))


def write_errors():
    order = [4, 5, 13, 6, 10, 8]
    for count in (1, 2):
        for numbers in combinations(order, count):
            yield write_with(named(numbers), numbers)
    for numbers in [(6, 10, 8), (13, 6, 10, 8), (5, 13, 6, 10, 8), tuple(order)]:
        yield write_with(named(numbers), numbers)
    for numbers in [(6,), (6, 8), (13, 6, 8), (5, 13, 6, 8)]:
        yield write_with(named(numbers) + ", and 10 in another constraint", numbers, put("divisor", 0, 1))


def beside_limits():
    """A limit of 2^20 + 1, of 2^24 and of one more, each with what comes after 5 in the order."""
    sides = [("an upper bound", 24, "upper", 1), ("a lower bound", 20, "lower", -1)]
    for name, at, field, sign in sides:
        for size in (FAR + 1, MAX_BOUND, MAX_BOUND + 1):
            title = "%s of %d and " % (name, sign * size)
            for numbers in [(13,), (6,), (10,), (7,), (13, 6, 10, 7), (6, 10, 7), (10, 7)]:
                yield read_with(title + named(numbers), numbers, word(0, at, sign * size))
            for numbers in [(13,), (6,), (10,), (8,), (13, 6, 10, 8), (6, 10, 8), (10, 8)]:
                yield write_with(title + named(numbers), numbers, put(field, 1, sign * size))
    for numbers in [(), (13, 6, 10, 7)]:
        title = "a lower bound of 1048577 above the upper one" + (" and " + named(numbers) if numbers else "")
        yield read_with(title, numbers, word(0, 20, FAR + 1))
        yield write_with(title, [8 if number == 7 else number for number in numbers], put("lower", 1, FAR + 1))


ERRORS = [read_errors, write_errors, beside_limits]

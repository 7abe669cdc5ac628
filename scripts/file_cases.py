"""Cases of reading and writing: a sample file and problem, and what is changed in the file, in the problem or in both. Sizes, limits, numbers, divisors and
thresholds at the ends of their ranges and one past them, stray bytes, wrong lengths and checks. Several errors at once are in scripts/file_errors.py."""
from dataclasses import dataclass, field

import implementation  # it puts reference/ on the path
from files import BLOCK, DIVISOR_OFFSET, MAX_BOUND, MAX_BUDGET, MAX_COEFFICIENT, MAX_DIVISOR, THRESHOLD_OFFSET, problem_file

FAR = 2**20
LEAST, MOST = -(2**63), 2**63 - 1
LARGEST = 2**64 - 1


def value(i):
    """A small number for place i; even places have positive ones, odd places negative ones."""
    return i % 1000 * (-1 if i % 2 else 1)


def sample_row(n, k):
    return [value(33 * k + i) for i in range(1 + n)]


def sample(n, m):
    """The sample file of n variables and m constraints."""
    return problem_file(7, [(value(2 * i + 1), value(2 * i)) for i in range(n)], [sample_row(n, k) for k in range(1, m + 1)])


@dataclass
class Edit:
    """A change: numbers and bytes in blocks of the file, which then get their checks; bytes that become one more, and checks of other blocks' indexes, after
    that; and numbers of the problem, a field, indexes and the number each."""

    words: list = field(default_factory=list)
    bytes: list = field(default_factory=list)
    spoiled: list = field(default_factory=list)
    seals: list = field(default_factory=list)
    sets: list = field(default_factory=list)


@dataclass
class Case:
    """A case: the sample's sizes, the changes, how many bytes are read, and into how many the problem is written; None where that is not tried."""

    name: str
    n: int
    m: int
    edits: list
    read: int = None
    write: int = None


# ---- changes of both the file and the problem

def limits(i, lower, upper):
    return Edit(words=[(0, 12 + 8 * i, lower), (0, 16 + 8 * i, upper)], sets=[("lower", i, lower), ("upper", i, upper)])


def threshold(i, number):
    return Edit(words=[(0, THRESHOLD_OFFSET + 4 * i, number)], sets=[("threshold", i, number)])


def number(k, i, z):
    """Number i of constraint k, the constant first."""
    return Edit(words=[(k, 4 * i, z)], sets=[("row", k - 1, i, z)])


def divisor(k, q):
    return Edit(words=[(k, DIVISOR_OFFSET, q)], sets=[("divisor", k - 1, q)])


def budget(b):
    return Edit(words=[(0, 8, b)], sets=[("budget", b)])


# ---- of the file alone, and of the problem alone

def word(k, at, z):
    return Edit(words=[(k, at, z)])


def byte(k, at, z):
    return Edit(bytes=[(k, at, z)])


def spoil(k, at):
    return Edit(spoiled=[(k, at)])


def check(k, index):
    return Edit(seals=[(k, index)])


def extra(k, n):
    """A further block, as a constraint of n variables."""
    return Edit(words=[(k, 4 * i, z) for i, z in enumerate(sample_row(n, k))])


def put(*numbers):
    return Edit(sets=[numbers])


# ---- cases

def both(name, n, m, *edits):
    """The file is read, and the problem is written into as many bytes as it takes."""
    return Case(name, n, m, list(edits), BLOCK * (1 + m), BLOCK * (1 + m))


def reading(name, n, m, *edits, length=None):
    return Case(name, n, m, list(edits), read=BLOCK * (1 + m) if length is None else length)


def writing(name, n, m, *edits, length=2048):
    return Case(name, n, m, list(edits), write=length)


def size_cases():
    for n in (0, 1, 32, 33):
        yield both("%d variable%s" % (n, "" if n == 1 else "s"), n, 2)
    for m in (0, 64, 65):
        yield both("%d constraints" % m, 3, m)
    yield both("32 variables and 64 constraints", 32, 64)
    for b in (0, MAX_BUDGET, MAX_BUDGET + 1, 2**32 - 1):
        yield both("a budget of %d" % b, 3, 2, budget(b))


def limit_cases():
    for upper in (FAR, FAR + 1, MAX_BOUND, MAX_BOUND + 1):
        yield both("an upper bound of %d" % upper, 3, 3, limits(0, 0, upper))
        yield both("a lower bound of %d" % -upper, 3, 3, limits(0, -upper, 0))
        for v in (upper, -upper):
            yield both("both bounds %d" % v, 3, 3, limits(2, v, v))
    for upper in (FAR + 1, MAX_BOUND, MAX_BOUND + 1):
        yield both("an upper bound of %d at the last of 32 variables" % upper, 32, 3, limits(31, 0, upper))
        yield both("a lower bound of %d at the last of 32 variables" % -upper, 32, 3, limits(31, -upper, 0))
    yield both("an upper bound of 2147483647", 3, 3, limits(2, 0, 2**31 - 1))
    yield both("a lower bound of -2147483648", 3, 3, limits(2, -(2**31), 0))
    yield both("the widest bounds", 3, 3, limits(1, -MAX_BOUND, MAX_BOUND))
    yield both("the widest bounds and one more", 3, 3, limits(1, -MAX_BOUND, MAX_BOUND + 1))
    yield both("the widest bounds and one less", 3, 3, limits(1, -MAX_BOUND - 1, MAX_BOUND))
    yield both("equal bounds", 3, 3, limits(1, -4, -4))
    yield both("a lower bound one above the upper", 3, 3, limits(1, -4, -5))
    yield both("a lower bound of 1 and an upper bound of -1", 3, 3, limits(0, 1, -1))
    yield both("the widest bounds the wrong way round", 3, 3, limits(2, MAX_BOUND, -MAX_BOUND))
    yield both("a lower bound of 16777216 and an upper bound of 16777215", 3, 3, limits(2, MAX_BOUND, MAX_BOUND - 1))
    yield both("crossed bounds at the last of 32 variables", 32, 3, limits(31, 1, 0))


def number_cases():
    heaviest = MAX_COEFFICIENT
    for z in (heaviest, heaviest + 1):
        yield both("a constant of %d" % z, 3, 3, number(1, 0, z))
        yield both("a constant of %d" % -z, 3, 3, number(3, 0, -z))
        yield both("a coefficient of %d" % z, 3, 3, number(2, 1, z))
        yield both("a coefficient of %d" % -z, 3, 3, number(1, 3, -z))
    for z in (heaviest + 1, -(2**31)):
        yield both("a last coefficient of %d" % z, 32, 3, number(3, 32, z))
    for k, q in [(2, -1), (2, 1), (2, 2), (1, MAX_DIVISOR), (3, MAX_DIVISOR + 1), (1, -2), (3, -MAX_DIVISOR), (2, 2**31 - 1)]:
        yield both("a divisor of %d" % q, 3, 3, divisor(k, q))
    yield both("a divisor of -2147483648 after 32 coefficients", 32, 3, divisor(3, -(2**31)))
    yield both("a last divisor of 1 in 64 constraints", 3, 64, divisor(64, 1))
    yield both("a last divisor of 3 in 64 constraints of 32 variables", 32, 64, divisor(64, 3))


def threshold_cases():
    for name, t in [("-1", -1), ("1", 1), ("2", 2), ("the upper bound", 9), ("one above the upper bound", 10), ("-2", -2), ("2147483647", 2**31 - 1),
                    ("-2147483648", -(2**31))]:
        yield both("a threshold of " + name, 3, 3, limits(1, 0, 9), threshold(1, t))
    for upper, t in [(FAR, FAR), (FAR, FAR + 1), (FAR + 1, FAR + 1), (FAR + 1, FAR + 2), (MAX_BOUND, MAX_BOUND), (MAX_BOUND, MAX_BOUND + 1),
                     (MAX_BOUND + 1, MAX_BOUND + 1), (MAX_BOUND - 1, MAX_BOUND), (MAX_BOUND, 2)]:
        yield both("a threshold of %d beside an upper bound of %d" % (t, upper), 3, 3, limits(2, 0, upper), threshold(2, t))
    yield both("a threshold of 2 beside a lower bound of -16777216", 3, 3, limits(2, -MAX_BOUND, MAX_BOUND), threshold(2, 2))
    for upper, t in [(MAX_BOUND, MAX_BOUND), (MAX_BOUND, MAX_BOUND + 1), (62, 62), (62, 63)]:
        yield both("a threshold of %d beside %d at the last of 32 variables" % (t, upper), 32, 3, limits(31, 0, upper), threshold(31, t))
    for lower in (1, -1, 2, -9):
        yield both("a threshold of 2 beside a lower bound of %d" % lower, 3, 3, limits(1, lower, 9), threshold(1, 2))
    yield both("no threshold beside a lower bound of 1", 3, 3, limits(1, 1, 9), threshold(1, 0))
    for upper, t in [(0, 2), (1, 2), (2, 2), (1, 1)]:
        yield both("a threshold of %d beside an upper bound of %d" % (t, upper), 3, 3, limits(0, 0, upper), threshold(0, t))
    yield both("a threshold of -1 beside bounds of -1", 3, 3, limits(0, -1, -1), threshold(0, -1))
    each = [limits(0, 0, 2), threshold(0, 2), limits(1, 0, 5), threshold(1, 3), limits(2, 0, 1000), threshold(2, 999)]
    yield both("a threshold at each of 3 variables", 3, 3, *each)


def length_cases():
    for length in (0, 511, 512, 513, 1023, 1024):
        yield reading("%d bytes of a file of one block" % length, 1, 0, extra(1, 1), length=length)
    for length in (512, 1536, 2047, 2048, 2049, 2560):
        yield reading("%d bytes of a file of four blocks" % length, 3, 3, extra(4, 3), length=length)
    yield reading("64 constraints and a block too many", 3, 64, extra(65, 3), length=33792)
    yield reading("a block too many with a wrong check", 3, 3, extra(4, 3), spoil(4, 508), length=2560)


def check_cases():
    for at, letter in [(0, 98), (1, 73), (2, 86), (3, 0)]:
        yield reading("a wrong letter at byte %d" % at, 3, 3, byte(0, at, letter))
    for k, at in [(0, 508), (2, 509), (3, 511)]:
        yield reading("a wrong check in block %d" % k, 3, 3, spoil(k, at))
    for k, at in [(0, 0), (3, 4), (1, 507)]:
        yield reading("byte %d of block %d, which the check does not fit" % (at, k), 3, 3, spoil(k, at))
    for k, index in [(0, 1), (2, 1), (3, 0), (3, 2**32 + 3)]:
        yield reading("block %d with the check of block %d" % (k, index), 3, 3, check(k, index))


def stray_cases():
    for at, z in [(36, 1), (300, 255), (507, 128), (35, 0), (132, 2), (280, 1), (395, 1), (396, 1)]:
        yield reading("%d in byte %d of the head" % (z, at), 3, 3, byte(0, at, z))
    for at, z in [(16, 1), (200, 1), (131, 1), (136, 1), (132, 2), (134, 16), (135, 1)]:
        yield reading("%d in byte %d of a constraint" % (z, at), 3, 3, byte(1 if at == 16 else 2, at, z))
    yield reading("a stray byte before the last check", 3, 3, byte(3, 507, 1))
    yield reading("the first byte of the last coefficient", 3, 3, byte(3, 12, 77))
    # Bytes of the last limits and thresholds.
    for first, last in [(0, 1), (1, 1), (0, 2)]:
        edits = [word(0, 28, 0), word(0, 32, first), byte(0, 35, last)]
        yield reading("%d in the first and %d in the last byte of the last upper bound" % (first, last), 3, 3, *edits)
    for z in (255, 254):
        yield reading("%d in the last byte of the last lower bound" % z, 3, 3, word(0, 28, 0), byte(0, 31, z))
    for k, at in [(2, 16), (2, 131), (2, 136)]:
        yield reading("a stray byte %d beside a divisor" % at, 3, 3, word(k, DIVISOR_OFFSET, 2), byte(k, at, 1))
    yield reading("a stray byte after 32 coefficients and a divisor", 32, 3, word(3, DIVISOR_OFFSET, 2), byte(3, 136, 1))
    yield reading("a stray byte far after a divisor", 3, 3, word(1, DIVISOR_OFFSET, 2), byte(1, 507, 1))
    for at, name in [(36, "a lower bound"), (40, "an upper bound")]:
        yield reading(name + " past the last variable", 3, 3, word(0, at, -(2**31)))
    yield reading("a number after the last of 32 upper bounds", 32, 3, word(0, 268, -(2**31)))
    yield reading("a coefficient past the last variable", 3, 3, word(1, 16, -(2**31)))
    yield reading("a threshold past the last variable", 3, 3, word(0, 280, 2))
    yield reading("a stray byte after a threshold", 3, 3, word(0, 28, 0), word(0, 32, 9), word(0, 276, 2), byte(0, 280, 1))
    yield reading("a stray byte before a threshold", 3, 3, word(0, 12, 0), word(0, 16, 9), word(0, 268, 2), byte(0, 267, 1))
    for n, at, z in [(31, 260, 1), (31, 267, 1), (31, 392, 2), (32, 396, 1), (32, 507, 1)]:
        yield reading("%d in byte %d of a head of %d variables" % (z, at, n), n, 3, byte(0, at, z))


def threshold_byte_cases():
    yield reading("the first byte of the first threshold", 3, 3, word(0, 12, 0), word(0, 16, 9), byte(0, 268, 2))
    yield reading("the second byte of the last threshold", 3, 3, word(0, 28, 0), word(0, 32, 300), byte(0, 277, 1))
    for upper, z in [(FAR, 1), (MAX_BOUND, 1), (MAX_BOUND, 2)]:
        yield reading("%d in the last byte of a threshold beside %d" % (z, upper), 3, 3, word(0, 28, 0), word(0, 32, upper), byte(0, 279, z))
    for upper in (FAR, MAX_BOUND):
        yield reading("1 in the last byte of threshold 32 beside %d" % upper, 32, 3, word(0, 260, 0), word(0, 264, upper), byte(0, 395, 1))


def wild_cases():
    """Problems that no file holds, and numbers past the end of one."""
    for n in (LARGEST, 65537):
        yield writing("%d variables" % n, 32, 2, put("n", n))
    for m in (LARGEST, 65536):
        yield writing("%d constraints" % m, 3, 64, put("m", m))
    for b in (2**32, LARGEST):
        yield writing("a budget of %d" % b, 3, 2, put("budget", b))
    yield writing("an upper bound of 4294967297", 3, 2, put("lower", 2, 0), put("upper", 2, 2**32 + 1))
    yield writing("a lower bound of -4294967296", 3, 2, put("lower", 2, -(2**32)), put("upper", 2, 0))
    yield writing("the widest bounds of 64 bits", 3, 2, put("lower", 2, LEAST), put("upper", 2, MOST))
    yield writing("a constant of 4294967297", 3, 2, put("row", 1, 0, 2**32 + 1))
    for j, i, z in [(0, 3, -(2**32)), (1, 3, MOST), (0, 1, LEAST)]:
        yield writing("a coefficient of %d" % z, 3, 2, put("row", j, i, z))
    for j, q in [(1, 2**32 + 2), (1, 2 - 2**32), (0, MOST), (0, LEAST)]:
        yield writing("a divisor of %d" % q, 3, 2, put("divisor", j, q))
    for t in (2**32 + 2, 2 - 2**32, MOST, LEAST):
        yield writing("a threshold of %d" % t, 3, 2, put("lower", 0, 0), put("upper", 0, 9), put("threshold", 0, t))
    wild = [put("n", 3), put("m", 2)] + [put(*at, MOST) for at in [("lower", 3), ("lower", 31), ("upper", 3), ("row", 0, 4), ("row", 1, 32), ("row", 2, 0),
                                                                  ("row", 63, 32), ("divisor", 2), ("divisor", 63), ("threshold", 3), ("threshold", 31)]]
    yield writing("wild numbers past the end", 32, 64, *wild)
    yield writing("wild numbers past the end of no constraint", 32, 64, *wild, put("n", 1), put("m", 0), put("row", 0, 0, MOST), length=512)
    yield writing("a wild number after the last coefficient", 3, 2, put("row", 1, 4, 2**32))
    yield writing("a wild constant after the last constraint", 3, 2, put("row", 2, 0, 2**32))
    yield writing("a divisor after the last constraint", 3, 2, put("divisor", 2, 5))
    yield writing("a wild divisor after the last constraint", 3, 2, put("divisor", 2, 1), put("divisor", 63, LEAST))
    yield writing("a threshold after the last variable", 3, 2, put("threshold", 3, 5))
    yield writing("wild thresholds after the last variable", 3, 2, put("threshold", 3, 1), put("threshold", 31, LEAST))


def buffer_cases():
    for n, m, lengths in [(1, 0, (0, 511, 512, 513)), (3, 2, (1024, 1535, 1536, 1537, 4096)), (32, 64, (33279, 33280, 33792, 65536))]:
        for length in lengths:
            yield writing("%d block%s into %d bytes" % (1 + m, "s" if m else "", length), n, m, length=length)


def trip_cases():
    """Whole problems, from the file and into it."""
    for n, m in [(1, 0), (3, 2), (32, 0), (1, 64), (32, 64)]:
        yield both("%d by %d" % (n, m), n, m)
    yield both("3 by 4 with divisors", 3, 4, divisor(1, 2), divisor(3, MAX_DIVISOR), divisor(4, 7))
    yield both("32 by 64 with divisors", 32, 64, divisor(1, 3), divisor(33, 1000), divisor(64, 65537))
    yield both("3 by 2 with thresholds", 3, 2, limits(0, 0, 9), threshold(0, 9), limits(2, 0, FAR), threshold(2, 2))
    some = [limits(0, 0, 2), threshold(0, 2), limits(15, 0, 1000), threshold(15, 500), limits(31, 0, 65537), threshold(31, 65536), divisor(33, 1000)]
    yield both("32 by 64 with thresholds and divisors", 32, 64, *some)
    yield both("3 by 2 with limits of 16777216", 3, 2, limits(0, -MAX_BOUND, MAX_BOUND), limits(1, MAX_BOUND, MAX_BOUND), limits(2, -MAX_BOUND, -MAX_BOUND))
    shapes = [(-MAX_BOUND, MAX_BOUND, 0), (0, MAX_BOUND, MAX_BOUND), (MAX_BOUND - 1, MAX_BOUND, 0), (-MAX_BOUND, 1 - MAX_BOUND, 0), (0, MAX_BOUND, 2),
              (FAR + 1, MAX_BOUND, 0), (-MAX_BOUND, -FAR - 1, 0), (0, FAR + 1, FAR + 1)]
    wide = [edit for i in range(32) for edit in [limits(i, *shapes[i % 8][:2])] + [threshold(i, shapes[i % 8][2])] * (shapes[i % 8][2] > 0)]
    yield both("32 by 64 with limits and thresholds of 16777216", 32, 64, *wide)


CASES = [size_cases, limit_cases, number_cases, threshold_cases, length_cases, check_cases, stray_cases, threshold_byte_cases, wild_cases, buffer_cases,
         trip_cases]

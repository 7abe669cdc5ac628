"""Problem files and journal records as bytes (docs/SPECIFICATION.md, sections 1 to 3 and 9)."""
import struct
from dataclasses import dataclass, field
from functools import cached_property

BLOCK = 512
CONTENT = BLOCK - 4
MAGIC = b"BLUE"
RECORD_MAGIC = b"DEAD"
MAX_VARIABLES = 32
MAX_CONSTRAINTS = 64
MAX_BUDGET = 10**9
MAX_BOUND = 2**24
MAX_COEFFICIENT = 2**30
MIN_DIVISOR = 2
MAX_DIVISOR = 2**20
DIVISOR_OFFSET = 132
MIN_THRESHOLD = 2
THRESHOLD_OFFSET = 268

# The numbers of errors.
TRUNCATED, BAD_CHECKSUM, BAD_MAGIC, SIZE_RANGE, DOMAIN_RANGE, COEFFICIENT_RANGE, NONZERO_PADDING, SHORT_BUFFER, INVALID_SEARCH = range(1, 10)
DIVISOR_RANGE = 10
THRESHOLD_RANGE = 13


class FileError(Exception):
    """A file that is no problem file, with the number of its first error."""

    def __init__(self, number):
        super().__init__("error %d" % number)
        self.number = number


@dataclass
class Constraint:
    """constant + sum of coefficients times variables <= 0; where the divisor is not 0, it divides that sum."""

    constant: int
    coefficients: list
    divisor: int = 0

    @cached_property
    def terms(self):
        """The coefficients that are not 0, each with its variable, counted from 0."""
        return [(i, a) for i, a in enumerate(self.coefficients) if a != 0]


@dataclass
class Problem:
    """Limits are pairs (lower, upper), one for each variable. Where a variable's threshold is not 0, it is 0 or at least that; thresholds not given are 0."""

    limits: list
    constraints: list
    budget: int
    thresholds: list = ()

    def __post_init__(self):
        self.thresholds = list(self.thresholds) + [0] * (len(self.limits) - len(self.thresholds))


@dataclass
class Record:
    """What a journal block holds. `used` has, for each variable, the number of the constraint resolved with there, or 0."""

    count: int
    falsified: int
    cut_number: int
    depth: int
    back: int
    cut: Constraint
    used: list = field(default_factory=list)


def checksum(content, k):
    """The check of block k, whose first 508 bytes are given."""
    return (sum(struct.unpack("<127I", content)) + k + 1) % 2**32


def sealed(content, k):
    """Block k with this content, padded, and its check."""
    content = content.ljust(CONTENT, b"\0")
    return content + struct.pack("<I", checksum(content, k))


def blocks_of(data):
    return [data[at:at + BLOCK] for at in range(0, len(data), BLOCK)]


def has_right_check(block, k):
    return struct.unpack("<I", block[CONTENT:])[0] == checksum(block[:CONTENT], k)


def in_range(value, most):
    return -most <= value <= most


def divisor_fits(divisor):
    return divisor == 0 or MIN_DIVISOR <= divisor <= MAX_DIVISOR


def threshold_fits(threshold, lower, upper):
    return threshold == 0 or lower == 0 and MIN_THRESHOLD <= threshold <= upper


def problem_error(problem):
    """The first error of a problem's values that a file of any length shows, or 0: domains, thresholds, coefficients, divisors."""
    if any(lower > upper or not in_range(lower, MAX_BOUND) or not in_range(upper, MAX_BOUND) for lower, upper in problem.limits):
        return DOMAIN_RANGE
    if not all(threshold_fits(threshold, *pair) for threshold, pair in zip(problem.thresholds, problem.limits)):
        return THRESHOLD_RANGE
    numbers = [number for c in problem.constraints for number in [c.constant] + c.coefficients]
    if any(not in_range(number, MAX_COEFFICIENT) for number in numbers):
        return COEFFICIENT_RANGE
    if not all(divisor_fits(c.divisor) for c in problem.constraints):
        return DIVISOR_RANGE
    return 0


def sizes_fit(n, m, budget):
    return 1 <= n <= MAX_VARIABLES and 0 <= m <= MAX_CONSTRAINTS and 0 <= budget <= MAX_BUDGET


def head_fields(n, m, budget, limits, magic=MAGIC):
    return magic + struct.pack("<HHI", n, m, budget) + b"".join(struct.pack("<ii", *pair) for pair in limits)


def head_content(problem):
    fields = head_fields(len(problem.limits), len(problem.constraints), problem.budget, problem.limits)
    return fields.ljust(THRESHOLD_OFFSET, b"\0") + struct.pack("<%di" % len(problem.thresholds), *problem.thresholds)


def constraint_content(constraint):
    numbers = struct.pack("<%di" % (1 + len(constraint.coefficients)), constraint.constant, *constraint.coefficients)
    return numbers.ljust(DIVISOR_OFFSET, b"\0") + struct.pack("<i", constraint.divisor)


def constraint_in(block, n):
    """The constraint in its block, with n coefficients."""
    constant, *coefficients = struct.unpack_from("<%di" % (1 + n), block)
    return Constraint(constant, coefficients, *struct.unpack_from("<i", block, DIVISOR_OFFSET))


def write_problem(problem):
    """The file of a problem whose values are in range."""
    contents = [head_content(problem)] + [constraint_content(c) for c in problem.constraints]
    return b"".join(sealed(content, k) for k, content in enumerate(contents))


def write_into(problem, buffer):
    """Puts a problem's file at the start of a lent buffer, whose other bytes stay: the number of the first error in the order of writing, or 0."""
    n, m = len(problem.limits), len(problem.constraints)
    error = problem_error(problem) if sizes_fit(n, m, problem.budget) else SIZE_RANGE
    if error:
        return error
    if len(buffer) < BLOCK * (1 + m):
        return SHORT_BUFFER
    buffer[: BLOCK * (1 + m)] = write_problem(problem)
    return 0


def constraint_of(row):
    """A row is a constraint, or the numbers of an inequality: its constant and its coefficients."""
    return row if isinstance(row, Constraint) else Constraint(row[0], row[1:])


def problem_file(budget, limits, rows, thresholds=()):
    """The file of these values, in range or not. Coefficients that a row lacks are 0, and so are thresholds that are not given."""
    return write_problem(Problem(limits, [constraint_of(row) for row in rows], budget, thresholds))


def resealed(data):
    """The same blocks, each with its right check."""
    return b"".join(sealed(block[:CONTENT], k) for k, block in enumerate(blocks_of(data)))


def read_problem(data):
    """The problem in a file; a FileError where it is none, with the first error in the order of reading."""
    if len(data) < BLOCK or len(data) % BLOCK:
        raise FileError(TRUNCATED)
    blocks = blocks_of(data)
    if not all(has_right_check(block, k) for k, block in enumerate(blocks)):
        raise FileError(BAD_CHECKSUM)
    head = blocks[0]
    if head[:4] != MAGIC:
        raise FileError(BAD_MAGIC)
    n, m, budget = struct.unpack("<HHI", head[4:12])
    if not sizes_fit(n, m, budget) or len(blocks) != 1 + m:
        raise FileError(SIZE_RANGE)
    limits = [struct.unpack_from("<ii", head, 12 + 8 * i) for i in range(n)]
    thresholds = struct.unpack_from("<%di" % n, head, THRESHOLD_OFFSET)
    problem = Problem(limits, [constraint_in(block, n) for block in blocks[1:]], budget, thresholds)
    error = problem_error(problem)
    if error:
        raise FileError(error)
    if write_problem(problem) != data:
        raise FileError(NONZERO_PADDING)
    return problem


def write_record(record):
    """The journal block of a record. Values past the last variable are 0."""
    def padded(numbers):
        return list(numbers) + [0] * (MAX_VARIABLES - len(numbers))

    content = RECORD_MAGIC + struct.pack("<IIIHH", record.count, record.falsified, record.cut_number, record.depth, record.back)
    content += struct.pack("<33i", record.cut.constant, *padded(record.cut.coefficients))
    content += struct.pack("<32I", *padded(record.used))
    return sealed(content, record.count - 1)


def read_record(block):
    """The record in a journal block, with 32 coefficients."""
    count, falsified, cut_number, depth, back = struct.unpack_from("<IIIHH", block, 4)
    constant, *coefficients = struct.unpack_from("<33i", block, 20)
    used = list(struct.unpack_from("<32I", block, 152))
    return Record(count, falsified, cut_number, depth, back, Constraint(constant, coefficients), used)

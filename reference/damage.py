"""Damaged files, for comparisons; each a function of a random generator and of a function that gives a good file.

  cut, long, random_bytes, changed
  wrong_divisor           a divisor out of range, alone or beside other errors
  wrong_threshold         a threshold out of range, likewise
"""
from files import BLOCK, CONTENT, DIVISOR_OFFSET, MAX_BOUND, MAX_COEFFICIENT, MAX_DIVISOR, THRESHOLD_OFFSET, head_fields, resealed

LONGEST_INPUT = 65536


def maybe_resealed(rnd, data):
    return resealed(data) if rnd.random() < 0.6 and len(data) % BLOCK == 0 else data


def cut(rnd, good):
    """A file cut short, as often as not between two blocks."""
    data = good()
    end = rnd.randrange(len(data))
    return data[: end - end % BLOCK] if rnd.random() < 0.5 else data[:end]


def long(rnd, good):
    """A file with more bytes than it should have, sometimes more than a program reads."""
    data = good()
    room = LONGEST_INPUT - len(data)
    more = rnd.choice([1, 511, BLOCK, 2 * BLOCK, room, room + BLOCK, room + rnd.randrange(1, 2000)])
    return maybe_resealed(rnd, data + bytes(more))


def random_bytes(rnd, good):
    """Random bytes, sometimes with the letters, small sizes and right checks."""
    data = bytearray(rnd.randbytes(rnd.choice([0, 1, 511, 512, 513, 1024, 1536, 2048])))
    if rnd.random() < 0.7:
        data[:12] = head_fields(rnd.randrange(4), max(len(data) // BLOCK - 1, 0), rnd.randrange(9), [])
    return maybe_resealed(rnd, bytes(data))


def changed(rnd, good):
    """A file with one bit changed; its check may be made right again."""
    data = bytearray(good())
    place = rnd.randrange(len(data) // BLOCK) * BLOCK + rnd.randrange(rnd.choice([12, 40, BLOCK]))
    data[place] ^= 1 << rnd.randrange(8)
    return maybe_resealed(rnd, bytes(data))


WRONG_DIVISORS = [1, -1, -5, MAX_DIVISOR + 1, 2**31 - 1, -(2**31)]
WRONG_THRESHOLDS = [1, -1, -5, MAX_BOUND, MAX_BOUND + 1, 2**31 - 1, -(2**31)]


def put_number(data, place, number):
    data[place : place + 4] = number.to_bytes(4, "little", signed=True)


def wrong_divisor(rnd, good):
    """A divisor out of range; often beside limits, coefficients or padding that are wrong too, in the same block or another. The checks are right."""
    data = bytearray(good())
    while len(data) < 2 * BLOCK:
        data = bytearray(good())

    def some_block():
        return rnd.randrange(1, len(data) // BLOCK) * BLOCK

    if rnd.random() < 0.9:
        put_number(data, some_block() + DIVISOR_OFFSET, rnd.choice(WRONG_DIVISORS))
    if rnd.random() < 0.2:
        put_number(data, some_block(), rnd.choice([1, -1]) * (MAX_COEFFICIENT + 1))
    if rnd.random() < 0.3:
        # Just before the divisor (a coefficient where there are 32 variables), just after it, and before the check.
        data[some_block() + rnd.choice([DIVISOR_OFFSET - 4, DIVISOR_OFFSET + 4, CONTENT - 1])] ^= 1
    if rnd.random() < 0.1:
        put_number(data, 12, MAX_BOUND + 1)
    return resealed(bytes(data))


def wrong_threshold(rnd, good):
    """A threshold out of range, often beside other errors. The checks are right."""
    data = bytearray(good())
    n = data[4]
    if rnd.random() < 0.8:
        put_number(data, THRESHOLD_OFFSET + 4 * rnd.randrange(n), rnd.choice(WRONG_THRESHOLDS))
    if rnd.random() < 0.1:
        put_number(data, 12, rnd.choice([-MAX_BOUND - 1, -1, 1]))
    if len(data) > BLOCK and rnd.random() < 0.3:
        place, number = rnd.choice([(0, MAX_COEFFICIENT + 1), (DIVISOR_OFFSET, 1)])
        put_number(data, rnd.randrange(1, len(data) // BLOCK) * BLOCK + place, number)
    if rnd.random() < 0.3:
        # Before the first threshold (a limit where there are 32 variables), after the last one, and before the check.
        data[rnd.choice([THRESHOLD_OFFSET - 4, THRESHOLD_OFFSET + 4 * n, CONTENT - 1])] ^= 1
    return resealed(bytes(data))


def by_name(*functions):
    return {function.__name__: function for function in functions}


DAMAGE = by_name(cut, long, random_bytes, changed, wrong_divisor, wrong_threshold)

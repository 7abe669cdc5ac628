"""Generated problems of inequalities: functions of a random generator that give domain bounds and rows, each a constant and its coefficients.

  tiny, tinybig           small boxes; with small and with the largest coefficients
  rand                    sparse random constraints, some of them met by a hidden point
  pigeon, parity          pigeonhole problems; parities of the edges at each corner of a graph
  market, knap, frob      equations over 0 and 1; one equation with few of each weight; one equation with large weights, at a total hard to reach
  creep, creepn, creepd   bounds that creep up one by one: two variables, a ring of them, only after decisions
  blue, bluew             examination papers as blueprints: sections, marks, topics; larger and smaller
  heavy, small, dense     large coefficients, whose resolvents leave the range; pairs that say nearly equal, with few cuts and with many
  edges                   values at the edges of their ranges, or one beyond
"""
from files import MAX_BOUND, MAX_COEFFICIENT


def value(numbers, point):
    return sum(a * v for a, v in zip(numbers, point))


def between(numbers, least, most):
    """Two rows: least <= sum of numbers times variables <= most."""
    return [[-most] + numbers, [least] + [-a for a in numbers]]


def equation(numbers, total):
    return between(numbers, total, total)


def some_box(rnd, n, widest):
    lows = [rnd.randint(-3, 3) for _ in range(n)]
    return [(low, low + rnd.randint(0, widest)) for low in lows]


def some_point(rnd, limits):
    return [rnd.randint(*pair) for pair in limits]


# ---- problems

def tiny(rnd, size=3):
    limits = some_box(rnd, rnd.randint(1, 4), 4)
    return limits, [[rnd.randint(-size, size) * (rnd.random() < 0.8) for _ in range(len(limits) + 1)] for _ in range(rnd.randint(0, 6))]


def tinybig(rnd):
    return tiny(rnd, MAX_COEFFICIENT)


def rand(rnd):
    limits = some_box(rnd, rnd.randint(5, 18), 3)
    point = some_point(rnd, limits)
    rows = []
    for _ in range(rnd.randint(6, 26)):
        numbers = [rnd.randint(-9, 9) * (rnd.random() < 0.5) for _ in limits]
        missed = 2 if rnd.random() < 0.04 else -rnd.randint(0, 4)
        rows.append([missed - value(numbers, point)] + numbers)
    return limits, rows


def pigeon(rnd):
    """p pigeons in h holes: variable p·h + hole is 1 if the pigeon sits there."""
    holes = rnd.randint(2, 5)
    pigeons = min(holes + rnd.choice([0, 1, 1, 2]), 32 // holes)
    n = pigeons * holes
    seats = [[-1 if i // holes == pigeon else 0 for i in range(n)] for pigeon in range(pigeons)]
    rooms = [[1 if i % holes == hole else 0 for i in range(n)] for hole in range(holes)]
    return [(0, 1)] * n, [[1] + numbers for numbers in seats] + [[-1] + numbers for numbers in rooms]


def parity(rnd):
    """The edges of a graph are 0 or 1, and their sum at each corner is 2·t plus the corner's charge."""
    corners = rnd.randint(3, 9)
    edges = [(i, (i + 1) % corners) for i in range(corners)]
    edges += [tuple(rnd.sample(range(corners), 2)) for _ in range(rnd.randint(0, min(6, 32 - 2 * corners)))]
    rows = []
    for corner in range(corners):
        numbers = [1 if corner in edge else 0 for edge in edges] + [-2 if corner == i else 0 for i in range(corners)]
        rows += equation(numbers, rnd.randint(0, 1))
    return [(0, 1)] * len(edges) + [(0, 4)] * corners, rows


def market(rnd):
    n = rnd.randint(6, 22)
    limits = [(0, 1)] * n
    rows = []
    for _ in range(rnd.randint(1, 4)):
        numbers = [rnd.randint(0, 99) for _ in range(n)]
        rows += equation(numbers, sum(numbers) // 2)
    return limits, rows


def knap(rnd):
    n, most = rnd.randint(3, 8), rnd.choice([3, 6, 10])
    weights = [rnd.randint(50, 200) for _ in range(n)]
    return [(0, most)] * n, equation(weights, rnd.randint(sum(weights), sum(weights) * most // 2))


def frob(rnd):
    """A total that weights in a cycle of remainders reach late or never."""
    base, n = rnd.randint(50, 20000), rnd.randint(2, 5)
    weights = [base] + [base * factor + rnd.randint(1, 3) for factor in sorted(rnd.sample(range(1, 9), n - 1))]
    total = base * rnd.randint(5, 120) + rnd.randint(-5, 5)
    return [(0, total // weight) for weight in weights], equation(weights, total)


def creep(rnd):
    width, low = rnd.randint(10, 1500), rnd.choice([0, -700, MAX_BOUND - 1500, -MAX_BOUND])
    gap = rnd.choice([0, 1, 1, 1, 2])
    return [(low, low + width)] * 2, [[gap, 1, -1], [0, -1, 1]][:: rnd.choice([1, -1])]


def creepn(rnd):
    """v1 <= v2 <= .. <= vn <= v1 - 1, or sometimes vn <= v1, which all have in common."""
    n, width = rnd.randint(3, 8), rnd.randint(5, 120)
    rows = []
    for i in range(n):
        numbers = [0] * n
        numbers[i], numbers[(i + 1) % n] = 1, -1
        rows.append([rnd.choice([0, 1, 1, 1]) if i == n - 1 else 0] + numbers)
    rnd.shuffle(rows)
    return [(0, width + rnd.randint(0, 3)) for _ in range(n)], rows


def creepd(rnd):
    """Switches of 0 and 1, each with a pair of variables that creeps while it is 0."""
    pairs = rnd.randint(1, 4)
    rows = []
    for k in range(pairs):
        first, second = [0] * (3 * pairs), [0] * (3 * pairs)
        first[k], first[pairs + 2 * k], first[pairs + 2 * k + 1] = -1, 1, -1
        second[pairs + 2 * k], second[pairs + 2 * k + 1] = -1, 1
        rows += [[1] + first, [0] + second]
    if rnd.random() < 0.7:
        rows.append([-rnd.randint(0, pairs)] + [1] * pairs + [0] * (2 * pairs))
    return [(0, 1)] * pairs + [(0, rnd.randint(10, 120))] * (2 * pairs), rows


def blueprint(rnd, n, slack):
    """How many questions of each kind: sections of so many questions, marks of the paper, topics and levels with their least and most marks."""
    limits = [(0, rnd.randint(1, 5)) for _ in range(n)]
    point = some_point(rnd, limits)
    marks = [rnd.randint(1, 12) for _ in range(n)]
    sections, topics, levels = rnd.randint(2, 3), rnd.randint(3, 6), rnd.randint(2, 4)
    groups = [[1 if i * sections // n == k else 0 for i in range(n)] for k in range(sections)]
    groups += [[marks[i] if i % topics == k else 0 for i in range(n)] for k in range(topics)]
    groups += [[marks[i] if i // 2 % levels == k else 0 for i in range(n)] for k in range(levels)]
    groups += [marks]
    rows = []
    for numbers in groups:
        middle = value(numbers, point) + rnd.choice([0, 0, 0, 1, -1]) * slack
        rows += between(numbers, middle - rnd.randint(0, slack), middle + rnd.randint(0, slack))
    return limits, rows


def blue(rnd):
    return blueprint(rnd, rnd.randint(20, 32), rnd.randint(0, 3))


def bluew(rnd):
    return blueprint(rnd, rnd.randint(8, 18), rnd.randint(0, 2))


def heavy(rnd):
    n, wide = rnd.randint(2, 6), rnd.choice([2**8, 2**15, MAX_COEFFICIENT])
    limits = [(-rnd.randint(0, 8), rnd.randint(0, 8)) for _ in range(n)]
    return limits, [[rnd.randint(-wide, wide) for _ in range(n + 1)] for _ in range(rnd.randint(2, 4))]


def small(rnd):
    """Rows in pairs that say equal, or nearly, at a point; some miss it."""
    n, most, size = rnd.randint(3, 9), rnd.choice([1, 2, 4, 8]), rnd.choice([3, 9, 20])
    return near(rnd, [(0, most)] * n, rnd.randint(1, 5), lambda: rnd.choice([0, rnd.randint(-size, size), rnd.randint(-size, size)]))


def dense(rnd):
    """The same with no coefficient of 0 and more variables: often more cuts than are kept."""
    n, most = rnd.randint(8, 12), rnd.choice([3, 4, 6])
    return near(rnd, [(0, most)] * n, rnd.randint(2, 4), lambda: rnd.choice([1, -1]) * rnd.randint(3, 20))


def near(rnd, limits, pairs, coefficient):
    point = some_point(rnd, limits)
    rows = []
    for _ in range(pairs):
        numbers = [coefficient() for _ in limits]
        most = value(numbers, point) + rnd.choice([0, 0, 0, 1])
        rows += between(numbers, most - rnd.randint(0, 2), most)
    return limits, rows


def edges(rnd):
    n, m = rnd.randint(1, 3), rnd.randint(0, 3)
    lows = [rnd.choice([-MAX_BOUND, MAX_BOUND - 3, -2, 0]) - rnd.choice([0] * 9 + [1]) for _ in range(n)]
    limits = [(low, low + rnd.choice([0, 1, 2, 3] * 3 + [4, 5, -1])) for low in lows]
    ends = [0, 1, -1, MAX_COEFFICIENT, -MAX_COEFFICIENT, MAX_COEFFICIENT // 2]
    return limits, [[rnd.choice(ends) + rnd.choice([0, 0, 0, 0, 1, -1]) for _ in range(n + 1)] for _ in range(m)]

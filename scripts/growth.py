#!/usr/bin/env python3
"""What a conflict and a move cost as problems grow, as a Markdown table.

    scripts/growth.py VERDICT COMMAND MOVES

VERDICT is the program `verdict` (scripts/programs.py says where it lies), COMMAND the other program, and MOVES one whose last line is `set k`, the bounds
that constraints set, each in one word. The plans are the script's own: n variables from 0 to 9, an equation (two inequalities) whose weights are even but
for one, and m - 2 light inequalities, half of whose coefficients are 0, under a budget of 3,000 conflicts; three for each n and m. A time is user and system
time less that of a plan without constraints, so that the start of the process does not count.
"""
import random
import shlex
import sys

import implementation  # it puts reference/ on the path
from benchmark import conflicts, mean_times, time_of
from files import problem_file

BUDGET = 3000
SEEDS = 3
HIGHEST = 9
HEAVIEST = 10000
LIGHTEST = 20


def knapsack(seed, n, m):
    """An equation with heavy weights and m - 2 light inequalities around it, as a plan file."""
    choose = random.Random("%d %d %d" % (seed, n, m))
    weights = [2 * choose.randint(HEAVIEST // 8, HEAVIEST // 2) for _ in range(n)]
    weights[n - 1] += 1
    target = sum(weights) * HIGHEST // 4 * 2 + 1
    lines = [[-target] + weights, [target] + [-w for w in weights]]
    while len(lines) < m:
        light = [choose.randint(-LIGHTEST, LIGHTEST) if choose.random() < 0.5 else 0 for _ in range(n)]
        lines.append([-sum(abs(w) for w in light) * HIGHEST * 3 // 8] + light)
    return problem_file(BUDGET, [(0, HIGHEST)] * n, lines[:m])


def moves(command, plan):
    """How many bounds constraints set on the plan."""
    return int(time_of(command, plan)[1].split()[-1])


def main():
    if len(sys.argv) != 4:
        sys.exit(__doc__)
    ours, other, counter = ([sys.argv[1]], shlex.split(sys.argv[2]), shlex.split(sys.argv[3]))
    empty = mean_times([ours, other], knapsack(1, 1, 0))
    print("| n | m | conflicts | bounds set | verdict, µs a conflict | other | verdict, ns a bound set | other | ratio |\n|---|---|---|---|---|---|---|---|---|")
    for n in (8, 16, 32):
        for m in (8, 16, 32, 64):
            plans = [knapsack(seed, n, m) for seed in range(1, SEEDS + 1)]
            ends = sum(conflicts(other, plan) for plan in plans)
            sets = sum(moves(counter, plan) for plan in plans)
            times = [0.0, 0.0]
            for plan in plans:
                for i, seconds in enumerate(mean_times([ours, other], plan)):
                    times[i] += max(0.0, seconds - empty[i])
            cells = (n, m, ends, sets, times[0] * 1e6 / ends, times[1] * 1e6 / ends, times[0] * 1e9 / max(1, sets), times[1] * 1e9 / max(1, sets), times[0] / max(1e-9, times[1]))
            print("| %d | %d | %d | %d | %.2f | %.2f | %.0f | %.0f | %.2f |" % cells, flush=True)


main()

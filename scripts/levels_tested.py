#!/usr/bin/env python3
"""How many levels the search for the backjump level tests, from the deepest outward: a counting run of reference/, as a Markdown table.

    scripts/levels_tested.py PLAN..

At each conflict the levels are tested one after the other, the deepest first, up to the first that does not falsify the cut or the divisor constraint; what
is found is held to the reference's own level, the least depth that falsifies it, and the number of tests to `depth - d + 2`, one less where d is 0. The last
two columns are what a search from level 0 inward would test (d + 1 levels), and the share of conflicts that go back at most two levels.
"""
import sys
from pathlib import Path

import implementation  # it puts reference/ on the path
import search
from solve import solve

least_depth = search.backjump_level


def outward(state, constraint):
    """The backjump level, and how many levels were tested."""
    tested = 0
    for d in range(state.depth, -1, -1):
        tested += 1
        if not search.falsified(constraint, state.levels[d]):
            return d + 1, tested
    return 0, tested


def count(data):
    """For each conflict of the run: the depth met, d, and the levels tested."""
    counts = []

    def counting(state, constraint):
        level, tested = outward(state, constraint)
        assert level == least_depth(state, constraint)
        assert tested == state.depth - level + 2 - (level == 0)
        counts.append((state.depth, level, tested))
        return level

    search.backjump_level = counting
    solve(data)
    return counts


def row(name, counts):
    conflicts, tested, inward = len(counts), sum(t for _, _, t in counts), sum(d + 1 for _, d, _ in counts)
    near = sum(depth - d <= 1 for depth, d, _ in counts)
    each = max(conflicts, 1)
    return "| %s | %d | %d | %.2f | %.2f | %.1f %% |" % (name, conflicts, tested, tested / each, inward / each, 100 * near / each)


def main(plans):
    if not plans:
        sys.exit(__doc__)
    print("| plan | conflicts | levels tested | per conflict | from level 0 | back at most two |")
    print("|---|---|---|---|---|---|")
    every = []
    for plan in map(Path, plans):
        counts = count(plan.read_bytes())
        every += counts
        print(row(plan.stem, counts), flush=True)
    print(row("all", every))


if __name__ == "__main__":
    main(sys.argv[1:])

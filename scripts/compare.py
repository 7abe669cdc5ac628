#!/usr/bin/env python3
"""Compares the programs `verdict`, `journal` and `solutions` with another implementation of docs/SPECIFICATION.md, on thousands of files.

    scripts/compare.py [--rounds N] [--seed S] [--budget B] [--lines L] [--only KIND,KIND,..] [--keep FOLDER] [FILE ..] [--reference PROGRAM]
                       [--generator PROGRAM [--kinds KIND,KIND,..]] [--verdict COMMAND] [--journal COMMAND] [--solutions COMMAND] [--python]

The other implementation is reference/ of this repository, or a PROGRAM (scripts/implementation.py says how it is called). Compared with it are COMMANDs,
each with its arguments in one word: the built programs (scripts/programs.py says where they lie) unless others are named; with --python reference/ itself in
their place.
In each round one file of each kind, or with --only of each of these, is made (reference/generate.py; with --generator those of FAMILIES there come from
`PROGRAM gen SEED KIND BUDGET`, and further KINDs that it has from `PROGRAM gen SEED KIND`) and compared: the text of `verdict`, every byte of the journal,
and the first L lines of the listing (300 where none is given), unless a PROGRAM takes too long over it. FILEs are compared first. B is the largest budget,
500 where none is given.
Printed are each disagreement; for each kind how many files were compared, how many of them were refused, their journal blocks, and the solutions listed; how
often each verdict was met, and each end of a listing. A file with a disagreement is put into FOLDER. The status is 1 where there is one.
"""
import argparse
import random
import shlex
import shutil
import subprocess
import sys
from collections import Counter
from pathlib import Path

from implementation import expected, expected_listing, first_lines, run, solve
from files import BLOCK
from generate import BUDGETS, DAMAGE, FAMILIES, PROBLEMS, generate
from programs import built


def answer(command, file, lines=None):
    """What a program writes, or its first lines. A failure is an answer too: it agrees with none."""
    try:
        return first_lines(shlex.split(command), file, lines) if lines else run(shlex.split(command), file)
    except (subprocess.CalledProcessError, subprocess.TimeoutExpired) as error:
        return str(error).encode()


def right_listing(options, file):
    """The first lines expected; nothing where that takes too long."""
    try:
        return expected_listing(options.reference, file, options.lines)
    except subprocess.TimeoutExpired:
        return b""


def listing_end(lines):
    if not lines:
        return "not listed"
    return lines[-4] if lines[-1].startswith("set") else "longer"


class Maker:
    """Makes the files."""

    def __init__(self, options):
        self.program = shlex.split(options.generator or "")
        self.kinds = options.kinds.split(",") if options.kinds else []
        self.budgets = [budget for budget in BUDGETS + [2000] if budget <= options.budget]
        self.random = random.Random(options.seed)

    def seed(self):
        return self.random.randrange(1, 10**6)

    def family(self, kind):
        """A file of a kind that another generator has too."""
        seed, budget = self.seed(), self.random.choice(self.budgets)
        return run(self.program + ["gen", str(seed), kind, str(budget)]) if self.program else generate(seed, kind, budget)

    def some_family(self):
        return self.family(self.random.choice(list(FAMILIES)))

    def make(self, kind):
        if kind in FAMILIES:
            return self.family(kind)
        if kind in self.kinds:
            return run(self.program + ["gen", str(self.seed()), kind])
        budget = None if kind == "edges" else self.random.choice(self.budgets)
        return generate(self.seed(), kind, budget, self.some_family)


class Comparison:
    def __init__(self, options):
        self.options = options
        self.compared = {}
        self.verdicts = Counter()
        self.ends = Counter()
        self.disagreements = 0

    def compare(self, kind, name, file):
        text, journal = expected(self.options.reference, file)
        listing = right_listing(self.options, file)
        rights = [text.encode(), journal] + ([listing] if listing else [])
        for right, (command, found) in zip(rights, self.answers(file)):
            if found != right:
                self.disagree(kind, name, file, command, found, right)
        refusal = text.startswith("refused")
        self.verdicts[text.strip() if refusal else text.splitlines()[-3].split()[0]] += 1
        lines = listing.decode().splitlines()
        if not refusal:
            self.ends[listing_end(lines)] += 1
        counts = (1, refusal, len(journal) // BLOCK, sum(line.startswith("solution") for line in lines))
        self.compared[kind] = tuple(map(sum, zip(self.compared.get(kind, (0, 0, 0, 0)), counts)))

    def answers(self, file):
        """What is compared, one after the other, each with the command that gives it: a text, a journal and a listing."""
        options = self.options
        if options.python:
            text, journal = solve.solve(file)
            yield "reference/ verdict", text.encode()
            yield "reference/ journal", journal
            yield "reference/ list", expected_listing(None, file, options.lines)
            return
        yield options.verdict, answer(options.verdict, file)
        yield options.journal, answer(options.journal, file)
        yield options.solutions, answer(options.solutions, file, options.lines)

    def disagree(self, kind, name, file, command, found, right):
        self.disagreements += 1
        places = (i for i, pair in enumerate(zip(found, right)) if pair[0] != pair[1])
        place = next(places, min(len(found), len(right)))
        parts = (kind, name, command, place, found[place : place + 60], right[place : place + 60])
        print("DISAGREE %s %s, %s, at byte %d: found %r, expected %r" % parts, flush=True)
        if self.options.keep:
            folder = Path(self.options.keep)
            folder.mkdir(parents=True, exist_ok=True)
            (folder / ("%s-%s.plan" % (kind, name))).write_bytes(file)

    def summary(self):
        print("| kind | files | refused | journal blocks | solutions |\n|---|---|---|---|---|")
        for kind, counts in [*self.compared.items(), ("all", tuple(map(sum, zip(*self.compared.values()))))]:
            print("| %s | %d | %d | %d | %d |" % ((kind,) + counts))
        for name, met in [("verdicts", self.verdicts), ("listings", self.ends)]:
            print("%s: %s" % (name, ", ".join("%d %s" % (count, word) for word, count in sorted(met.items()))))
        print("%d disagreements" % self.disagreements)


def options_given():
    parser = argparse.ArgumentParser(description=__doc__, formatter_class=argparse.RawDescriptionHelpFormatter)
    parser.add_argument("--rounds", type=int, default=200)
    parser.add_argument("--seed", type=int, default=1)
    parser.add_argument("--budget", type=int, default=500)
    parser.add_argument("--lines", type=int, default=300)
    parser.add_argument("--only")
    parser.add_argument("--keep")
    parser.add_argument("--reference")
    parser.add_argument("--generator")
    parser.add_argument("--kinds")
    parser.add_argument("--python", action="store_true")
    parser.add_argument("--verdict", default=str(built("verdict")))
    parser.add_argument("--journal", default=str(built("journal")))
    parser.add_argument("--solutions", default=str(built("solutions")))
    parser.add_argument("files", nargs="*")
    return parser.parse_intermixed_args()


def main():
    options = options_given()
    for command in [] if options.python else [options.verdict, options.journal, options.solutions]:
        if shutil.which(shlex.split(command)[0]) is None:
            sys.exit("there is no program %s: `rt run -- --version` in crates/verdict builds ours, and likewise the others" % command)
    comparison = Comparison(options)
    for path in options.files:
        comparison.compare("given", Path(path).stem, Path(path).read_bytes())
    maker = Maker(options)
    kinds = options.only.split(",") if options.only else [*PROBLEMS, *DAMAGE, *maker.kinds]
    for number in range(options.rounds):
        for kind in kinds:
            comparison.compare(kind, str(number), maker.make(kind))
    comparison.summary()
    sys.exit(1 if comparison.disagreements else 0)


main()

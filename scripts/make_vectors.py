#!/usr/bin/env python3
"""Makes the stored files of the programs and of the test program `play`.

    scripts/make_vectors.py [--reference PROGRAM]

What is expected comes from this repository's reference/, never from this repository's programs. With a PROGRAM of others (scripts/implementation.py says how it
is called) its verdict, journal and listing of every plan file, and its answer to every file that is read, are compared with reference/'s.

Written are the plan files of scripts/vector_files.py, scripts/vector_thresholds.py and scripts/vector_limits.py, the problems of made-up states
(scripts/state_bases.py) and sample files (scripts/file_cases.py), all in crates/play/data, beside the other files that stand there already; a script
(crates/play/stdin) and what it must print (crates/play/stdout); plan A with its outputs (examples, crates/verdict, crates/journal), and the listing of
examples/blueprint.plan (crates/solutions). `reference/play.py crates/play/data < crates/play/stdin` plays the script again.
"""
import argparse
import sys
import time

import state_bases
import vector_files
import vector_limits
import vector_thresholds
from compare_told import compare
from implementation import ROOT, expected, expected_listing
from script import Script
from script_changes import write_changes
from script_files import check_problems, sample_files, write_files
from script_lines import write_change_lines, write_lines
from script_plans import begin_plans, write_plans
from script_states import write_states
from vector_files import PLAN_A

PLAY = ROOT / "crates/play"
DATA = PLAY / "data"
GROUPS = vector_files.GROUPS + vector_thresholds.GROUPS + vector_limits.GROUPS
LONGEST_STDIN, LONGEST_STDOUT = 700_000, 1_700_000


def write_plan_files():
    """Writes the plan files: the names of those that are tried one by one, those that stood there already last."""
    plans = [(name, file) for group in GROUPS for name, file in group()] + [("state-" + name, file) for name, file in state_bases.base_files()]
    samples = sample_files()
    DATA.mkdir(parents=True, exist_ok=True)
    for name, file in plans + samples:
        (DATA / (name + ".plan")).write_bytes(file)
    made = [name for name, _ in plans]
    others = [path.stem for path in sorted(DATA.glob("*.plan"))]
    return made + [name for name in others if name not in dict(plans + samples)]


def write_script(names):
    """Writes the script and what it prints: what was told of each plan file, and of each file that was read."""
    script = Script(DATA)
    write_lines(script)
    read = write_files(script)
    write_states(script)
    told = write_plans(script, names)
    write_change_lines(script)
    check_problems(script)
    write_changes(script)
    begin_plans(script, names)
    text, output = script.text(), script.output()
    if len(text) > LONGEST_STDIN or len(output) > LONGEST_STDOUT:
        sys.exit("too long: %d and %d bytes" % (len(text), len(output)))
    (PLAY / "stdin").write_bytes(text)
    (PLAY / "stdout").write_bytes(output)
    print("%d lines, %d bytes, with %d cases; %d lines, %d bytes expected" % (
        len(script.lines), len(text), sum(script.cases.values()), len(script.printed), len(output)))
    return told, read


def write_plan_a():
    example = ROOT / "examples/plan-a.plan"
    example.parent.mkdir(exist_ok=True)
    example.write_bytes(PLAN_A)
    for name in ["verdict", "journal"]:
        (ROOT / "crates" / name / "stdin").write_bytes(PLAN_A)
    text, journal = expected(None, PLAN_A)
    (ROOT / "crates/verdict/stdout").write_text(text)
    (ROOT / "crates/journal/stdout").write_bytes(journal)


def write_listing():
    """The listing of an example."""
    file = (ROOT / "examples/blueprint.plan").read_bytes()
    folder = ROOT / "crates/solutions"
    (folder / "stdin").write_bytes(file)
    (folder / "stdout").write_bytes(expected_listing(None, file))


def main():
    parser = argparse.ArgumentParser(description=__doc__, formatter_class=argparse.RawDescriptionHelpFormatter)
    parser.add_argument("--reference", metavar="PROGRAM")
    program = parser.parse_args().reference
    start = time.process_time()
    names = write_plan_files()
    told, read = write_script(names)
    write_plan_a()
    write_listing()
    print("%d plan files, %.0f seconds of computing" % (len(names), time.process_time() - start))
    if program and compare(program, told, read):
        sys.exit(1)


main()

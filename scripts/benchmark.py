#!/usr/bin/env python3
"""Times the program `verdict` against another program on plan files, as a Markdown table with the geometric mean of the ratios.

    scripts/benchmark.py VERDICT COMMAND PLAN ..

VERDICT is the program `verdict` (scripts/programs.py says where it lies); COMMAND is the other program with its arguments, in one word, as
"reference verdict --fast". Both read the plan from standard input. A time is user and system time, start of the process included: the mean of 400 runs
where a first run takes under 5 ms, of 40 where it takes under 50 ms, else of 8. The runs of the two programs alternate, so that other work on the machine
slows both. The ratio is VERDICT's time over the other's.
"""
import math
import resource
import shlex
import subprocess
import sys
from pathlib import Path


def time_of(command, plan):
    """Seconds of user and system time of one run on these bytes, and what it printed."""
    before = resource.getrusage(resource.RUSAGE_CHILDREN)
    printed = subprocess.run(command, input=plan, stdout=subprocess.PIPE, check=True).stdout
    after = resource.getrusage(resource.RUSAGE_CHILDREN)
    return after.ru_utime + after.ru_stime - before.ru_utime - before.ru_stime, printed


def runs_for(seconds):
    return 400 if seconds < 0.005 else 40 if seconds < 0.05 else 8


def mean_times(commands, plan):
    """The mean time of each command on a plan, the commands in turn."""
    runs = runs_for(time_of(commands[0], plan)[0])
    totals = [0.0 for _ in commands]
    for _ in range(runs):
        for i, command in enumerate(commands):
            totals[i] += time_of(command, plan)[0]
    return [total / runs for total in totals]


def conflicts(command, plan):
    """How many conflicts the plan's search counts: the number in the line `ends`."""
    lines = time_of(command, plan)[1].decode().split("\n")
    return next(int(line.split()[1]) for line in lines if line.startswith("ends "))


def main():
    if len(sys.argv) < 4:
        sys.exit(__doc__)
    commands = [[sys.argv[1]], shlex.split(sys.argv[2])]
    print("| plan | conflicts | verdict, ms | %s, ms | ratio |\n|---|---|---|---|---|" % " ".join(commands[1][-2:]))
    logs = []
    for path in sys.argv[3:]:
        plan = Path(path).read_bytes()
        ours, other = mean_times(commands, plan)
        logs.append(math.log(ours / other))
        print("| %s | %d | %.2f | %.2f | %.2f |" % (Path(path).stem, conflicts(commands[0], plan), ours * 1000, other * 1000, ours / other), flush=True)
    print("\nGeometric mean of the ratios: %.2f" % math.exp(sum(logs) / len(logs)))


if __name__ == "__main__":
    main()

"""Scripts of plan files: what the programs print for each, and every call from the opened state to the verdict, in several ways."""
from dataclasses import dataclass

from files import BLOCK, MAX_VARIABLES
from script import joined

# Lent buffers: room for one block, some blocks and some bytes, and as much as there can be; and numbers for solutions.
LENGTHS = [512, 1536, 1100, 65536, 3000, 16384]
NUMBERS = [1, 8, 33, 100, 2048, 8192]
FEW_NUMBERS = 4  # Lists of problems with the most variables have no end: so many of these numbers are for them.


@dataclass
class Told:
    """What was told of a file: the text of `verdict`, a digest of its journal and the text of `solutions`; None where it was not asked."""

    file: bytes
    verdict: bytes
    journal: int = None
    listing: bytes = None


def write_plan(script, name, turn):
    """A file of a name in the data folder."""
    script.say(name)
    script.do("load %s.plan" % name)
    told = Told(script.player.content(), joined(script.do("verdict")))
    script.do("read", "open")
    n, m = script.player.problem.get("n"), script.player.problem.get("m")
    script.do("write %d" % (BLOCK * (1 + m) + 1 - turn % 3))
    if n == 0:
        script.do("each 512 5")
        return told
    script.do("keep")
    told.journal = int(script.do("steps")[0].split()[-1])
    script.do("back", "traces %d" % LENGTHS[turn % len(LENGTHS)], "back", "run", "exclude", "back", "trace 1024")
    if n < MAX_VARIABLES:
        told.listing = joined(script.do("solutions"))
        script.do("back", "lists %d" % NUMBERS[turn % len(NUMBERS)])
    else:
        script.do("back", "list %d" % NUMBERS[turn % FEW_NUMBERS])
    return told


def write_plans(script, names):
    """All files of these names: what was told of each."""
    told = {}
    for turn, name in enumerate(names):
        script.part("plan %s" % name)
        told[name] = write_plan(script, name, turn)
    return told


def begin_plans(script, names):
    """All files of these names: the state opened from the problem that is read in each, and run."""
    script.part("problems in hand: plan files")
    for name in names:
        script.say(name)
        script.do("load %s.plan" % name, "read", "begin", "run")

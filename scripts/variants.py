#!/usr/bin/env python3
"""How sharp the stored script is: which wrong variants of reference/ it tells from the right one.

    scripts/variants.py [NAME ..]

Each variant of scripts/wrong_variants.py and scripts/wrong_states.py (those with these words in their names, where some are given) plays the parts of
crates/play/stdin, the quick ones first, until it prints another line than crates/play/stdout has; printed are the part and the case. A variant that fails, or
takes ten times as long as the reference and a minute more, is told apart too. So is one whose `verdict` prints another text for a plan file that is longer
than a script can hold.
"""
import signal
import sys
import time
import types
from dataclasses import dataclass

from implementation import ROOT
from script import parts_of
import wrong_states
import wrong_variants

PLAY = ROOT / "crates/play"
DATA = PLAY / "data"
# In the order in which they stand on each other.
MODULES = ["digest", "files", "bounds", "creep", "search", "validity", "calls", "solve", "raw", "holdings", "play"]
LONG_FILE = "torn-66048.plan"
VARIANTS = wrong_variants.VARIANTS + wrong_states.VARIANTS


@dataclass
class Part:
    """Lines of the script, the first one's number, what they print, and the seconds that this takes."""

    first: int
    lines: list
    printed: list
    seconds: float


class Told(Exception):
    """A variant that differs, and where."""


def modules_with(module=None, right=None, wrong=None):
    """The modules of reference/, anew, with one replacement."""
    texts = {name: (ROOT / "reference" / (name + ".py")).read_text() for name in MODULES}
    if module:
        if texts[module].count(right) != 1:
            sys.exit("not once in %s: %s" % (module, right))
        texts[module] = texts[module].replace(right, wrong)
    before = {name: sys.modules.pop(name, None) for name in MODULES}
    for name in MODULES:
        sys.modules[name] = types.ModuleType(name)
        exec(compile(texts[name], name, "exec"), sys.modules[name].__dict__)
    made = {name: sys.modules[name] for name in MODULES}
    sys.modules.update({name: module for name, module in before.items() if module})
    return made


def lines_played(player, first, lines):
    """Each line that is printed, with the case that it belongs to."""
    case = ""
    for k, line in enumerate(lines, first + 1):
        case = line[4:] if line.startswith("say ") else case
        if line and not line.startswith("#"):
            for printed in player.play_line(k, line):
                yield case, printed


def stored_parts():
    """The parts of the stored script. Played one by one, with nothing before them, they must print what is stored."""
    player, parts = modules_with()["play"].Player, []
    for first, lines in parts_of((PLAY / "stdin").read_bytes()):
        start = time.process_time()
        printed = [line for _, line in lines_played(player(DATA), first, lines)]
        parts.append(Part(first, lines, printed, time.process_time() - start))
    if "".join(line + "\n" for part in parts for line in part.printed).encode("latin-1") != (PLAY / "stdout").read_bytes():
        sys.exit("reference/ does not print what is stored")
    return sorted(parts, key=lambda part: part.seconds)


def too_long(*_):
    raise Told("does not end")


def play_part(modules, part):
    """Plays a part; Told at the first line that is another."""
    signal.alarm(60 + int(10 * part.seconds))
    case, expected = "", iter(part.printed)
    try:
        for case, printed in lines_played(modules["play"].Player(DATA), part.first, part.lines):
            if printed != next(expected, None):
                raise Told(case)
        if next(expected, None) is not None:
            raise Told(case)
    except Told:
        raise
    except Exception as error:
        raise Told("%s, %s" % (case, type(error).__name__))
    finally:
        signal.alarm(0)


def told_by(modules, parts):
    """Where a variant differs, or None."""
    for part in parts:
        try:
            play_part(modules, part)
        except Told as told:
            return "%s: %s" % (part.lines[0][2:], told)
    text, _ = modules["solve"].solve((DATA / LONG_FILE).read_bytes())
    return None if text == "refused 1\n" else LONG_FILE


def main(words):
    signal.signal(signal.SIGALRM, too_long)
    chosen = [variant for variant in VARIANTS if not words or any(word in variant[3] for word in words)]
    parts = stored_parts()
    print("%d parts, %.0f seconds by the reference" % (len(parts), sum(part.seconds for part in parts)), flush=True)
    left = []
    for module, right, wrong, name in chosen:
        where = told_by(modules_with(module, right, wrong), parts)
        print("%s: %s" % (name, where or "NOT TOLD APART"), flush=True)
        left += [name] * (where is None)
    print("%d of %d told apart" % (len(chosen) - len(left), len(chosen)))


main(sys.argv[1:])

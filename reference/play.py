#!/usr/bin/env python3
"""Plays a script of calls by the reference's own means, and prints what the program `play` must print for it.

    reference/play.py DATA < SCRIPT

DATA is the folder of the plan files that the script loads. docs/SCRIPTS.md has the script language.
"""
import sys

from digest import WORD, unsigned
from files import BLOCK, MAX_CONSTRAINTS, MAX_VARIABLES
from holdings import FILE_LENGTH, Holdings, ScriptError

LONGEST_SCRIPT = 1048576

ANY = range(WORD)
BUFFER = range(65536 + 1)
NUMBERS = range(8192 + 1)
ROWS = range(MAX_CONSTRAINTS)


def number(word):
    """The 64 bits of a number in decimal."""
    digits = word[1:] if word.startswith("-") else word
    if not (digits.isascii() and digits.isdigit()):
        raise ScriptError("number")
    value = int(word)
    if not -(WORD // 2) <= value < WORD:
        raise ScriptError("number")
    return unsigned(value)


def numbers(words, ranges):
    """The numbers of a line, each in its range."""
    if len(words) != len(ranges):
        raise ScriptError("number")
    values = [number(word) for word in words]
    if not all(value in span for value, span in zip(values, ranges)):
        raise ScriptError("out of range")
    return values


class Player(Holdings):
    """Plays lines."""

    def play(self, script):
        """The lines that a script prints."""
        if len(script) > LONGEST_SCRIPT:
            yield "script too long"
            return
        lines = script.decode("latin-1").split("\n")
        for k, line in enumerate(lines[:-1] if lines[-1] == "" else lines, 1):
            if line and not line.startswith("#"):
                yield from self.play_line(k, line)

    def play_line(self, k, line):
        try:
            yield from self.command(line)
        except ScriptError as error:
            yield "line %d: %s" % (k, error)

    def command(self, line):
        """Plays a line: what it prints."""
        word, *words = line.split(" ")
        if word == "say":
            return [line[4:]]
        if word in ("put", "set"):
            return self.change(self.state if word == "put" else self.problem, *(words or [""]))
        if word == "load":
            return self.load_named(*(words or [""]))
        if word not in COMMANDS:
            raise ScriptError("no such command")
        play, *ranges = COMMANDS[word]
        return play(self, *numbers(words, ranges)) or []

    def change(self, arrays, field, *words):
        """Sets a number of the state or of the problem."""
        if field not in arrays.shapes:
            raise ScriptError("no such field")
        *indexes, value = numbers(words, [range(length) for length in arrays.shapes[field]] + [range(3) if field == "status" else ANY])
        arrays.put(field, indexes, value)
        return []

    def load_named(self, name, *words):
        if not self.has_file(name):
            raise ScriptError("no such file")
        numbers(words, [])
        self.load(name)
        return []


# Each command, and the ranges of its numbers.
COMMANDS = {
    "length": (Holdings.set_length, range(FILE_LENGTH + 1)),
    "byte": (Holdings.byte, range(FILE_LENGTH), range(256)),
    "word": (Holdings.word, range(FILE_LENGTH - 3), ANY),
    "seal": (Holdings.seal, range(FILE_LENGTH // BLOCK), ANY),
    "read": (Holdings.read,),
    "open": (Holdings.open,),
    "verdict": (Holdings.verdict,),
    "solutions": (Holdings.solutions,),
    "write": (Holdings.write, BUFFER),
    "check": (Holdings.check,),
    "begin": (Holdings.begin,),
    "append": (Holdings.append, ROWS),
    "replace": (Holdings.replace, ROWS, ROWS),
    "choose": (Holdings.choose, ANY),
    "close": (Holdings.close, range(MAX_VARIABLES)),
    "litter": (Holdings.litter, ANY),
    "keep": (Holdings.keep,),
    "back": (Holdings.back,),
    "state": (Holdings.show,),
    "digest": (Holdings.show_digest,),
    "step": (Holdings.step,),
    "run": (Holdings.run,),
    "trace": (Holdings.trace, BUFFER),
    "list": (Holdings.list, NUMBERS),
    "exclude": (Holdings.exclude,),
    "each": (Holdings.each, BUFFER, NUMBERS),
    "steps": (Holdings.steps,),
    "traces": (Holdings.traces, BUFFER[BLOCK:]),
    "lists": (Holdings.lists, NUMBERS[1:]),
}


def main(arguments):
    if len(arguments) != 1:
        sys.exit(__doc__)
    for line in Player(arguments[0]).play(sys.stdin.buffer.read()):
        sys.stdout.buffer.write(line.encode("latin-1") + b"\n")


if __name__ == "__main__":
    main(sys.argv[1:])

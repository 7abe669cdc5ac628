#!/usr/bin/env python3
"""Tests what the built programs do with arguments, in seconds, with nothing but Python.

    scripts/test_programs.py

It needs the programs verdict, journal, solutions and arguments_lines, built (scripts/programs.py says how).
"""
import os
import random
import re
import subprocess
import tempfile

from programs import ROOT, built

SECONDS = 10
VERSION = b"nefrwgall 1.0\n"
LONGEST = 4096  # as much of a word as is told
BATCHES = 25
BATCH = 90  # random words to a call; arguments_lines takes up to 99

# Arguments of a program that looks at none.
IGNORED = [[], ["--help"], ["--version"], ["x", "--help"], ["examples/plan-a.plan"]]


def run(program, words, **given):
    """What a program writes to standard output and standard error; its input is a pipe that nobody writes to or closes."""
    reader, writer = os.pipe()
    try:
        ended = subprocess.run([built(program), *words], stdin=reader, capture_output=True, check=True, timeout=SECONDS, **given)
    finally:
        os.close(reader)
        os.close(writer)
    return ended.stdout, ended.stderr


def told(what, word):
    return ("%s: %s (try --help)\n" % (what, word)).encode()


def test_ignored():
    """What the programs print for a file, whatever the arguments."""
    for program in ("verdict", "journal", "solutions"):
        folder = ROOT / "crates" / program
        for words in IGNORED:
            with open(folder / "stdin", "rb") as file:
                ended = subprocess.run([built(program), *words], stdin=file, capture_output=True, check=True, timeout=SECONDS)
            assert (ended.stdout, ended.stderr) == ((folder / "stdout").read_bytes(), b""), (program, words)


def test_requests():
    """What every program that takes arguments is asked in the same way."""
    text, said = run("arguments_lines", ["--help"])
    assert text.startswith(b"use: arguments_lines") and text.endswith(b"\n") and said == b""
    assert run("arguments_lines", ["--version"]) == (VERSION, b"")
    for words, word in [(["--version", "x"], "x"), (["--help", "--version"], "--version")]:
        assert run("arguments_lines", words) == (b"", told("unknown argument", word)), words
    with open("/dev/full", "wb") as full:
        ended = subprocess.run([built("arguments_lines"), "--help"], stdin=subprocess.DEVNULL, stdout=full, stderr=subprocess.PIPE, check=True, timeout=SECONDS)
        assert ended.stderr == b"standard output cannot be written\n"


def number(word):
    return "number %d" % int(word) if re.fullmatch("-?[0-9]+", word) and -2**63 <= int(word) < 2**63 else "no number"


def date(word):
    parts = re.fullmatch("([0-9]{4})-([0-9]{2})-([0-9]{2})", word)
    return "date %d %d %d" % tuple(map(int, parts.groups())) if parts else "no date"


def random_word(source):
    """A word that is a number or a date, or nearly one."""
    kind = source.randrange(4)
    if kind == 0:
        return "".join(source.choice("0123456789-+ .:/") for _ in range(source.randint(1, 4)))
    if kind == 1:
        return str(source.choice([1, -1]) * (2**63 + source.randint(-20, 20)))
    word = "%04d-%02d-%02d" % (source.randrange(10000), source.randrange(100), source.randrange(100)) if kind == 2 else str(source.randint(-2**64, 2**64))
    at = source.randrange(len(word))
    return word[:at] + source.choice(["", word[at], source.choice("0123456789-+ .:/x")]) + word[at + 1:]


def test_words():
    """Random words as numbers and dates. (One that is too long to be a name is neither.)"""
    source = random.Random(1)
    with tempfile.TemporaryDirectory() as folder:
        for _ in range(BATCHES):
            words = [random_word(source) for _ in range(BATCH)] + ["0" * LONGEST, "0" * LONGEST + "1"]
            lines = run("arguments_lines", words, cwd=folder)[0].decode().splitlines()
            assert len(lines) == len(words)
            for i, (word, line) in enumerate(zip(words, lines), 1):
                kind = number(word) if len(word) <= LONGEST else "no number"
                assert line == "%d %s, %s, no file" % (i, kind, date(word)), (word, line)


def test_told():
    """What is told of a word that is wrong, and of a file that cannot be read."""
    with tempfile.TemporaryDirectory() as folder:
        said = run("arguments_lines", ["no"], cwd=folder)[1]
        assert said == told("not a whole number of 64 bits", "no") + told("not a date as 2026-05-31", "no") + b"no: No such file or directory\n"
        for word, printed in [("one\ntwo\x1b[2J\x7f\tñ", "one?two?[2J??ñ"), ("x" * LONGEST, "x" * LONGEST), ("x" * (LONGEST + 1), "x" * LONGEST)]:
            assert run("arguments_lines", [word], cwd=folder)[1].startswith(told("not a whole number of 64 bits", printed)), word
        assert run("arguments_lines", ["."], cwd=folder)[1].endswith(b".: Is a directory\n")
        assert run("arguments_lines", ["n" * 300], cwd=folder)[1].endswith(b"n: File name too long\n")
        assert run("arguments_lines", ["n" * 9000], cwd=folder)[1].endswith(b"n: File name too long\n")
        assert run("arguments_lines", [], cwd=folder) == (b"", b"an argument is missing (try --help)\n")
        assert run("arguments_lines", ["1"] * 100, cwd=folder) == (b"", told("unknown argument", "1"))


def main():
    test_ignored()
    test_requests()
    test_words()
    test_told()
    print("3 programs with %d lists of arguments each, %d random words: all as expected" % (len(IGNORED), BATCHES * BATCH))


if __name__ == "__main__":
    main()

"""Where the scripts' expectations come from: this repository's reference/, or another program that implements docs/SPECIFICATION.md.

A PROGRAM, with arguments of its own or without, in one word, is called as `PROGRAM verdict`, `PROGRAM journal` and `PROGRAM list` with a problem file on
standard input. The first prints what the program `verdict` prints, the second the journal's bytes, or each record in hexadecimal, one to a line, the third what
the program `solutions` prints.
"""
import shlex
import subprocess
import sys
import tempfile
import threading
from itertools import islice
from pathlib import Path

ROOT = Path(__file__).resolve().parent.parent
sys.path.insert(0, str(ROOT / "reference"))
import solve  # noqa: E402
from files import RECORD_MAGIC  # noqa: E402

SECONDS = 60
LISTING_SECONDS = 5


def run(command, file=b"", seconds=SECONDS):
    """What a command writes with these bytes on standard input."""
    return subprocess.run(command, input=file, stdout=subprocess.PIPE, check=True, timeout=seconds).stdout


def first_lines(command, file, most):
    """The first lines that a command writes, at most so many; there it is stopped."""
    with tempfile.TemporaryFile() as given:
        given.write(file)
        given.seek(0)
        with subprocess.Popen(command, stdin=given, stdout=subprocess.PIPE) as process:
            limit = threading.Timer(SECONDS, process.kill)
            limit.start()
            lines = list(islice(process.stdout, most))
            limit.cancel()
            if len(lines) < most and process.wait() != 0:
                raise subprocess.CalledProcessError(process.returncode, command)
            process.kill()
    return b"".join(lines)


def expected(program, file):
    """The text of `verdict` and the bytes of `journal`, by the program, or by reference/ where it is None."""
    if program is None:
        return solve.solve(file)
    command = shlex.split(program)
    text = run(command + ["verdict"], file).decode()
    if text.startswith("refused"):
        return text, b""
    journal = run(command + ["journal"], file)
    return text, journal if journal.startswith(RECORD_MAGIC) else bytes.fromhex(journal.decode())


def expected_listing(program, file, most=None):
    """The text of `solutions`, or its first lines, likewise. A program may print it whole or not at all: it has some seconds."""
    if program is None:
        return "".join(line + "\n" for line in islice(solve.listing(file), most)).encode()
    return b"".join(run(shlex.split(program) + ["list"], file, LISTING_SECONDS).splitlines(keepends=True)[:most])

"""What a script holds, and what its commands do: a file, a problem, a search state and a kept one. Commands that print give their lines."""
from pathlib import Path

from calls import Calls
from digest import digest, packed, unsigned
from files import BLOCK, CONTENT, INVALID_SEARCH, MAX_CONSTRAINTS, MAX_VARIABLES, SIZE_RANGE, Constraint, FileError, checksum, read_problem, write_into
from raw import RawProblem, RawState
from search import ENDED, GO_ON, SOLUTION, STRUCK, open_problem
from solve import read_input, report, solutions, verdict_line
from validity import valid

FILE_LENGTH = 65537
# What stands in lent buffers.
UNWRITTEN = 238
UNLISTED = -4611686018427387904


class ScriptError(Exception):
    """A line that cannot be played, with the reason that is printed."""


def padded(values):
    return list(values) + [0] * (MAX_VARIABLES - len(values))


def answer_text(answer):
    return "%s ends %d set %d" % (verdict_line(answer), answer.count, answer.propagations)


class Holdings:
    """Plan files are loaded from the folder `data`. What the calls gave is known until the next file is loaded."""

    def __init__(self, data):
        self.data = Path(data)
        self.file, self.length = bytearray(FILE_LENGTH), 0
        self.problem = RawProblem()
        self.state, self.kept = RawState(), RawState()
        self.calls, self.searches = Calls(), {}

    # ---- the file

    def has_file(self, name):
        return name != "" and (self.data / name).is_file()

    def load(self, name):
        content = (self.data / name).read_bytes()[:FILE_LENGTH]
        self.file, self.length = bytearray(content.ljust(FILE_LENGTH, b"\0")), len(content)
        self.calls, self.searches = Calls(), {}

    def set_length(self, length):
        self.length = length

    def byte(self, at, value):
        self.file[at] = value

    def word(self, at, value):
        self.file[at : at + 4] = (value % 2**32).to_bytes(4, "little")

    def seal(self, k, index):
        start = BLOCK * k
        self.word(start + CONTENT, checksum(bytes(self.file[start : start + CONTENT]), index))

    def content(self):
        return bytes(self.file[: self.length])

    def read_file(self):
        """The problem in the file, or the number of its first error."""
        try:
            return read_problem(self.content()), 0
        except FileError as error:
            return None, error.number

    def read(self):
        problem, error = self.read_file()
        self.problem = RawProblem.of(problem) if problem else RawProblem()
        yield "read %d digest %d" % (error, digest(packed(self.problem.words())))

    def open(self):
        problem, error = self.read_file()
        self.state = RawState.of(open_problem(problem)) if problem else RawState()
        yield "open %d digest %d" % (error, digest(packed(self.state.words())))

    def opened(self):
        """The problem and the opened state in the bytes that a program is given; the same state as the next time."""
        problem = read_input(self.content())
        return problem, self.search_of(RawState.of(open_problem(problem)))

    def verdict(self):
        try:
            problem, search = self.opened()
        except FileError as error:
            return ["refused %d" % error.number]
        return report(problem, *self.calls.trace(search, problem.budget + 1))

    def solutions(self):
        try:
            problem, search = self.opened()
        except FileError as error:
            return ["refused %d" % error.number]
        return solutions(problem, search, self.calls.run, self.calls.exclude)

    # ---- the problem

    def write(self, length):
        problem, buffer = self.problem.problem(), bytearray([UNWRITTEN] * length)
        error = write_into(problem, buffer) if problem else SIZE_RANGE
        yield "write %d digest %d" % (error, digest(buffer))

    def checked(self):
        """The problem in hand, or the number of its first error."""
        problem = self.problem.problem()
        error = write_into(problem, bytearray(BLOCK * (1 + MAX_CONSTRAINTS))) if problem else SIZE_RANGE
        return (None, error) if error else (problem, 0)

    def check(self):
        yield "check %d" % self.checked()[1]

    def begin(self):
        problem, error = self.checked()
        self.state = RawState.of(open_problem(problem)) if problem else RawState()
        yield "begin %d digest %d" % (error, digest(packed(self.state.words())))

    def held(self):
        """The problem in hand, acceptable or not, where the arrays hold it."""
        problem = self.problem.problem()
        if not problem:
            raise ScriptError("out of range")
        return problem

    def row(self, j, n):
        """What stands in row j of the arrays, in use or not."""
        constant, *coefficients = self.problem.row("row", j, 1 + n)
        return Constraint(constant, coefficients, self.problem.arrays["divisor"][j])

    def changed(self, problem, constraints):
        """The same problem with other constraints. Nothing is promised of what the arrays then hold past n and m."""
        problem.constraints = constraints
        self.problem = RawProblem.of(problem, None)

    def append(self, j):
        problem = self.held()
        if len(problem.constraints) == MAX_CONSTRAINTS:
            raise ScriptError("out of range")
        self.changed(problem, problem.constraints + [self.row(j, len(problem.limits))])

    def replace(self, j, i):
        problem = self.held()
        row = self.row(i, len(problem.limits))
        self.changed(problem, [row if k == j else constraint for k, constraint in enumerate(problem.constraints)])

    def choose(self, mask):
        problem = self.held()
        self.changed(problem, [constraint for j, constraint in enumerate(problem.constraints) if mask >> j & 1])

    def close(self, i):
        problem = self.held()
        if i >= len(problem.limits):
            raise ScriptError("out of range")
        problem.limits[i], problem.thresholds[i] = (0, 0), 0
        self.changed(problem, problem.constraints)

    # ---- the state

    def litter(self, word):
        self.state.litter(word)

    def keep(self):
        self.kept = self.state.copy()

    def back(self):
        self.state = self.kept.copy()

    def show(self):
        yield " ".join(["state"] + [str(unsigned(word)) for word in self.state.words()])

    def show_digest(self):
        yield "digest %d" % self.state_digest(b"")

    def state_digest(self, before):
        return digest(before + packed(self.state.words()))

    # ---- calls on the state

    def search_of(self, state):
        """The search state that these arrays mean, the same one for the same numbers; None where they cannot hold it."""
        key = packed(state.words())
        if key not in self.searches:
            self.searches[key] = state.search()
        return self.searches[key]

    def taken(self):
        """The search state that a call takes; None where it is not valid."""
        search = self.search_of(self.state)
        return search if search and self.calls.once(valid, search) else None

    def refused(self, word, counts, data=b""):
        """A call on a state that is not valid: nothing is answered, and nothing changes."""
        return "%s refused %d same digest %d" % (word, INVALID_SEARCH, digest(packed(padded([]) + [0] * counts) + data))

    def answered(self, word, answer, extra, data):
        """A call's answer, after which the state is the answer's. What is digested begins with the answer's values and ends with the state."""
        self.state = RawState.of(answer.state)
        words = [word, answer_text(answer)] + extra
        return "%s digest %d" % (" ".join(words), self.state_digest(packed(padded(answer.values)) + data))

    def step(self):
        search = self.taken()
        if not search:
            return [self.refused("step", 3, bytes(BLOCK))]
        answer = self.calls.step(search)
        return [self.answered("step", answer, [], packed([answer.record is not None]) + (answer.record or bytes(BLOCK)))]

    def run(self):
        search = self.taken()
        return [self.answered("run", self.calls.run(search), [], b"") if search else self.refused("run", 2)]

    def trace(self, length):
        search, buffer = self.taken(), bytearray([UNWRITTEN] * length)
        if not search:
            return [self.refused("trace", 3, buffer)]
        answer, records = self.calls.trace(search, length // BLOCK)
        buffer[: BLOCK * len(records)] = b"".join(records)
        return [self.answered("trace", answer, ["blocks %d" % len(records)], buffer)]

    def list(self, length):
        search, buffer = self.taken(), [UNLISTED] * length
        if not search:
            return [self.refused("list", 3, packed(buffer))]
        n = len(search.thresholds)
        struck, answer = self.calls.list(search, length // n)
        buffer[: n * len(struck)] = sum(struck, [])
        return [self.answered("list", answer, ["struck %d" % len(struck)], packed(buffer))]

    def exclude(self):
        search = self.taken()
        if not search:
            return ["exclude refused %d same" % INVALID_SEARCH]
        said, after = self.calls.exclude(search)
        if said != STRUCK:
            return ["exclude %s same" % said]
        self.state = RawState.of(after)
        return ["exclude %s digest %d" % (said, self.state_digest(b""))]

    def each(self, length, count):
        state = self.state
        for call in [self.step, self.run, lambda: self.trace(length), self.exclude, lambda: self.list(count)]:
            yield from call()
            self.state = state

    # ---- calls again and again

    def steps(self):
        return self.traces_of("steps", 1)

    def traces(self, length):
        return self.traces_of("traces", length // BLOCK)

    def traces_of(self, word, room):
        """Traces to the verdict, or to a state that is refused."""
        journal, goes_on, search = [], True, self.taken()
        if not search:
            return ["%s refused %d" % (word, INVALID_SEARCH)]
        while goes_on and self.calls.once(valid, search):
            answer, records = self.calls.trace(search, room)
            journal += records
            goes_on, search = answer.verdict == GO_ON, answer.state
        self.state = RawState.of(search)
        if goes_on:
            return ["%s refused %d" % (word, INVALID_SEARCH)]
        return ["%s %s digest %d" % (word, answer_text(answer), digest(b"".join(journal)))]

    def lists(self, length):
        """Listings and strikes, as the program `solutions` makes them."""
        shown, said, search = [], STRUCK, self.taken()
        if not search:
            return ["lists refused %d" % INVALID_SEARCH]
        n = len(search.thresholds)
        while said == STRUCK:
            struck, answer = self.calls.list(search, length // n)
            shown += struck + ([answer.values] if answer.verdict == SOLUTION else [])
            valid_still = self.calls.once(valid, answer.state)
            said, search = self.calls.exclude(answer.state) if valid_still else (None, answer.state)
        self.state = RawState.of(search)
        line = "lists %d %s digest %d" % (len(shown), answer_text(answer), digest(packed(sum(shown, []))))
        return [line + " ended" if said == ENDED else line]

"""Scripts of made-up states: a state of a search or a listing, with numbers put in place of its own, and every call on it."""
from state_bases import EVERYTHING, FURTHER, STRUCK, WHOLE_ARRAYS
from state_changes import LEVELS, NUMBERS
from state_kinds import divided_kinds, gap_kinds, reason_kinds, wide_kinds
from state_marks import MARKS, deeper, emptied, solved
from state_view import INFEASIBLE, LIMIT, UNDECIDED, View, described

# Lent buffers: none, too little for a block, whole blocks, and some bytes more; and numbers, by variables of the state.
LENGTHS = [1536, 512, 1023, 0, 1024, 511, 2048, 513, 65536, 1535]
ROOMS = [(2, 0), (0, 0), (1, 0), (3, 1), (1, -1), (0, 1), (4, -1), (64, 0)]
MANY_NUMBERS = 400
JUNK = [2**63 - 1, 2**64 - 3, -1, 2**62, 5]


class States:
    """Writes the states of bases into a script. Each call on them is lent other lengths in turn."""

    def __init__(self, script):
        self.script, self.turn = script, 0

    def reach(self, base):
        """The base state, kept, with zeros where nothing is read."""
        self.script.do("load state-%s.plan" % base.name, "open", *base.calls, "litter 0", "keep")
        self.base = View(self.script.state)

    def lent(self):
        """What is lent in this turn."""
        self.turn += 1
        solutions, more = ROOMS[self.turn % len(ROOMS)]
        return LENGTHS[self.turn % len(LENGTHS)], max(0, min(solutions, MANY_NUMBERS // self.base.n) * self.base.n + more)

    def each(self):
        self.script.do("each %d %d" % self.lent())

    def case(self, name, puts):
        self.script.say(name)
        self.script.do("back")
        self.script.change(puts)
        self.each()

    def try_all(self, base, kinds):
        self.script.part("made-up states of %s" % base.name)
        self.reach(base)
        self.script.say("from " + described(self.base))
        self.each()
        for kind in kinds:
            for name, puts in kind(self.base):
                self.case(name, puts)
        self.litter()

    def litter(self):
        """Other numbers where nothing is read: each call, and then the whole way."""
        each = "each %d %d" % self.lent()
        for number, calls in zip(JUNK, [["steps"], ["lists 13"], ["traces 1024"], ["step", "litter 7", each], ["run", each]]):
            self.script.say("%d where nothing is read" % number)
            self.script.do("back", "litter %d" % number)
            self.each()
            self.script.do(*calls)

    def strike(self, base):
        """The state as it is, with no mark, marked 'none' and marked solution, there and with its open variables decided one by one."""
        self.script.part("strikes from %s" % base.name)
        self.reach(base)
        self.script.say("struck out, from " + described(self.base))
        self.each()
        at, number = self.base, 0
        while at:
            for name, puts in [("with no mark", [("status", UNDECIDED)]), ("marked 'none'", emptied(at, 0, -1) + [("status", INFEASIBLE)])]:
                self.script.say("struck out %s, with %d more decided" % (name, number))
                self.script.do("back")
                self.script.change(puts)
                self.script.do("exclude", "list %d" % self.lent()[1])
            for name, puts in [("as it is", []), ("marked solution", solved(at))]:
                self.script.say("struck out %s, with %d more decided" % (name, number))
                self.script.do("back")
                self.script.change(puts)
                self.script.do("litter %d" % JUNK[number % 3])
                self.each()
            self.script.do("exclude", "lists %d" % (4 * number + 1))
            puts = deeper(at)
            if puts is None:
                return
            self.script.do("back")
            self.script.change(puts)
            self.script.do("keep")
            at, number = View(self.script.state), number + 1

    def limit(self, base):
        """At the limit of bounds set: calls that pass it, and what is left."""
        self.script.part("the limit of bounds set from %s" % base.name)
        self.reach(base)
        self.script.say("at the limit, from " + described(self.base))
        spent = "put budget %d" % self.base.conflicts
        cases = [("a turn past the limit", ["step"]), ("a run past the limit", ["run"]), ("a trace past the limit", ["trace 1024"]),
                 ("a listing past the limit", ["list 8192"]), ("a spent turn at the limit", [spent, "step"]), ("a spent run at the limit", [spent, "run"]),
                 ("turns past the limit", ["steps"]), ("traces past the limit", ["traces 1024"]), ("listings past the limit", ["lists 12"])]
        for name, calls in cases:
            self.script.say(name)
            self.script.do("back", "put propagations %d" % LIMIT, *calls)
            self.each()
        for below in (1, 2, 3):
            self.script.say("a listing from %d below the limit" % below)
            self.script.do("back", "put propagations %d" % (LIMIT - below), "list 8192", "exclude")
            self.each()

    def buffers(self, base):
        """Buffers of every sort of length."""
        self.script.part("lent buffers from %s" % base.name)
        self.reach(base)
        self.script.say("buffers lent, from " + described(self.base))
        n = self.base.n
        for length in (0, 1, 511, 512, 513, 1023, 1024, 1025, 1536, 65535, 65536):
            self.script.do("trace %d" % length, "back")
        for length in (0, n - 1, n, n + 1, 2 * n - 1, 2 * n, 2 * n + 1, 3 * n, 8191, 8192):
            self.script.do("list %d" % length, "back")
        for length in (512, 600, 1024, 65536):
            self.script.do("traces %d" % length, "back")
        for length in (1, n, 2 * n, 3 * n + 1, 8192):
            self.script.do("lists %d" % length, "back")


def write_states(script):
    states = States(script)
    for k, base in enumerate(EVERYTHING):
        states.try_all(base, (LEVELS if k % 2 else NUMBERS) + MARKS + [divided_kinds, reason_kinds])
    for k, base in enumerate(WHOLE_ARRAYS):
        states.try_all(base, (NUMBERS if k < 2 else []) + LEVELS + MARKS)
    for base in FURTHER:
        states.try_all(base, [gap_kinds, wide_kinds])
    for base in STRUCK:
        states.strike(base)
        states.limit(base)
        states.buffers(base)

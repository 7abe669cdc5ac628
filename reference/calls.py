"""The calls on a search state that take many steps (docs/SPECIFICATION.md, sections 8 and 11): `run`, `trace` and `list`, on states that are valid.

Steps and strikes that were made once are not made again: each is a function of the state, and scripts ask for the same ones in many ways.
"""
from search import GO_ON, MAX_PROPAGATIONS, SOLUTION, STRUCK, UNDECIDED, answer, exclude, step


class Calls:
    """The calls, and what they gave. States that were met stay in memory, so that no two have the same id."""

    def __init__(self):
        self.known = {}

    def once(self, function, search):
        key = function, id(search)
        if key not in self.known:
            self.known[key] = search, function(search)
        return self.known[key][1]

    def step(self, search):
        return self.once(step, search)

    def exclude(self, search):
        return self.once(exclude, search)

    def trace(self, search, room):
        """Steps to a verdict, at most so many: the last answer, and the records of all of them. With room for none it is 'go on'."""
        last, records = answer(GO_ON, search), []
        while room and last.verdict == GO_ON:
            last = self.step(last.state)
            records += [last.record] if last.record else []
            room -= 1
        return last, records

    def run(self, search):
        """Steps to a verdict: the last answer. Each that goes on counts a conflict, so there is one more at most than the budget has left."""
        return self.trace(search, search.budget - search.conflicts + 1)[0]

    def list(self, search, room):
        """Runs, and strikes between them, at most so many: the values struck out, and the last run's answer. A marked state gives its verdict again."""
        last, struck = self.run(search), []
        if search.status != UNDECIDED:
            return struck, last
        while len(struck) < room and last.verdict == SOLUTION and last.propagations <= MAX_PROPAGATIONS:
            said, after = self.exclude(last.state)
            if said != STRUCK:
                break
            struck.append(last.values)
            last = self.run(after)
        return struck, last

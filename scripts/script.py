"""Scripts for the test program `play`, in the making: each line is played at once by reference/, so that what comes next can look at what there is."""
import implementation  # it puts reference/ on the path
from play import Player

PART = "# "


class Script:
    """Lines of a script, what they print, and the player that has played them."""

    def __init__(self, data):
        self.player = Player(data)
        self.lines, self.printed, self.cases = [], [], {}

    def do(self, *lines):
        """Puts lines at the end, and plays them: what they print."""
        before = len(self.printed)
        for line in lines:
            self.lines.append(line)
            if line and not line.startswith("#"):
                self.printed += self.player.play_line(len(self.lines), line)
        return self.printed[before:]

    def part(self, title):
        """What follows does not depend on what comes before, but for the lines' numbers."""
        self.title = title
        self.do(PART + title)
        self.cases.setdefault(title, 0)

    def say(self, text):
        """A case, by its name."""
        self.cases[self.title] += 1
        self.do("say " + text)

    @property
    def state(self):
        return self.player.state

    def change(self, puts):
        """Sets numbers of the state, each given as a field, indexes and the number."""
        for put in puts:
            self.do(" ".join(["put"] + [str(word) for word in put]))

    def text(self):
        return joined(self.lines)

    def output(self):
        return joined(self.printed)


def joined(lines):
    return "".join(line + "\n" for line in lines).encode("latin-1")


def parts_of(text):
    """The parts of a script, each with the number of lines before it."""
    lines = text.decode("latin-1").split("\n")[:-1]
    starts = [k for k, line in enumerate(lines) if line.startswith(PART)]
    return [(start, lines[start:end]) for start, end in zip(starts, starts[1:] + [len(lines)])]

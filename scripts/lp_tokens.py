"""The words and numbers of a text in the LP format, for scripts/lp.py."""
import re
import sys
from dataclasses import dataclass
from fractions import Fraction
from pathlib import Path

sys.path.insert(0, str(Path(__file__).resolve().parent.parent / "reference"))
from files import MAX_BUDGET  # noqa: E402

SECTIONS = [
    ("refused", r"general\s+constraints|lazy\s+constraints|user\s+cuts|sos[12]?|pwlobj"),
    ("objective", r"minimi[sz]e|minimum|min|maximi[sz]e|maximum|max"),
    ("rows", r"subject\s+to|such\s+that|s\.t\.|st\.?"),
    ("bounds", r"bounds?"),
    ("general", r"generals?|gen|integers?|int"),
    ("binary", r"binary|binaries|bin"),
    ("semi", r"semi-?continuous|semis?"),
    ("end", r"end"),
]
# A word of a section opens its line; before a colon it is a row's name.
HEADERS = [(kind, re.compile(r"\s*(%s)(?=\s|$)(?!\s*:)" % words, re.IGNORECASE)) for kind, words in SECTIONS]
SYMBOLS = r"!\"#$%&()/,;?@_`'{}|~"
TOKEN = re.compile(
    r"\s*(?:(?P<number>(?:\d+\.?\d*|\.\d+)(?:[eE][+-]?\d+)?)|(?P<name>[A-Za-z%s][A-Za-z0-9.%s]*)"
    r"|(?P<sense><=|=<|>=|=>|<|>|=)|(?P<sign>[+-])|(?P<colon>:))" % (SYMBOLS, SYMBOLS), re.ASCII)
BUDGET = re.compile(r"\s*budget\b(.*)", re.IGNORECASE)


class LpError(Exception):
    """What a problem file cannot hold, with the line where it stands."""

    def __init__(self, line, message):
        super().__init__("line %d: %s" % (line, message))


@dataclass
class Token:
    """`opens` tells the first token of its line."""

    kind: str
    text: str
    line: int
    opens: bool


def whole(text, line):
    """The number that the text of a token says; 3.0 and 1e3 are whole."""
    exponent = re.search(r"[eE][+-]?(\d+)", text)
    # A long exponent would be written out digit by digit.
    if len(text) > 40 or exponent and len(exponent[1]) > 2:
        raise LpError(line, "the number %.40s is out of range" % text)
    value = Fraction(text)
    if value.denominator != 1:
        raise LpError(line, "%s is not a whole number" % text)
    return int(value)


def read_budget(comment, line, model):
    """A comment that begins with 'budget' is the budget; a misspelt one must not fall back to the default in silence."""
    if not (match := BUDGET.match(comment)):
        return
    text = match[1].strip()
    if not re.fullmatch("[0-9]+", text):
        raise LpError(line, "a comment that begins with 'budget' gives the budget, as '\\ budget 1000'")
    if model.budget is not None:
        raise LpError(line, "the budget is given a second time")
    model.budget = whole(text, line)
    if model.budget > MAX_BUDGET:
        raise LpError(line, "the budget %s is above 1000000000" % text)


def header(code):
    """The kind of section that a line opens and where its words end, or none."""
    for kind, pattern in HEADERS:
        if match := pattern.match(code):
            return kind, match[1], match.end()
    return None, "", 0


def line_tokens(code, line):
    """The tokens of a line without its comment."""
    kind, text, at = header(code)
    if kind:
        yield Token(kind, text, line, True)
    opens = not kind
    while code[at:].strip():
        match = TOKEN.match(code, at)
        if not match:
            raise LpError(line, "'%s' is no part of a problem" % code[at:].strip()[0])
        yield Token(match.lastgroup, match[match.lastgroup], line, opens)
        opens, at = False, match.end()


def tokens_of(text, model):
    """All tokens, and one of kind 'nothing' at the end; the budget goes to the model."""
    tokens = []
    # Not splitlines: a separator such as U+2028 inside a comment would end the comment.
    lines = text.removesuffix("\n").split("\n")
    for number, line in enumerate(lines, 1):
        code, _, comment = line.partition("\\")
        read_budget(comment, number, model)
        tokens += line_tokens(code, number)
    return tokens + [Token("nothing", "the end of the text", len(lines), True)]


class Cursor:
    """A place in the tokens."""

    def __init__(self, tokens):
        self.tokens = tokens
        self.at = 0

    def peek(self, ahead=0):
        return self.tokens[min(self.at + ahead, len(self.tokens) - 1)]

    def take(self):
        token = self.peek()
        self.at += 1
        return token

    def label(self):
        """Whether a row's name and its colon stand here."""
        return self.peek().kind == "name" and self.peek(1).kind == "colon"

    def section_over(self):
        return self.peek().kind in [kind for kind, _ in SECTIONS] + ["nothing"]

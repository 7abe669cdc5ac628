"""Problems as text in the LP format (CPLEX LP), as far as a problem goes: `read_lp`. scripts/lp_text.py writes it, and
scripts/problem.py is the command.

LP lets lines break anywhere. Here a right side ends with its line once it is complete, because a right side may hold variables, and
`x <= 5` with `y >= 2` on the next line must stay two rows. Where another reader could see something else, the text is refused.

LP has no divisor constraints. `5 | x + y + 2` is an equation with a whole variable of its own, `x + y + 2 = 5 k`, where `k` is `free` in Bounds and stands in
no other row: every reader of LP sees the same solutions in x and y. Such a variable is none of the problem's; its coefficient, of either sign, is the divisor.

A variable of the section Semi-Continuous, which must be in General too, may be 0 beside the values in its limits: the lower one is its threshold. A lower limit
of 0 or 1 there says no more than 0 to the upper one.
"""
from dataclasses import dataclass, field

from lp_tokens import Cursor, LpError, Token, tokens_of, whole  # It makes reference/files.py known.
from files import (MAX_BOUND, MAX_COEFFICIENT, MAX_CONSTRAINTS, MAX_DIVISOR, MAX_VARIABLES, MIN_DIVISOR, MIN_THRESHOLD, Constraint, Problem,
                   in_range)

DEFAULT_BUDGET = 1000000
INFINITE = ("inf", "infinity")


@dataclass
class Row:
    """A row's line, its name or "", its sides, and the comparisons between them. A side is terms: coefficients by name, the constant under ""."""

    line: int
    label: str
    sides: list
    senses: list

    def mentions(self, name):
        return any(name in side for side in self.sides)


@dataclass
class Model:
    """What the text says so far. `general`, `binary` and `semi` have the lines of their variables, `seen` where each name was first used, `free` where it
    is said to be free, `lower` and `upper` pairs of value and line."""

    general: dict = field(default_factory=dict)
    binary: dict = field(default_factory=dict)
    semi: dict = field(default_factory=dict)
    seen: dict = field(default_factory=dict)
    free: dict = field(default_factory=dict)
    lower: dict = field(default_factory=dict)
    upper: dict = field(default_factory=dict)
    rows: list = field(default_factory=list)
    budget: int = None

    def whole(self):
        """The variables of General and then those of Binary."""
        return {**self.general, **self.binary}

    def variables(self):
        """Without those that stand for multiples of a divisor. Their order decides what comes first in dictionary order."""
        return {name: line for name, line in self.whole().items() if name not in self.free}


def read_signs(cursor):
    sign = 1
    while cursor.peek().kind == "sign":
        sign = -sign if cursor.take().text == "-" else sign
    return sign


def read_term(cursor, one_line, terms, model):
    """A number, a variable, or a number and a variable, added to the terms."""
    value = read_signs(cursor)
    token = cursor.peek()
    if token.kind not in ("number", "name") or cursor.label():
        raise LpError(token.line, "a number or a variable is expected before '%s'" % token.text)
    if token.kind == "number":
        value *= whole(token.text, token.line)
        cursor.take()
    name = ""
    after = cursor.peek()
    if after.kind == "name" and not cursor.label() and not (one_line and after.opens and after is not token):
        name = cursor.take().text
        model.seen.setdefault(name, after.line)
    terms[name] = terms.get(name, 0) + value


def read_side(cursor, one_line, model):
    """A sum of terms; with `one_line` it ends with its line."""
    terms = {}
    read_term(cursor, one_line, terms, model)
    while cursor.peek().kind == "sign" and not (one_line and cursor.peek().opens):
        read_term(cursor, one_line, terms, model)
    return terms


def mentions(terms):
    """Whether a side mentions a variable."""
    return any(terms.keys() - {""})


def difference(left, right):
    return {name: left.get(name, 0) - right.get(name, 0) for name in [*left, *right]}


def check_end(cursor, sides):
    """Refuses a row that other readers might end elsewhere."""
    after = cursor.peek()
    if len(sides) == 3 and (mentions(sides[0]) or mentions(sides[2])):
        raise LpError(cursor.peek(-1).line, "a row with two comparisons has a number at each end")
    plain = mentions(sides[0]) and len(sides) == 2 and not mentions(sides[1])
    if after.kind == "sign" and after.opens and not plain and len(sides) == 2:
        raise LpError(after.line, "this line may go on with the row above or be a row of its own: write that row in one line")
    if not (after.opens or cursor.label() or cursor.section_over()):
        raise LpError(after.line, "'%s' after the end of a row: a row without a name begins a line" % after.text)


def read_row(cursor, model):
    """A row, with a name or without one."""
    line, label = cursor.peek().line, ""
    if cursor.label():
        label = cursor.peek().text
        cursor.at += 2
    sides, senses = [read_side(cursor, False, model)], []
    while not senses or (cursor.peek().kind == "sense" and len(senses) < 2 and not cursor.peek().opens):
        token = cursor.take()
        if token.kind != "sense":
            raise LpError(token.line, "a row needs <=, >= or = before '%s'" % token.text)
        senses.append(token.text.replace("=", "") or "=")
        sides.append(read_side(cursor, True, model))
    check_end(cursor, sides)
    if len(set(senses)) > 1 or senses == ["=", "="]:
        raise LpError(line, "a row with two comparisons needs <= twice or >= twice")
    model.rows.append(Row(line, label, sides, senses))


def read_objective(cursor, model):
    """Only an objective that says nothing."""
    if cursor.label():
        cursor.at += 2
    line = cursor.peek().line
    if not cursor.section_over() and any(read_side(cursor, False, model).values()):
        raise LpError(line, "a problem has no objective: leave it empty or write 0")
    if not cursor.section_over():
        raise LpError(cursor.peek().line, "'%s' is unexpected in the objective" % cursor.peek().text)


def read_limit(tokens):
    """The finite number that the tokens say."""
    cursor = Cursor(tokens + [Token("nothing", "the end of the line", tokens[-1].line if tokens else 0, True)])
    sign, token = read_signs(cursor), cursor.take()
    if token.kind == "name" and token.text.lower() in INFINITE:
        raise LpError(token.line, "a limit must be finite, and this one is infinite")
    if token.kind != "number" or cursor.peek().kind != "nothing":
        raise LpError(token.line, "a bound has a variable on one side of each comparison and a number on the other")
    value = sign * whole(token.text, token.line)
    if not in_range(value, MAX_BOUND):
        raise LpError(token.line, "the limit %d is out of range: limits lie in -2^24 to 2^24" % value)
    return value


def set_limit(name, sense, number, line, model):
    """`name sense number` as limits of the variable."""
    if sense != "<":
        model.lower[name] = number, line
    if sense != ">":
        model.upper[name] = number, line


def is_variable(part):
    return len(part) == 1 and part[0].kind == "name" and part[0].text.lower() not in INFINITE


def read_bound(tokens, model):
    """One line of the section Bounds: a variable with one number or one on each side."""
    line = tokens[0].line
    if len(tokens) == 2 and tokens[0].kind == "name" and tokens[1].text.lower() == "free":
        model.seen.setdefault(tokens[0].text, line)
        model.free.setdefault(tokens[0].text, line)
        return
    parts, senses = [[]], []
    for token in tokens:
        if token.kind == "sense":
            senses.append(token.text.replace("=", "") or "=")
            parts.append([])
        else:
            parts[-1].append(token)
    place = next((i for i, part in enumerate(parts) if is_variable(part)), None)
    if place is None or (len(parts), place) not in ((2, 0), (2, 1), (3, 1)) or not all(parts):
        raise LpError(line, "a bound is written as '0 <= x <= 5', 'x <= 5', 'x >= 0' or 'x = 3', one to a line")
    if len(senses) == 2 and (senses[0] != senses[1] or "=" in senses):
        raise LpError(line, "a bound with two comparisons needs <= twice or >= twice")
    name = parts[place][0].text
    model.seen.setdefault(name, line)
    if place == 1:
        set_limit(name, {"<": ">", ">": "<", "=": "="}[senses[0]], read_limit(parts[0]), line, model)
    if place < len(parts) - 1:
        set_limit(name, senses[-1], read_limit(parts[-1]), line, model)


def read_bounds(cursor, model):
    while not cursor.section_over():
        tokens = [cursor.take()]
        while not cursor.section_over() and cursor.peek().line == tokens[0].line:
            tokens.append(cursor.take())
        read_bound(tokens, model)


def read_names(cursor, section):
    """The variables of a section General, Binary or Semi-Continuous."""
    while not cursor.section_over():
        token = cursor.take()
        if token.kind != "name":
            raise LpError(token.line, "a variable's name is expected in place of '%s'" % token.text)
        section.setdefault(token.text, token.line)


def read_rows(cursor, model):
    while not cursor.section_over():
        read_row(cursor, model)


def read_sections(cursor, model):
    """All sections to End, which must be there: a text that was cut off says less than its author meant."""
    while (token := cursor.take()).kind != "end":
        if token.kind == "objective":
            read_objective(cursor, model)
        elif token.kind == "rows":
            read_rows(cursor, model)
        elif token.kind == "bounds":
            read_bounds(cursor, model)
        elif token.kind in ("general", "binary"):
            read_names(cursor, model.general if token.kind == "general" else model.binary)
        elif token.kind == "semi":
            read_names(cursor, model.semi)
        elif token.kind == "refused":
            raise LpError(token.line, "a problem has no section '%s'" % token.text)
        elif token.kind == "nothing":
            raise LpError(token.line, "the text ends without 'End'")
        else:
            raise LpError(token.line, "'%s' stands before the first section" % token.text)
    if cursor.peek().kind != "nothing":
        raise LpError(cursor.peek().line, "'%s' stands after 'End'" % cursor.peek().text)
    if not model.variables():
        raise LpError(token.line, "there is no variable: name them in a section General or Binary")


def check_variables(model):
    """Every name is whole, and there is not one too many."""
    for name, line in {**model.semi, **model.seen}.items():
        if name not in model.whole():
            raise LpError(line, "%s is not known as whole: it is in no section General or Binary" % name)
    for name, line in list(model.variables().items())[MAX_VARIABLES:]:
        raise LpError(line, "%s is one variable more than the %d that a problem may have" % (name, MAX_VARIABLES))


def check_free(model):
    """A free variable has no limits and stands in one row."""
    for name, line in model.free.items():
        if name in model.binary:
            raise LpError(line, "%s is binary, so its limits are 0 and 1 and no others" % name)
        if name in model.semi:
            raise LpError(line, "%s is free, so it cannot be semi-continuous" % name)
        if name in model.lower or name in model.upper:
            raise LpError(line, "%s is free and has limits too" % name)
        lines = [row.line for row in model.rows if row.mentions(name)]
        if len(lines) != 1:
            raise LpError(lines[1] if lines else line, "%s is free: it must stand in one row, an equation, whose divisor it gives" % name)


def limits_of(name, model):
    """The limits of a variable: LP's lower limit is 0 where none is given, and Binary means 0 to 1."""
    line = max([side[name][1] for side in (model.lower, model.upper) if name in side], default=model.variables()[name])
    binary = name in model.binary
    if name not in model.upper and not binary:
        raise LpError(line, "%s has no upper limit: give it one in the section Bounds" % name)
    lower, upper = model.lower.get(name, (0, line))[0], model.upper.get(name, (1, line))[0]
    if binary and (lower, upper) != (0, 1):
        raise LpError(line, "%s is binary, so its limits are 0 and 1 and no others" % name)
    if lower > upper:
        raise LpError(line, "the lower limit of %s, %d, is above its upper limit, %d" % (name, lower, upper))
    return lower, upper


def check_semi(name, lower, model):
    """Readers differ on what a section Semi-Continuous says of other variables."""
    if name in model.binary:
        raise LpError(model.semi[name], "%s is binary, so it cannot be semi-continuous" % name)
    if lower < 0:
        raise LpError(model.semi[name], "%s is semi-continuous, so its lower limit cannot be %d: it must be 0 or more" % (name, lower))


def domain_of(name, model):
    """The limits and the threshold of a variable: a semi-continuous one is 0 or within its limits."""
    lower, upper = limits_of(name, model)
    if name not in model.semi:
        return (lower, upper), 0
    check_semi(name, lower, model)
    return (0, upper), lower if lower >= MIN_THRESHOLD else 0


def inequalities_of(row):
    """The terms whose sum is at most 0: of one inequality, or of two whose labels tell them apart."""
    for place, sense in enumerate(row.senses):
        left, right = row.sides[place], row.sides[place + 1]
        for kind in "<>" if sense == "=" else sense:
            # In 2 <= x + y <= 8 the first comparison is x + y >= 2, seen from the sum.
            seen = {"<": ">", ">": "<"}[kind] if len(row.senses) == 2 and place == 0 else kind
            two = len(row.senses) == 2 or sense == "="
            terms = difference(left, right) if kind == "<" else difference(right, left)
            yield "%s %s=" % (row.label, seen) if row.label and two else row.label, terms


def divided(row, free):
    """The divisor of a row with free variables, and the terms that it divides."""
    if row.senses != ["="] or len(free) > 1:
        raise LpError(row.line, "%s is free: this row must be an equation with no other free variable" % free[0])
    terms = difference(*row.sides)
    divisor = abs(terms.pop(free[0]))
    if not MIN_DIVISOR <= divisor <= MAX_DIVISOR:
        raise LpError(row.line, "%s is free, and its coefficient in this row is the divisor %d, out of range: it must lie in 2 to 2^20" % (free[0], divisor))
    return divisor, terms


def constraints_of(row, names, model):
    """The constraints that a row says, with their labels."""
    if free := [name for name in model.free if row.mentions(name)]:
        divisor, terms = divided(row, free)
        return [(row.label, constraint_of(row.line, terms, names, divisor))]
    return [(label, constraint_of(row.line, terms, names)) for label, terms in inequalities_of(row)]


def labelled_constraints(names, model):
    constraints = []
    for row in model.rows:
        constraints += constraints_of(row, names, model)
        if len(constraints) > MAX_CONSTRAINTS:
            raise LpError(row.line, "with this row there are more than %d constraints ('=' and two comparisons count as two)" % MAX_CONSTRAINTS)
    return constraints


def constraint_of(line, terms, names, divisor=0):
    """A row's constraint, in range."""
    for name, value in terms.items():
        if not in_range(value, MAX_COEFFICIENT):
            what = "coefficient of %s" % name if name else "constant"
            raise LpError(line, "the %s in this row is %d, out of range: it must lie in -2^30 to 2^30" % (what, value))
    return Constraint(terms.get("", 0), [terms.get(name, 0) for name in names], divisor)


def read_lp(text):
    """The problem that a text says, its variables' names and its constraints' labels; an LpError where it says none."""
    model = Model()
    read_sections(Cursor(tokens_of(text, model)), model)
    check_variables(model)
    check_free(model)
    names = list(model.variables())
    limits, thresholds = map(list, zip(*(domain_of(name, model) for name in names)))
    constraints = labelled_constraints(names, model)
    budget = DEFAULT_BUDGET if model.budget is None else model.budget
    problem = Problem(limits, [constraint for _, constraint in constraints], budget, thresholds)
    return problem, names, [label for label, _ in constraints]

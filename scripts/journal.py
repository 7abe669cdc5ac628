#!/usr/bin/env python3
"""A journal for people: as text, or as a picture of the search's tree.

    scripts/journal.py [--names model.lp] < journal
    scripts/journal.py [--names model.lp] --svg < journal > journal.svg

The text has two lines for each conflict: the falsified constraint, the depth met and the backjump level; the cut as an inequality and what it was
resolved from, in order, or that nothing was learned, which is so at a divisor constraint. Variables are v1, v2 and so on; with --names they and the rows have their names in the LP text that the problem was made
from. In the picture depth goes downward and time from left to right; a browser shows a conflict's two lines when the pointer is over its column.
"""
import argparse
import re
import sys
import textwrap
from dataclasses import dataclass
from html import escape
from pathlib import Path

from lp import LpError, read_lp  # It makes reference/files.py known.
from lp_text import sum_text
from files import BLOCK, MAX_VARIABLES, blocks_of, has_right_check, read_record

LISTED = 24  # With at most so many conflicts their text stands under the picture.
WIDE, LEFT, TOP, RIGHT = 1300, 84, 104, 24
DARK, GREY, RED, STEP, JUMP = "#1b2a3a", "#5a6b7b", "#c2185b", "#1565c0", "#d35400"


def read_journal(data):
    """The records; a ValueError with one sentence where the bytes are no journal."""
    if len(data) % BLOCK:
        raise ValueError("this is no journal: its length is no multiple of %d bytes" % BLOCK)
    records = []
    for k, block in enumerate(blocks_of(data)):
        record = read_record(block)
        if block[:4] != b"DEAD" or not has_right_check(block, k) or record.count != k + 1:
            raise ValueError("this is no journal: block %d has wrong letters, a wrong count or a wrong check" % (k + 1))
        lowest = records[-1].back - 1 if records else 0
        if record.back > record.depth or record.depth < lowest:
            raise ValueError("this is no search's journal: the depth or the backjump level of conflict %d cannot be" % (k + 1))
        records.append(record)
    return records


@dataclass
class Names:
    """Of the variables, and of the first constraints where they have any."""

    variables: list
    rows: list

    def constraint(self, number):
        row = self.rows[number - 1] if number <= len(self.rows) else ""
        return "constraint %d (%s)" % (number, row) if row else "constraint %d" % number


def conflict_text(record, names):
    after = ": no solution" if record.back == 0 else ""
    return "conflict %d: %s falsified at depth %d, backjump level %d%s" % (
        record.count, names.constraint(record.falsified), record.depth, record.back, after)


def cut_text(record, names):
    """The cut, and the constraints that it was resolved from: first the falsified one, then from the last variable to the first. A conflict on a divisor
    constraint has none."""
    if record.cut_number == 0:
        return "no cut: nothing is learned from a divisor constraint"
    pairs = reversed(list(zip(record.used, names.variables)))
    resolved = [" with %d at %s" % (number, name) for number, name in pairs if number]
    return "cut %d: %s <= %d, from %d%s" % (
        record.cut_number, sum_text(record.cut.coefficients, names.variables), -record.cut.constant, record.falsified, ",".join(resolved) or " alone")


def check_names(records, names):
    """A ValueError where the journal has more variables than there are names."""
    n = len(names.variables)
    if any(any(record.cut.coefficients[n:]) or any(record.used[n:]) for record in records):
        raise ValueError("the journal is not of this LP text: it has more than %d variables" % n)


def levels_of(records):
    """Each level with the first and the last column in which it stood. A last column is for the search after the last conflict."""
    opened, levels = [0], []

    def close(most, column):
        while len(opened) > most:
            levels.append((len(opened) - 1, opened.pop(), column))

    for column, record in enumerate(records):
        opened += [column] * (record.depth + 1 - len(opened))
        close(record.back, column)
    close(0, len(records))
    return levels


class Picture:
    """Sizes and pieces of the picture. Columns are narrow for many conflicts; before they get too narrow, time goes on in a strip below."""

    def __init__(self, records, names):
        self.records, self.names, self.pieces = records, names, []
        self.deepest = max((record.depth for record in records), default=0)
        self.over = bool(records) and records[-1].back == 0
        columns = len(records) + (not self.over)
        self.column = min(72, max(3, WIDE / columns))
        self.narrow = self.column < 10
        self.per_strip = min(columns, int(WIDE / self.column))
        self.strips = -(-columns // self.per_strip)
        self.columns = columns
        self.row = 30 if self.deepest <= 9 else 20
        self.width = max(LEFT + self.column * self.per_strip + RIGHT, 1000)

    def add(self, piece, *values):
        self.pieces.append(piece % values)

    def x(self, column):
        """The left border of a column."""
        return LEFT + self.column * (column % self.per_strip)

    def top(self, strip):
        return TOP + strip * (self.row * (self.deepest + 1) + 56)

    def bottom(self, strip):
        return self.top(strip) + self.row * (self.deepest + 1)

    def y(self, level, column):
        """The middle of a level's row, in the column's strip."""
        return self.top(column // self.per_strip) + self.row * (level + 0.5)

    def text(self, x, y, text, extra=""):
        self.add('<text x="%.1f" y="%.1f" %s>%s</text>', x, y, extra, escape(text))


def strips_of(picture, first, last):
    """The parts of a span of columns that stand in one strip each."""
    while first <= last:
        end = min(last, first - first % picture.per_strip + picture.per_strip - 1)
        yield first, end
        first = end + 1


def draw_levels(picture):
    """Every level as a box, darker with depth, as wide as the conflicts during which it stood."""
    gap = min(3, picture.column * 0.2)
    for level, first, last in levels_of(picture.records):
        light = 95 - 27 * level / max(1, picture.deepest)
        for start, end in strips_of(picture, first, min(last, picture.columns - 1)):
            picture.add('<rect x="%.2f" y="%.1f" width="%.2f" height="%.1f" rx="%.1f" fill="hsl(208,60%%,%.0f%%)"/>',
                        picture.x(start) + gap / 2, picture.y(level, start) - picture.row / 2 + 1.5,
                        picture.column * (end - start + 1) - gap, picture.row - 3, gap, light)


def arrow(x, start, end, color, width):
    """An upward line with a head."""
    size = 2.2 * width + 1
    line = '<path d="M%.2f %.1fV%.1f" stroke="%s" stroke-width="%.2f"/>' % (x, start, end + size, color, width)
    return line + '<path d="M%.2f %.1fl%.2f %.2fh%.2fz" fill="%s"/>' % (x, end, -size, 1.6 * size, 2 * size, color)


def mark(x, y, width, cut=True):
    """A conflict, hollow without a cut; an upright stroke, short without a cut, where a circle would be too small to see."""
    if width < 10:
        height = 10 if cut else 4
        return '<rect x="%.2f" y="%.1f" width="%.2f" height="%d" fill="%s"/>' % (x - width * 0.35, y - height / 2, width * 0.7, height, RED)
    radius = min(7, width * 0.3)
    if cut:
        return '<circle cx="%.2f" cy="%.1f" r="%.2f" fill="%s"/>' % (x, y, radius, RED)
    return '<circle cx="%.2f" cy="%.1f" r="%.2f" fill="white" stroke="%s" stroke-width="2"/>' % (x, y, radius - 1, RED)


def draw_conflict(picture, column, record):
    """A conflict at its depth and its backjump at the right border of its column, with the text for the pointer."""
    x, width = picture.x(column), picture.column
    top, middle = picture.y(-0.5, column), picture.y(record.depth, column)
    told = escape(conflict_text(record, picture.names) + "\n" + cut_text(record, picture.names))
    picture.add('<g class="c"><title>%s</title><rect class="h" x="%.2f" y="%.1f" width="%.2f" height="%.1f"/>',
                told, x, top, width, picture.row * (picture.deepest + 1))
    # In narrow columns a box's end tells a step back, and arrows are for the long ones.
    if record.back and not (picture.narrow and record.back == record.depth):
        color = STEP if record.back == record.depth else JUMP
        line = min(3, max(1.4, width * 0.2))
        picture.pieces.append(arrow(x + width - line, middle + picture.row * 0.3, picture.y(record.back - 1, column), color, line))
    shape = mark(x + width * 0.45, middle, width, record.cut_number > 0) if record.back else end_mark(x + width * 0.45, middle)
    picture.pieces.append(shape + "</g>")


def end_mark(x, y):
    """The conflict whose cut, or divisor constraint, is falsified at level 0."""
    return ('<rect x="%.1f" y="%.1f" width="16" height="16" rx="2" fill="%s"/><path d="M%.1f %.1fl8 8m0 -8l-8 8" stroke="white" stroke-width="2"/>'
            % (x - 8, y - 8, DARK, x - 4, y - 4))


def label_step(width, room):
    """The step of 1, 2, 5, 10 .. at which labels have room."""
    step = 1
    while step * width < room:
        step = step * 5 // 2 if str(step)[0] == "2" else step * 2
    return step


def draw_axes(picture):
    """Levels at the left, counts of conflicts below, for each strip."""
    step = label_step(picture.column, 22 + 7 * len(str(len(picture.records))))
    for count in range(step, len(picture.records) + 1, step):
        x = picture.x(count - 1) + picture.column * 0.45
        if x > LEFT + 3 * len(str(count)):  # Else it would run into the word at the left.
            picture.text(x, picture.bottom((count - 1) // picture.per_strip) + 18, str(count), 'text-anchor="middle"')
    for strip in range(picture.strips):
        picture.text(LEFT - 10, picture.top(strip) - 6, "level", 'text-anchor="end" class="g"')
        for level in range(picture.deepest + 1):
            picture.text(LEFT - 10, picture.y(level, strip * picture.per_strip) + 4, str(level), 'text-anchor="end"')
        picture.text(LEFT - 10, picture.bottom(strip) + 18, "conflict", 'text-anchor="end" class="g"')
    if not picture.over and picture.column >= 60:
        picture.text(picture.x(picture.columns - 1) + 30, picture.bottom(0) + 18, "goes on", 'text-anchor="middle" class="g"')


def draw_legend(picture):
    """The heading, and what each mark means."""
    jumps = sum(0 < record.back < record.depth for record in picture.records)
    what = ["no conflict" if not picture.records else "1 conflict" if len(picture.records) == 1 else "%d conflicts" % len(picture.records)]
    what += ["deepest level %d" % picture.deepest] + (["%d backjump%s over more than one level" % (jumps, "s" * (jumps > 1))] if jumps else [])
    picture.text(LEFT, 30, "The search: " + ", ".join(what), 'class="b"')
    box = '<rect x="-9" y="52" width="18" height="14" rx="3" fill="hsl(208,60%,80%)"/>'
    marks = [(box, "level, while it stands" + ("; its end: back by one level" if picture.narrow else "")), (mark(0, 59, picture.column), "conflict")]
    if any(record.cut_number == 0 for record in picture.records):
        marks.append((mark(0, 59, picture.column, False), "conflict on a divisor, no cut"))
    if not picture.narrow:
        marks.append((arrow(0, 68, 50, STEP, 3), "back by one level"))
    if jumps:
        marks.append((arrow(0, 68, 50, JUMP, 3), "backjump over more"))
    if picture.over:
        last = "cut" if picture.records[-1].cut_number else "divisor constraint"
        marks.append((end_mark(0, 59), last + " falsified at level 0: no solution"))
    x = LEFT + 9
    for shape, text in marks:
        picture.add('<g transform="translate(%.1f 0)">%s</g>', x, shape)
        picture.text(x + 16, 64, text)
        x += 46 + 7.4 * len(text)
    picture.width = max(picture.width, x)


def draw_list(picture):
    """Where there are few, the conflicts' text under the picture. Gives the picture's height."""
    y = picture.bottom(picture.strips - 1) + 54
    if len(picture.records) > LISTED:
        return y - 20
    for record in picture.records:
        picture.text(LEFT, y, conflict_text(record, picture.names))
        # Lines break between constraints: 'with 17 at v6' stays together.
        text = re.sub(r"with (\d+) at ", "with\u00a0\\1\u00a0at\u00a0", cut_text(record, picture.names))
        for line in textwrap.wrap(text, int((picture.width - LEFT - 40) / 7.3), subsequent_indent="  "):
            y += 17
            picture.text(LEFT + 20, y, line, 'class="m" xml:space="preserve"')
        y += 25
    return y


STYLE = """text{font:13px "DejaVu Sans",Verdana,sans-serif;fill:%s}.g{fill:%s}.b{font-size:17px;font-weight:bold}
.m{font:12px "DejaVu Sans Mono",monospace}
.h{fill:%s;fill-opacity:0}.c:hover .h{fill-opacity:.18}""" % (DARK, GREY, DARK)


def svg(records, names):
    """The picture as text."""
    picture = Picture(records, names)
    draw_legend(picture)
    draw_levels(picture)
    for column, record in enumerate(records):
        draw_conflict(picture, column, record)
    draw_axes(picture)
    height = draw_list(picture)
    size = picture.width, height
    head = '<svg xmlns="http://www.w3.org/2000/svg" width="%.0f" height="%.0f" viewBox="0 0 %.0f %.0f">' % (*size, *size)
    return "\n".join([head, "<style>%s</style>" % STYLE, '<rect width="100%" height="100%" fill="white"/>', *picture.pieces, "</svg>"]) + "\n"


def main():
    parser = argparse.ArgumentParser(description=__doc__, formatter_class=argparse.RawDescriptionHelpFormatter)
    parser.add_argument("--svg", action="store_true", help="a picture in place of text")
    parser.add_argument("--names", type=Path, metavar="model.lp", help="the LP text that the problem was made from")
    options = parser.parse_args()
    names = Names(["v%d" % (i + 1) for i in range(MAX_VARIABLES)], [])
    try:
        if options.names:
            names = Names(*read_lp(options.names.read_text("utf-8-sig", "replace"))[1:])
        records = read_journal(sys.stdin.buffer.read())
        check_names(records, names)
    except (LpError, OSError, ValueError) as error:
        sys.exit(str(error))
    if options.svg:
        sys.stdout.write(svg(records, names))
    else:
        sys.stdout.writelines("%s\n    %s\n" % (conflict_text(r, names), cut_text(r, names)) for r in records)


if __name__ == "__main__":
    main()

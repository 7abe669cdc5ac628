#!/usr/bin/env python3
"""The page docs/EDITS.md, made from the comments of the must-fail edits.

    scripts/edits.py > docs/EDITS.md
    scripts/edits.py --check

The first prints the page. The second says whether docs/EDITS.md is that page. Edits whose comments are missing or wrong are named, nothing is printed then, and
the status is 1. An edit, crates/CRATE/must-fail/NAME.edit, begins with three comments:

    # what is wrong in this variant
    # of: document 01, demand K | document 01, SECTION | document 01, mistake: .. | document 01, substitute K | NK, a request | a public call, crate::function
    # refused, because: the fact that has no proof
"""
import argparse
import re
import sys
from dataclasses import dataclass
from pathlib import Path

ROOT = Path(__file__).resolve().parent.parent
PAGE = ROOT / "docs/EDITS.md"
MARKS = ["# ", "# of: ", "# refused, because: "]
# Document 01 in its own order.
SECTIONS = ["the plan file", "lines and bounds", "the walk", "foreign walk (9)", "journal block", "writer and program"]
MISTAKES = ["division toward zero for a positive constant", "a cut's constant rounded down", "L used for a negative coefficient",
            "turning at the depth met in place of d", "storing a combination that is no longer false"]
HEAD = """# Wrong variants that the prover must refuse

*Made by `scripts/edits.py`; do not edit by hand. `scripts/edits.py --check` says whether it is up to date.*

A must-fail edit is a file `crates/CRATE/must-fail/NAME.edit`. It turns a few tokens of the crate's code or definitions
into something wrong. `rt ci` applies each to a copy of its crate, and fails where the prover accepts one;
`rt must-fail CRATE` tries those of one crate. There are %d, in %d crates.

The last column says which fact the variant leaves without a proof. An edit of the definitions is refused because a table
that the prover computes from them comes out false; a case that does is named.
"""


@dataclass
class Edit:
    name: str
    what: str
    of: str
    because: str


def place(of):
    """Where a group stands on the page, by what it belongs to; none where that is not known."""
    part = of.removeprefix("document 01, ")
    mistake = part.removeprefix("mistake: ")
    if part != of and part in SECTIONS:
        return 1, SECTIONS.index(part), of
    if mistake != part and mistake in MISTAKES:
        return 2, MISTAKES.index(mistake), of
    for order, pattern in [(0, r"document 01, demand (\d+)"), (3, r"document 01, substitute (\d+)"), (4, r"N(\d+)")]:
        if match := re.fullmatch(pattern, of):
            return order, int(match[1]), of
    return (5, 0, of) if re.fullmatch(r"\w+(::\w+)+", of) else None


def read_edit(path):
    """The edit in a file; a ValueError where its comments are not as they should be."""
    name = "%s/%s" % (path.parent.parent.name, path.stem)
    lines = path.read_text().splitlines() + [""] * len(MARKS)
    for number, (line, mark) in enumerate(zip(lines, MARKS), 1):
        if not line.startswith(mark) or not line[len(mark):].strip():
            raise ValueError("%s: line %d is not '%s..'" % (name, number, mark))
    edit = Edit(name, *(line[len(mark):].strip() for line, mark in zip(lines, MARKS)))
    if place(edit.of) is None:
        raise ValueError("%s: '%s' is neither a part of document 01, nor a request, nor a call" % (name, edit.of))
    return edit


def read_edits():
    """All edits, and what is wrong with the others."""
    edits, faults = [], []
    for path in sorted(ROOT.glob("crates/*/must-fail/*.edit")):
        try:
            edits.append(read_edit(path))
        except ValueError as fault:
            faults.append(str(fault))
    return edits, faults


def title(of):
    """A group's heading; a request's is that of its note."""
    note = ROOT / ("docs/changes/%s.md" % of)
    if note.exists():
        return note.read_text().splitlines()[0].lstrip("# ")
    return "`%s`" % of if "::" in of else of[0].upper() + of[1:]


def row(edit):
    return "| %s |" % " | ".join(cell.replace("|", "\\|") for cell in ["`%s`" % edit.name, edit.what, edit.because])


def page(edits):
    crates = {edit.name.split("/")[0] for edit in edits}
    parts = [HEAD % (len(edits), len(crates))]
    for of in sorted({edit.of for edit in edits}, key=place):
        rows = [row(edit) for edit in edits if edit.of == of]
        parts.append("## %s\n\n| edit | what is wrong | refused, because |\n|---|---|---|\n%s\n" % (title(of), "\n".join(rows)))
    return "\n".join(parts)


def main():
    parser = argparse.ArgumentParser(description=__doc__, formatter_class=argparse.RawDescriptionHelpFormatter)
    parser.add_argument("--check", action="store_true", help="compare with docs/EDITS.md")
    check = parser.parse_args().check
    edits, faults = read_edits()
    if check and not faults and (not PAGE.exists() or PAGE.read_text() != page(edits)):
        faults.append("docs/EDITS.md is not what scripts/edits.py prints")
    if faults:
        sys.exit("\n".join(faults))
    print("%d edits, and docs/EDITS.md is up to date" % len(edits) if check else page(edits), end="\n" if check else "")


main()

#!/usr/bin/env python3
"""Counts the places of docs/DESIGN-PASS.md, point by point, in the sources of a checkout.

    tools/design_counts.py [--list] [POINT ..] [--commit COMMIT]

Without a point it counts all. --list prints each place as `point file:line text`. With --commit it counts that commit's
sources in place of the files that lie here. Each point has a rule below, by text alone: what the rule finds is looked at, not judged.
"""
import re
import subprocess
import sys
from collections import defaultdict
from pathlib import Path

ROOT = Path(__file__).resolve().parent.parent

FN = re.compile(r"^\s*(pub(\(crate\))? )?(final )?fn (\w+)")

# 1. Variants that stand for 'no value' or 'no error'; flags beside a value; numbers for 'none' or for a kind.
NO_VALUE = {"Nothing", "Wrong", "Done", "Played", "Invalid", "NoCommand", "None", "Missing", "Absent"}
FLAG = re.compile(r"\b(failed|recorded|keep|is_one|is_missing|is_large|goes_on|is_ended|refused|is_used)\b: (&mut )?bool")
KIND = re.compile(r"\b(side|way|outcome_number): usize|^\s*(pub(\(crate\))? )?const (DOMAIN|DECISION|FLIPPED|ABSENT|NONE|STEP|RUN|TRACE|LIST|UNKNOWN): "
                  r"|\bk: usize,? *$|\bf: (&mut )?\[usize; 11\]|\bsums: (&mut )?\[usize; 6\]")
OR_NONE = re.compile(r"// .*(, or `kept`|or `kept` where|; else `limit`|, or n\.|or ABSENT|, 0 for none|or how many (are|constraints are) kept"
                     r"|or the number of kept ones|; 10 or more for no|that digit.*no digit)")

# 3. A while loop whose body moves its own counter by one.
WHILE = re.compile(r"^(\s*)('\w+: )?while (.+) \{$")

# 4. Equality, order, copying, conversion and printing by hand.
BY_HAND = re.compile(
    r"^(is_same|same|is_equal|copy|copy_to|copy_row|store_row|put_row|drop_row|drop_number|clear|wide|sign|unsign|magnitude|lesser|least|first"
    r"|u16_at|u32_at|i32_at|put_u16|put_u32|put_i32|digit|last_digit|put_number|put_signed|put_text|status_of|status_word|word|number|is_known"
    r"|goes_on|is_solution|is_struck|is_refused|is_spent|error_number|find|plus|added|fill_numbers|fill_counts|put_numbers|put_counts|number_of"
    r"|both|is_opposite|whole|without_blocks|after_strikes|add_bytes|add_words|add_numbers|put|copy_values|kept_cuts|dropped)$")

# 5. Functions of at least so many parameters.
MANY = 8

# 6. A place or a length handed along beside a buffer; arrays that run side by side in one struct or one signature.
BESIDE = re.compile(r"\b(at|length|end): (&mut )?usize\b")
PARALLEL = [("lower", "upper"), ("below", "above"), ("activities", "reaches"), ("olds", "limits"), ("gones", "counts"), ("lowers", "uppers"),
            ("inputs", "cuts"), ("rows", "numbers")]

# 7. A match with a number, or a constant that names a step, as an arm.
NUMBER_ARM = re.compile(r"^\s*(\d+(\.\.=\d+)?|STEP|RUN|TRACE|LIST)( \| \d+)* => ")


def sources(commit):
    """Pairs of a path and its lines."""
    if commit:
        names = subprocess.run(["git", "ls-tree", "-r", "--name-only", commit, "crates"], cwd=ROOT, capture_output=True, text=True, check=True).stdout.split("\n")
        for name in names:
            if name.endswith((".rt", ".antt")) and "/out/" not in name:
                yield name, subprocess.run(["git", "show", f"{commit}:{name}"], cwd=ROOT, capture_output=True, text=True, check=True).stdout.split("\n")
    else:
        for path in sorted(ROOT.glob("crates/*/**/*")):
            if path.suffix in (".rt", ".antt") and "out" not in path.parts and path.is_file():
                yield str(path.relative_to(ROOT)), path.read_text().split("\n")


def functions(lines):
    """The functions of a file: name, line of the head, head as one text, body's lines."""
    found, i = [], 0
    while i < len(lines):
        m = FN.match(lines[i])
        if not m:
            i += 1
            continue
        start, head = i, []
        while i < len(lines) and not re.search(r"\{$", lines[i]) and not lines[i].rstrip().endswith(";") and not lines[i].rstrip().endswith("}"):
            head.append(lines[i])
            i += 1
        # clauses end in `}`; the body's brace stands alone or ends the head
        while i < len(lines) and re.match(r"\s*(requires|ensures|ghost)\b", lines[i]) or (i < len(lines) and lines[i].strip().startswith(("requires", "ensures"))):
            head.append(lines[i])
            i += 1
        if i < len(lines):
            head.append(lines[i])
        indent = re.match(r"\s*", lines[start]).group()
        body, i = [], i + 1
        while i < len(lines) and lines[i] != indent + "}":
            body.append(lines[i])
            i += 1
        found.append((m.group(4), start + 1, head, body))
        i += 1
    return found


def parameters(head):
    """How many parameters a head has."""
    text = " ".join(head)
    at = text.index("(", text.index("fn "))
    depth, count, seen = 0, 0, False
    for c in text[at:]:
        if c in "([<":
            depth += 1
        elif c in ")]>":
            depth -= 1
            if depth == 0:
                break
        elif c == "," and depth == 1:
            count += 1
            seen = False
            continue
        if depth >= 1 and c not in "( ":
            seen = True
    return count + (1 if seen else 0)


def shape(body):
    """A body without its names and numbers."""
    text = "\n".join(line.strip() for line in body if line.strip() and not line.strip().startswith("//"))
    text = re.sub(r"\b(?!let|mut|if|else|while|for|in|return|match|true|false|self|break|continue)[A-Za-z_]\w*(::[A-Za-z_]\w*)*", "x", text)
    return re.sub(r"\b\d[\d_]*\b", "0", text)


def places(commit):
    found = defaultdict(list)
    shapes = defaultdict(list)
    for name, lines in sources(commit):
        if name.endswith(".antt"):
            if name.endswith("Proof.antt") or "/Proof/" in name:
                found[8].append((name, 1, f"a walk by hand, {len(lines)} lines"))
            for k, line in enumerate(lines):
                if re.search(r"= search rules$|^\s*search rules$", line):
                    found[8].append((name, k + 1, line.strip()))
            continue
        variants, enum = False, None
        for k, line in enumerate(lines):
            here = (name, k + 1, line.strip())
            m = re.match(r"\s*(pub(\(crate\))? )?enum (\w+)", line)
            if m:
                enum = here
            elif enum and re.match(r"\s*\}", line):
                enum = None
            elif enum and re.match(r"\s*(\w+)", line) and re.match(r"\s*(\w+)", line).group(1) in NO_VALUE:
                found[1].append(enum)
                enum = None
            if FLAG.search(line) or KIND.search(line) or OR_NONE.search(line):
                found[1].append(here)
            m = WHILE.match(line)
            if m:
                counters = set(re.findall(r"\b[a-z_]\w*\b", m.group(3)))
                for later in lines[k + 1:]:
                    if later == m.group(1) + "}":
                        break
                    step = re.match(r"\s*(\w+) [+-]= 1;", later)
                    if step and step.group(1) in counters:
                        found[3].append(here)
                        break
            if NUMBER_ARM.match(line):
                found[7].append(here)
        for fname, at, head, body in functions(lines):
            here = (name, at, head[0].strip())
            if BY_HAND.match(fname):
                found[4].append(here)
            if parameters(head) >= MANY:
                found[5].append((name, at, f"{fname}, {parameters(head)} parameters"))
            signature = " ".join(h for h in head if not h.strip().startswith(("requires", "ensures")))
            if BESIDE.search(signature) and re.search(r"\[(u8|i64|usize)", signature):
                found[6].append(here)
            elif any(re.search(rf"\b{a}: &", signature) and re.search(rf"\b{b}: &", signature) for a, b in PARALLEL):
                found[6].append(here)
            if len([b for b in body if b.strip()]) >= 3:
                shapes[shape(body)].append(here)
    for group in shapes.values():
        if len(group) > 1:
            found[2].extend(group)
    return found


def main():
    arguments = sys.argv[1:]
    commit = None
    if "--commit" in arguments:
        at = arguments.index("--commit")
        commit = arguments[at + 1]
        del arguments[at:at + 2]
    listed = "--list" in arguments
    wanted = [int(a) for a in arguments if a.isdigit()] or list(range(1, 9))
    found = places(commit)
    for point in wanted:
        if listed:
            for name, at, text in sorted(found[point]):
                print(f"{point} {name}:{at} {text}")
        print(f"point {point}: {len(found[point])} places")


if __name__ == "__main__":
    main()

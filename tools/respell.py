#!/usr/bin/env python3
"""Spells the repository's own definitions and lemmas as today's Rattle does: words in snake case.

usage: tools/respell.py [--list]      at the top, once, on what port.py left

Every part of a name, between dashes, that has a capital after a lower-case letter is turned: readError to read_error, le-leZ to
le-le_z. Names of types and modules keep their capitals. What stands in strings stays. Words of the pages stand between backticks.
"""

import glob
import re
import sys

CAMEL = re.compile(r"^[a-z][a-z0-9]*[A-Z]")
# a name of antt or Rust: no bracket, comma, dot, quote or space
TOKEN = re.compile(r"[^\s(){}\[\];,.@\"`:|&<>!=+*/]+")
STRING = re.compile(r'"(?:[^"\\\n]|\\.)*"')

# what would fall together with another name, or reads badly
OWN = {
    "BLUE": "blue",
    "BLUF": "bluf",
}
OWN.update({f"P{i}": f"p{i}" for i in range(1, 13)})
# lemmas that would have their function's name
LEMMAS = {"back_from", "go_on", "goes_on", "step_by", "run_call", "step_call"}


def snake(part):
    part = re.sub(r"([a-z0-9])([A-Z])", r"\1_\2", part)
    part = re.sub(r"([A-Z])([A-Z][a-z])", r"\1_\2", part)
    return part.lower()


def turned(name, own=OWN):
    if name in own:
        return own[name]
    parts = name.split("-")
    new = []
    for p in parts:
        if CAMEL.match(p):
            core = re.match(r"^([A-Za-z0-9_]*)(.*)$", p, re.S)
            new.append(snake(core.group(1)) + core.group(2))
        else:
            new.append(own.get(p, p))
    return "-".join(new)


COMMENT = re.compile(r"(?m)(?:^|(?<= ))--(?: .*)?$|//.*$")


def plain(text, lemmas=()):
    """Turns every token of a text that is no string; those of lemmas get _lem. In comments the rows of a table keep their names."""
    word = lambda t: t.group(0) + "_lem" if t.group(0) in lemmas else turned(t.group(0))
    out, at = [], 0
    for m in COMMENT.finditer(text):
        out.append(code(text[at:m.start()], word))
        out.append(code(m.group(0), lambda t: turned(t.group(0), {})))
        at = m.end()
    return "".join(out) + code(text[at:], word)


def code(text, word):
    out, at = [], 0
    for m in STRING.finditer(text):
        out.append(TOKEN.sub(word, text[at : m.start()]))
        out.append(m.group(0))
        at = m.end()
    return "".join(out) + TOKEN.sub(word, text[at:])


def paths(kind):
    inside = {"code": ("specs/**/*.antt", "proofs/**/*.antt", "src/**/*.rt", "must-fail/*.edit"), "pages": ()}[kind]
    found = []
    for p in inside:
        found += glob.glob("crates/*/" + p, recursive=True)
    return sorted(found)


def main(argv):
    names, old = {}, set()
    for path in paths("code"):
        with open(path, encoding="utf-8") as f:
            text = f.read()
        for t in TOKEN.findall(STRING.sub('""', text)):
            if turned(t) != t:
                names[t] = turned(t)
            else:
                old.add(t)
        if "--list" not in argv:
            new = plain(text, LEMMAS if "/proofs/" in path and "/brute_force/" not in path else ())
            if new != text:
                with open(path, "w", encoding="utf-8") as f:
                    f.write(new)
    if "--list" in argv:
        for a, b in sorted(names.items()):
            print(a, b, "ALSO" if b in old else "")
        return
    for path in ["README.md"] + sorted(glob.glob("docs/*.md")):
        with open(path, encoding="utf-8") as f:
            text = f.read()
        new = re.sub(r"`[^`\n]+`", lambda m: plain(m.group(0)) if "/" not in m.group(0) else m.group(0), text)
        if new != text:
            with open(path, "w", encoding="utf-8") as f:
                f.write(new)


if __name__ == "__main__":
    main(sys.argv[1:])

#!/usr/bin/env python3
"""Spells this repository's own names as today's Rattle does: words in snake case, facts and types in camel case, a dash only between two names.

usage: respell.py          at the top, once, right after the kit's port.py: turns the names in crates/
       respell.py --pages  at the top, once: turns the names that stand in backticks in the pages (README.md, docs/) and in comments of tools

respell.tsv beside this file has a row for each name: as it landed, as port.py leaves it, as it is now. A comment's plain words stay.
"""

import os
import re
import sys

HERE = os.path.dirname(os.path.abspath(__file__))
TOP = os.path.dirname(HERE)
TOKEN = re.compile(r"[^\s(){}\[\].;,@\"«»`:]+")

# A name that two crates give to two things, or that is a plain word elsewhere: it is turned in these files alone.
ALONE = {
    "Once": ("site_once", ("meaning/", "method/")),
    "within": ("Within", ("report/",)),
    "row_at": ("row_at_lem", ("table/",)),
}
# What Rattle makes of a variable is spelled like this behind a dot, so such a field stays in a function's proof.
MADE = re.compile(r"-(is|end|fits|bits)$")


def rows():
    with open(os.path.join(HERE, "respell.tsv"), encoding="utf-8") as f:
        return [line.rstrip("\n").split("\t") for line in f]


def turn(text, names, in_proof):
    def one(m):
        word = m[0]
        if in_proof and MADE.search(word) and text[max(m.start() - 1, 0)] == ".":
            return word
        return names.get(word, word)

    return TOKEN.sub(one, text)


def in_ticks(text, names):
    return re.sub(r"`[^`\n]*`", lambda m: turn(m[0], names, False), text)


def of_line(line, names, mark, in_proof):
    m = re.search(rf"(^|\s){mark}", line)
    at = m.start() if m else len(line)
    return turn(line[:at], names, in_proof) + in_ticks(line[at:], names)


def main(argv):
    table = rows()
    if argv == ["--pages"]:
        names = {landed: now for landed, _, now in table}
        pages = [os.path.join(TOP, "README.md")] + [os.path.join(TOP, "docs", it) for it in sorted(os.listdir(os.path.join(TOP, "docs"))) if it.endswith(".md")]
        for p in pages:
            with open(p, encoding="utf-8") as f:
                old = f.read()
            with open(p, "w", encoding="utf-8") as f:
                f.write(in_ticks(old, names))
        return 0
    names = {port: now for _, port, now in table}
    crates = os.path.join(TOP, "crates")
    for folder, dirs, files in os.walk(crates):
        dirs[:] = sorted(d for d in dirs if d != "out")
        for it in sorted(files):
            if not it.endswith((".rt", ".antt")):
                continue
            p = os.path.join(folder, it)
            where = os.path.relpath(p, crates).replace(os.sep, "/")
            here = dict(names)
            for old, (new, crate) in ALONE.items():
                here.pop(old, None)
                if where.startswith(crate):
                    here[old] = new
            in_proof = re.search(r"/proofs/.+/", where) is not None
            mark = "//" if it.endswith(".rt") else "--"
            with open(p, encoding="utf-8") as f:
                old = f.read().split("\n")
            new = [of_line(line, here, mark, in_proof) for line in old]
            if new != old:
                with open(p, "w", encoding="utf-8") as f:
                    f.write("\n".join(new))
    return 0


if __name__ == "__main__":
    raise SystemExit(main(sys.argv[1:]))

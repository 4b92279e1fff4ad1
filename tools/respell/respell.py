#!/usr/bin/env python3
"""Brings this repository's own definitions and lemmas to today's spelling.

usage: python3 tools/respell/respell.py [FOLDER]     once, after the kit's own script, at the top of a checkout

Words are in snake case, types in camel case. names.txt beside this file has a line for each name: the old one and the
new one. Proof text, the clauses of the code, the must-fail edits and what stands between backticks in a page or a
comment are turned; other prose, strings and the functions of the code keep their words. Generated names, as
`then-b-eq0`, are not in the list: they follow the code and are mended where a proof falls.
"""

import os
import re
import sys

HERE = os.path.dirname(os.path.realpath(__file__))
TOKEN = re.compile(r"[^\s(){}\[\],;.:`\"«»]+")
TICKED = re.compile(r"`[^`\n]*`")


def names():
    with open(os.path.join(HERE, "names.txt"), encoding="utf-8") as f:
        return dict(line.split() for line in f if line.strip())


def turn(text, table):
    return TOKEN.sub(lambda m: table.get(m.group(0), m.group(0)), text)


def turn_prose(text, table):
    return TICKED.sub(lambda m: turn(m.group(0), table), text)


def turn_code(text, table, comment):
    lines = []
    for line in text.split("\n"):
        code, mark, prose = line.partition(comment)
        lines.append(turn(code, table) + mark + turn_prose(prose, table))
    return "\n".join(lines)


def turned(path, text, table):
    if path.endswith(".antt"):
        return turn_code(text, table, "--")
    if path.endswith(".rt") or path.endswith(".edit"):
        return turn_code(text, table, "//")
    if path.endswith(".md"):
        return turn_prose(text, table)
    return text


def main():
    root = sys.argv[1] if len(sys.argv) > 1 else "."
    table = names()
    together = sorted(v for v in set(table.values()) if list(table.values()).count(v) > 1)
    if together:
        sys.exit("respell: names that fall together: " + ", ".join(together))
    for folder, dirs, files in os.walk(root):
        dirs[:] = sorted(d for d in dirs if d not in ("out", ".git", "target", "respell"))
        for name in sorted(files):
            path = os.path.join(folder, name)
            if not name.endswith((".antt", ".rt", ".edit", ".md")):
                continue
            with open(path, encoding="utf-8") as f:
                text = f.read()
            new = turned(path, text, table)
            if new != text:
                with open(path, "w", encoding="utf-8") as f:
                    f.write(new)


main()

#!/usr/bin/env python3
"""Spells definitions, lemmas and record fields as the language spells its own: words in snake case, types in camel case.

usage: python3 tools/respell.py        at the top of the repository, once

respell.tsv has a row for each name: old, new, what it is (a field stands behind a dot too), and where a row is for a part
of the repository alone, the beginning of the paths. A name is turned where it stands as a whole word: in .antt files outside
quoted text, in the clauses and comments of .rt files, and in the code spans of the pages.
"""

import os
import re

HERE = os.path.dirname(os.path.realpath(__file__))
TOP = os.path.dirname(HERE)
WORD = re.compile(r'[^\s(){}.;,@"«»\x60]+')
STRING = re.compile(r'"(?:[^"\\\n]|\\.)*"')
SPAN = re.compile(r"\x60[^\x60\n]+\x60")


def rows():
    everywhere, parts = {}, []
    with open(os.path.join(HERE, "respell.tsv")) as table:
        for line in table:
            old, new, kind, part = line.rstrip("\n").split("\t")
            if part:
                parts.append((part, old, new, kind))
            else:
                everywhere[old] = (new, kind)
    return everywhere, parts


def behind_a_dot(text, at):
    """Whether the word at this place is a projection: behind a dot, and not in a path from the root of all names."""
    if at == 0 or text[at - 1] != ".":
        return False
    start = at
    while start > 0 and not text[start - 1].isspace() and text[start - 1] not in "(){};,\"":
        start -= 1
    return not text[start:at].startswith("Rattle.")


def turn(text, names):
    def word(match):
        row = names.get(match[0])
        if row is None or behind_a_dot(text, match.start()) and row[1] != "field" and "-" in match[0]:
            return match[0]
        return row[0]

    return WORD.sub(word, text)


def outside_strings(text, names):
    out, at = [], 0
    for string in STRING.finditer(text):
        out += [turn(text[at : string.start()], names), string[0]]
        at = string.end()
    return "".join(out + [turn(text[at:], names)])


def main():
    everywhere, parts = rows()
    for folder, folders, files in os.walk(TOP):
        folders[:] = [f for f in folders if f not in ("out", ".git", "target", "must-fail")]
        for file in files:
            path = os.path.join(folder, file)
            place = os.path.relpath(path, TOP)
            names = dict(everywhere)
            for part, old, new, kind in parts:
                if place.startswith(part):
                    names[old] = (new, kind)
            if not file.endswith((".antt", ".rt", ".md")):
                continue
            with open(path) as source:
                before = source.read()
            if file.endswith(".md"):
                after = SPAN.sub(lambda span: turn(span[0], names), before)
            else:
                after = outside_strings(before, names)
            if after != before:
                with open(path, "w") as target:
                    target.write(after)


if __name__ == "__main__":
    main()

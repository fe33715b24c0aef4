"""Reads the row files of tests/rows. A row is a line, with ` | ` between its columns. A line that begins with
four spaces continues the line before it, and a line that begins with `# ` is a comment."""

import os
import re

FOLDER = os.path.join(os.path.dirname(os.path.dirname(os.path.abspath(__file__))), "rows")
WORD = re.compile(r"([A-Z]\w*) = (.*)")


def numbered(file):
    """Returns each row of a file as a list of two: the number of its first line, and its text."""
    rows = []
    for number, line in enumerate(file, 1):
        if line.startswith("    "):
            rows[-1][1] += " " + line.strip()
        elif line.strip() and not line.startswith("# "):
            rows.append([number, line.rstrip("\n")])
    return rows


def tables(name, words):
    """Returns the tables of a file of tests/rows by title. A line that begins with `= ` is a title. A row is
    a tuple. Its first column is a text. Each other column is an expression of Python over `words`: it gives
    one value, or with `*` before it several values. A line `WORD = ..` adds a word."""
    found, words, path = {}, dict(words), os.path.join(FOLDER, name + ".txt")
    with open(path, encoding="utf-8") as file:
        for number, line in numbered(file):
            try:
                if line.startswith("= "):
                    rows = found[line[2:]] = []
                elif word := WORD.fullmatch(line):
                    words[word[1]] = eval(word[2], words)
                else:
                    first, *others = line.split(" | ")
                    rows.append((first, *(value for it in others for value in eval("[%s]" % it, words))))
            except Exception as error:
                raise ValueError("%s:%d: %r" % (path, number, error)) from error
    return found

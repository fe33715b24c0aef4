"""The greatest length of lines: 110 columns, but 160 for a definition in specs/. In Go 100 columns for a
comment and 120 for a line, with a tab as 4 columns."""

import glob
import os
import pathlib
import re

from tests.support.processes import TOP
from tests.support.rows import RowTest, each

COMMENT = re.compile(r"\s*(?://|--)")
CLAUSE = re.compile(r"\s*(?:requires|ensures)\b")
# Lines of code without a limit: imports, attributes, and lines with a text.
OWN_LENGTH = re.compile(r"\s*(?:(?:ghost |pub )?use |#)|.*\"")
SOURCES = ["crates/*/src/**/*.rt", "crates/*/specs/**/*.antt", "crates/*/proofs/**/*.antt"]
GO = ["go/**/*.go"]
# Comments, texts and characters of Go. The group is a text between backquotes, which may have several lines.
GO_TOKEN = re.compile(r"//[^\n]*|/\*.*?\*/|\"(?:\\.|[^\"\\\n])*\"|'(?:\\.|[^'\\\n])+'|(`[^`]*`)", re.DOTALL)
GO_TAG = re.compile(r"`\w+:\"")
SCRIPTS = ["build", "bench/**/*", "packaging/**/*", "scripts/*", "tests/*", "tests/*/*.py"]


def files_of(patterns):
    """Returns the files of the repository that match these patterns."""
    found = (it for pattern in patterns for it in sorted(glob.glob(pattern, root_dir=TOP, recursive=True)))
    return [it for it in found if os.path.isfile(os.path.join(TOP, it))]


def lines_of(path):
    return pathlib.Path(TOP, path).read_text(encoding="utf-8", errors="replace").split("\n")


def without_text(token):
    """Returns a token of Go, but only the line ends of a text with several lines."""
    text = token.group(1) or ""
    return "\n" * text.count("\n") if "\n" in text else token.group()


def go_lines(path):
    """Returns the lines of a Go file. Lines in texts with several lines are empty."""
    text = GO_TOKEN.sub(without_text, "\n".join(lines_of(path)))
    return text.expandtabs(4).split("\n")


def is_go_code(line):
    """Returns True if the line can be broken, which a line with a field's tag cannot."""
    return not GO_TAG.search(line)


def is_python(path):
    return path.endswith(".py") or re.match(r"#!.*python", lines_of(path)[0])


def is_code(line):
    """Returns True if the line is code with a limit, such as a clause."""
    return CLAUSE.match(line) or not OWN_LENGTH.match(line)


class Lines(RowTest):
    @each([
        ("comments", files_of(SOURCES), 110, COMMENT.match),
        ("clauses and code", files_of(SOURCES[:1]), 110, is_code),
        ("definitions", files_of(SOURCES[1:2]), 160, bool),
        ("Python", filter(is_python, files_of(SCRIPTS)), 110, bool),
        ("comments of Go", files_of(GO), 100, COMMENT.match),
        ("Go", files_of(GO), 120, is_go_code),
    ])
    def test_lines(self, name, paths, most, is_meant):
        longer = [
            "%s:%d" % (path, number)
            for path in paths
            for number, line in enumerate(go_lines(path) if path.endswith(".go") else lines_of(path), 1)
            if len(line) > most and is_meant(line)
        ]
        self.check(name, longer, [])

"""Reads vectors in rows: files of `words/`, with expressions over the names of `messages`, and files of
`plain/`, with bytes that do not depend on those functions.

A row is `NAME | CALL | REPLY`, or NAME and below it a line with `CALL | REPLY` for each step. A comment
before rows says what they show. `= TITLE` begins a group, and `WORD = ..` defines a word for the lines below.
A line that begins with four spaces continues the line before it.

In `words/` a call, a reply and the value of a word are expressions of Python. Steps that have names are a
line of their own, `CREATE_A, DELETE_1`, or come before a call: `NAME | CREATE_A | delete(VOL_1) | DONE`.

In `plain/`:
- BYTES are hexadecimal digits and words, with spaces between them; `61*128` is 128 times 61.
- CALL is `METHOD BYTES`, a frame around a message, or `bytes BYTES`, which go into the stream unchanged.
- REPLY is `ok BYTES`, a body; six digits and a text, which are the status, the length of the text, and the
  text; or `malformed AT`, the refusal of a malformed message.
"""

import os

from tests.support.data import WORD, numbered
from tests.vectors import messages
from tests.vectors.messages import malformed, unhex

FOLDER = os.path.dirname(os.path.abspath(__file__))
IDENTITY = {"Probe", "GetPluginInfo", "GetPluginCapabilities"}


def call(method, message):
    """Returns a frame around a message."""
    path = "/csi.v1.%s/%s" % ("Identity" if method in IDENTITY else "Controller", method)
    size = len(message).to_bytes(4, "big")
    return len(path).to_bytes(2, "big") + path.encode() + b"\0" + size + message


def ok(body):
    return unhex("00 0000 00") + len(body).to_bytes(4, "big") + body


def refused(digits, text):
    """Returns a refusal: its status and the length of its text as digits, and the text."""
    return unhex(digits) + text.encode() + unhex("00 00000000")


class Plain:
    """Reads a file of bytes. `groups` has the vectors of each title, with their steps."""

    def __init__(self, name, words=()):
        self.groups, self.words = {}, dict(words)
        with open(os.path.join(FOLDER, name), encoding="utf-8") as file:
            for number, line in numbered(file):
                try:
                    self.read(line)
                except (NameError, SyntaxError, KeyError, ValueError) as error:
                    raise ValueError("%s:%d: %r" % (name, number, error)) from error

    def read(self, line):
        if line.startswith("= "):
            self.vectors = self.groups[line[2:]] = {}
        elif word := WORD.fullmatch(line):
            self.words[word[1]] = self.value(word[2])
        elif line.startswith("  "):
            self.steps += self.steps_of(*line.strip().split(" | "))
        else:
            name, *step = line.split(" | ")
            if name in self.vectors:
                raise ValueError("a name for the second time")
            self.steps = self.vectors[name] = list(self.steps_of(*step)) if step else []

    def value(self, text):
        return b"".join(map(self.part, text.split()))

    def part(self, text):
        if text in self.words:
            return self.words[text]
        digits, _, times = text.partition("*")
        return unhex(digits) * int(times or 1)

    def steps_of(self, sent, reply):
        method, _, message = sent.partition(" ")
        message = self.value(message)
        kind, _, rest = reply.partition(" ")
        if kind == "ok":
            answer = ok(self.value(rest))
        elif kind == "malformed":
            answer = malformed(int(rest))
        else:
            answer = refused(kind, rest)
        return [(message if method == "bytes" else call(method, message), answer)]


def flat(steps):
    """Returns the steps of nested lists as one list. A single step becomes a list of one."""
    return [steps] if isinstance(steps[0], bytes) else [step for part in steps for step in flat(part)]


class Words(Plain):
    """Reads a file of expressions."""

    def value(self, text):
        return eval(text, self.words)

    def steps_of(self, *columns):
        """Returns the named steps, a call and its reply, or both."""
        values = [self.value(it) for it in columns]
        named, last = (values[:1], values[1:]) if len(values) % 2 else ([], values)
        return [step for steps in named for step in flat(steps)] + ([tuple(last)] if last else [])


STEPS = {**vars(messages), **Words("words/steps.txt", vars(messages)).words}


def words(name):
    """Returns the groups of a file of `words/` by title."""
    return Words("words/%s.txt" % name, STEPS).groups


def plain(name):
    """Returns the groups of a file of `plain/` by title."""
    return Plain("plain/%s.txt" % name).groups

"""Frames in hexadecimal, and csid at a socket, for the tests of csictl."""

import os
import pathlib
import re
import socket
import subprocess

from tests.support.processes import SECONDS, TOP, wait
from tests.support.server import NEW, Served
from tests.vectors.messages import frame, refusal, reply


VERSION = pathlib.Path(TOP, "VERSION").read_text(encoding="utf-8").strip()


class Line:
    """Equals a text of one line that begins with `begin`, goes on after it, and there has each of these
    parts."""

    def __init__(self, begin, *parts):
        self.begin, self.parts = begin, parts

    def __eq__(self, text):
        rest = text[len(self.begin) :]
        return (text.startswith(self.begin)
                and text.index("\n") == len(text) - 1 > len(self.begin)
                and all(part in rest for part in self.parts))

    def __repr__(self):
        return "a line %r.. with %s" % (self.begin, ", ".join(map(repr, self.parts)) or "something after it")


class Shown:
    """Equals a text that ends with a line end and has each of these parts."""

    def __init__(self, *parts):
        self.parts = parts

    def __eq__(self, text):
        return text.endswith("\n") and all(part in text for part in self.parts)

    def __repr__(self):
        return "lines with " + ", ".join(map(repr, self.parts))


def ok(body):
    """Returns the frame of a reply with status 0."""
    return reply(bytes.fromhex(body))


def call(path, message):
    return frame(path, bytes.fromhex(message))


IDENTITY, CONTROLLER = "/csi.v1.Identity/", "/csi.v1.Controller/"
READY = ok("0a020801")
VOL_1 = "0a24088080401205766f6c2d311a0a0a04706f6f6c120270312a0b0a090a047a6f6e65120161"

EXISTS = "volume exists and is not compatible"

CREATE = "CreateVolume"


def run(words, stdout=subprocess.PIPE, **how):
    done = subprocess.run(words, stdout=stdout, stderr=subprocess.PIPE, timeout=SECONDS, **how)
    return done.stdout, done.stderr.decode(), done.returncode


def text(came):
    """Returns a result of `run` with standard output as a text."""
    return came[0].decode(), came[1], came[2]


class Server(Served):
    """csid at a socket, with its file in the same folder. `shell` is what the shell command that starts csid
    has after csid's words, such as a redirection."""

    def __init__(self, csid, path, *words, tables=None, shell=None, **how):
        self.path, self.tables = path, path + ".db" if tables is None else tables
        command = [csid, "serve", "--socket", path, "--tables", self.tables, *words]
        self.begin(["sh", "-c", 'exec "$0" "$@" ' + shell, *command] if shell else command, **how)
        # The first line of csid has the contents of the file, or why csid cannot read it.
        begun = "(?m)^csid: (%s: volumes .*|out of memory|.*%s)\n" % (re.escape(self.tables), NO_FILE)
        wait(lambda: (os.path.exists(path) if shell else re.search(begun, self.lines()))
             or self.process.poll() is not None)

    def kill(self):
        """Kills csid. Returns its lines and its status."""
        self.process.kill()
        return self.end()

    def end(self):
        """Waits until csid has ended, and removes its socket. Returns its lines, without the line about the
        contents of the file, and its status."""
        self.process.wait(timeout=SECONDS)
        os.unlink(self.path)
        held = "(?m)^csid: %s: (%s|volumes .*)\n" % (re.escape(self.tables), NEW)
        return re.sub(held, "", self.lines()), self.process.returncode


NOT_THERE = "No such file or directory (os error 2)"

# The reasons why a file of tables cannot be used (docs/TABLES.md).
NO_FILE = "unable to open database file"
NO_DATABASE = "file is not a database that obeys its schema"


# An entry of 'vol-N' of 1 MiB without attachments, in hexadecimal.
def entry(number):
    return "0a28" + VOL_1.replace("766f6c2d31", "766f6c2d3%d" % number) + "1200"

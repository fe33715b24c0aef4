"""csid over standard input and output: streams, arguments, and streams that are closed or full."""

import os
import subprocess

from tests.support.data import tables
from tests.support.frames import (ANSWERED, ASKED, BLOCK, CREATE_A, INFO, NAMED, NO_MEMORY, LONGEST, PROBE,
                                  READY, READ_FAILED, UNKNOWN, VERSION, VOLUME_1, WRITE_FAILED, controller,
                                  fault, frame, refusal, reply)
from tests.support.processes import SECONDS, Shown, closed_pipe, run, small_memory, with_shell
from tests.support.rows import CsidTest, each


SERVE = [b"serve", b"--socket", b"/no/such.sock", b"--tables", b"/no/such.db"]

ROWS = tables("csid_pipe", globals())


def by_turns(csid, pieces, expected):
    """Sends pieces one by one, and reads `expected` bytes after each piece. Returns the output, the errors
    and the status."""
    process = subprocess.Popen([csid], stdin=subprocess.PIPE, stdout=subprocess.PIPE, stderr=subprocess.PIPE,
                               bufsize=0)
    out = b""
    try:
        for piece in pieces:
            process.stdin.write(piece)
            out += process.stdout.read(expected) if expected else b""
    except BrokenPipeError:
        pass
    rest, error = process.communicate(timeout=SECONDS)
    return out + rest, error.decode(errors="replace"), process.returncode


def without_waiting(csid, given):
    """Returns the result of csid over a pipe that has the bytes `given` and then no more. A read of the empty
    pipe does not block, and does not find the end of the input, since the writer stays open."""
    read, write = os.pipe()
    os.set_blocking(read, False)
    os.write(write, given)
    try:
        return run([csid], stdin=read)
    finally:
        os.close(read)
        os.close(write)


class PipeTest(CsidTest):
    @each(ROWS["STREAMS"])
    def test_streams(self, name, given, out, error, status):
        self.check(name, run([self.csid], input=given), (out, error, status))

    @each(ROWS["WORDS"])
    def test_words(self, name, words, line):
        self.check(name, run([self.csid] + words, input=frame(PROBE)), (b"", "csid: %s\n" % line, 2))

    @each(ROWS["ASKS"])
    def test_output_asked_for(self, name, words, parts):
        self.check(name, run([self.csid] + words, input=frame(PROBE)), (Shown(*parts), "", 0))

    def test_calls_of_volumes(self):
        self.check("pipe", run([self.csid, "pipe"], input=ASKED), (ANSWERED, "", 0))
        for size in 1, 2, 3, 4096:
            pieces = [ASKED[at : at + size] for at in range(0, len(ASKED), size)]
            self.check("calls of volumes in pieces of %d" % size, by_turns(self.csid, pieces, 0),
                       (ANSWERED, "", 0))

    def test_pieces(self):
        calls = frame(PROBE) + frame(INFO) + frame(b"/ a")
        last, error, status = fault("bad path at byte 69")
        self.check("a stream in pieces of one byte",
                   by_turns(self.csid, [bytes([byte]) for byte in calls], 0),
                   (READY + NAMED + last, error, status))
        self.check("each reply before the next call", by_turns(self.csid, [frame(PROBE)] * 3, len(READY)),
                   (READY * 3, "", 0))

    def test_outputs(self):
        with open("/dev/full", "wb") as full:
            self.check("a full output", run([self.csid], input=frame(PROBE), stdout=full),
                       (b"", WRITE_FAILED, 5))
            self.check("a full output, and nothing to write", run([self.csid], input=b"", stdout=full),
                       (b"", "", 0))
        pipe = closed_pipe()
        self.check("an output that nobody reads", run([self.csid], input=frame(PROBE), stdout=pipe),
                   (b"", WRITE_FAILED, 5))
        os.close(pipe)
        self.check("a closed output", with_shell(self.csid, ">&-", frame(PROBE)), (b"", WRITE_FAILED, 5))

    def test_inputs(self):
        self.check("a closed input", with_shell(self.csid, "<&-", b""), (b"", READ_FAILED, 5))
        directory = os.open("/", os.O_RDONLY)
        self.check("an input that is a directory", run([self.csid], stdin=directory), (b"", READ_FAILED, 5))
        os.close(directory)

    @each([[b"--help"], [b"--version"]])
    def test_output_of_words(self, words):
        with open("/dev/full", "wb") as full:
            self.check("a full output, and " + words[0].decode(), run([self.csid] + words, stdout=full),
                       (b"", WRITE_FAILED, 5))

    @each(["--help", "serve --help", "--version"])
    def test_reader_of_words_that_goes_away_is_no_failure(self, words):
        pipe = closed_pipe()
        self.addCleanup(os.close, pipe)
        self.assertEqual(run([self.csid, *words.split()], stdout=pipe), (b"", "", 0))

    @each([
        ("nothing", b"", b""),
        ("a call", frame(PROBE), READY),
        ("a part of a call", frame(PROBE)[:10], b""),
    ])
    def test_inputs_that_do_not_wait(self, name, given, out):
        self.check("an input that does not wait, with " + name, without_waiting(self.csid, given),
                   (out, READ_FAILED, 5))

    def test_standard_error(self):
        self.check("a closed standard error, and a fault", with_shell(self.csid, "2>&-", b"\0\0"),
                   (fault("bad path length at byte 0")[0], "", 1))
        self.check("a full standard error, and a fault", with_shell(self.csid, "2>/dev/full", b"\0\0"),
                   (fault("bad path length at byte 0")[0], "", 1))
        self.check("a full standard error, and a word", with_shell(self.csid, "x 2>/dev/full", b""),
                   (b"", "", 2))

    def test_memory(self):
        self.check("no memory", run([self.csid], input=frame(PROBE), preexec_fn=small_memory),
                   (b"", NO_MEMORY, 6))
        self.check("no memory for its words",
                   run([self.csid] + ["x" * 100_000] * 8, input=frame(PROBE), preexec_fn=small_memory),
                   (b"", NO_MEMORY, 6))

"""csictl without a server: `show`, `frame` and its arguments."""

import os
import pty
import shlex

from tests.support.csictl import (CONTROLLER, CREATE, EXISTS, IDENTITY, Line, READY, Shown, VERSION, VOL_1,
                                  call, ok, refusal, run, text)
from tests.support.data import tables
from tests.support.processes import TOP, closed_pipe, small_memory
from tests.support.rows import CsictlTest, each


# One entry, of the volume v%1 with 1 byte at the node n1, and the token 2.
PAGE = "0a0f" + "0a07" + "0801" + "1203762531" + "1204" + "0a026e31" + "120132"

ROWS = tables("csictl_show", globals())


def left_open(words, given):
    """Runs a command over an input that stays open after these bytes. Returns the output, the errors and the
    status."""
    reading, writing = os.pipe()
    try:
        os.write(writing, given)
        return text(run(words, stdin=reading))
    finally:
        os.close(reading)
        os.close(writing)


class ShowTest(CsictlTest):
    def show(self, *words, **how):
        return text(run([self.csictl, *words], **how))

    @each(ROWS["SHOW"])
    def test_replies_are_shown(self, name, words, given, out, err, status):
        self.assertEqual(self.show(*words, input=given), (out, err, status))

    @each(ROWS["FRAMES"])
    def test_frames_are_written(self, name, words, path, message):
        came = run([self.csictl, "frame", "--method", *words], input=b"")
        self.assertEqual(came, (call(path, message.replace(" ", "")), "", 0))

    @each([*ROWS["REFUSED"], ("frame --method '\n\x1b'", "\\n\\u{1b}: no such method")])
    def test_words_are_refused(self, line, part):
        self.assertEqual(self.show(*shlex.split(line), input=READY), ("", Line("csictl: ", part), 2))

    def test_word_that_is_no_text_is_refused(self):
        came = self.show("show", b"\xff", input=READY)
        self.assertEqual(came, ("", "csictl: a word is no text\n", 2))

    @each([
        (["--help"], ["show", "frame", "call", "vectors"]),
        (["frame", "--help"], ["--required", "bytes", "--parameters", "--mutable", "KEY=VALUE"]),
        (["--version"], ["csictl " + VERSION]),
    ])
    def test_help_names_words(self, words, parts):
        self.assertEqual(self.show(*words, input=b""), (Shown(*parts), "", 0))

    @each([
        ("volumes --jsn", "unexpected argument '--jsn' found; a similar argument exists: '--json'"),
        ("creat", "unrecognized subcommand 'creat'; a similar subcommand exists: 'create'"),
        ("volumez",
         "unrecognized subcommand 'volumez'; some similar subcommands exist: 'volumes', 'volume'"),
    ])
    def test_misspelt_word_gets_a_similar_one(self, line, similar):
        self.assertEqual(self.show(*line.split(), input=READY), ("", "csictl: %s\n" % similar, 2))

    def test_help_is_printed_on_a_terminal(self):
        wanted = self.show("--help", input=b"")
        terminal, stdin = pty.openpty()
        try:
            self.assertEqual(self.show(stdin=stdin), wanted)
        finally:
            os.close(stdin)
            os.close(terminal)

    def test_full_output_is_reported(self):
        line = "csictl: a write to standard output failed\n"
        for words, error in [
            ([], line),
            (["frame", "--method", "Probe"], Line("csictl: standard output: ")),
            (["--help"], line),
        ]:
            with self.subTest(words=words), open("/dev/full", "wb") as full:
                came = run([self.csictl, *words], input=READY if not words else b"", stdout=full)
                self.assertEqual(came, (None, error, 5))

    @each(["--help", "frame --help", "--version"])
    def test_reader_of_help_that_goes_away_is_no_failure(self, words):
        pipe = closed_pipe()
        self.addCleanup(os.close, pipe)
        self.assertEqual(run([self.csictl, *words.split()], stdout=pipe), (None, "", 0))

    def test_input_that_cannot_be_read_is_reported(self):
        folder = os.open(TOP, os.O_RDONLY)
        self.addCleanup(os.close, folder)
        line = "csictl: a read of standard input failed\n"
        self.assertEqual(self.show(stdin=folder), ("", line, 5))

    def test_input_that_stays_open_is_not_waited_for_after_a_fault(self):
        bad = left_open([self.csictl], bytes.fromhex("01"))
        self.assertEqual(bad, ("", "csictl: bad status at byte 0\n", 3))
        no_response = left_open([self.csictl, "show", "--method", "Probe"], ok("0a"))
        self.assertEqual(no_response, ("0 OK 0a\n", Line("csictl: "), 3))

    @each([("for a reply", []), ("for words", ["x" * 100_000] * 8)])
    def test_lack_of_memory_is_reported(self, name, words):
        came = self.show(*words, input=READY, preexec_fn=small_memory)
        self.assertEqual(came, ("", "csictl: out of memory\n", 6))

    def test_whole_replies_before_a_cut_are_shown(self):
        """A stream of two replies is cut at every byte."""
        replies = READY + refusal(6, EXISTS)
        for at in [*range(1, len(READY)), *range(len(READY) + 1, len(replies))]:
            with self.subTest(at=at):
                out = "0 OK 0a020801\n" if at > len(READY) else ""
                error = "csictl: end of input at byte %d\n" % at
                self.assertEqual(self.show(input=replies[:at]), (out, error, 3))

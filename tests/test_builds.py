"""./build and ./run with a replacement for rt, over empty crates."""

import contextlib
import os
import pathlib
import shutil
import signal
import subprocess
import sys

from tests.support.processes import TOP, fixture, wait
from tests.support.rows import RowTest


# The longest time of a build that proves nothing, in seconds.
SECONDS = 60
CRATES, RT, SERVER = [fixture("builds/" + name).decode() for name in ("crates.txt.txt", "rt", "server")]
# A Probe, and csid's reply, worked out from docs/PROTOCOL.md.
PROBE = b"\x00\x16/csi.v1.Identity/Probe\x00\x00\x00\x00\x00"
SENT = "sent 00162f6373692e76312e4964656e746974792f50726f62650000000000: /csi.v1.Identity/Probe\n"
REPLIES = [
    (r"\0\0\0\0\0\0\0\4\n\2\10\1", "got 00000000000000040a020801: 0 OK, ready true\n"),
    (r"\0\0\0\0\0\0\0\2\n\0", "got 00000000000000020a00: 0 OK, ready false\n"),
    (r"\0\0\0\0\0\0\0\0", "got 0000000000000000: 0 OK, ready -\n"),
    (r"\r\0\15out of memory\0\0\0\0\0", "got 0d000d6f7574206f66206d656d6f72790000000000: 13 out of memory\n"),
    (r"\0\0", "got 0000: no whole reply\n"),
]


class Place:
    """A folder with ./build, ./run and the crates."""

    def __init__(self, folder):
        self.folder, self.calls = folder, os.path.join(folder, "calls")
        for path in ["build", "run", "scripts/crates.py", "scripts/gate", "scripts/times"]:
            os.makedirs(os.path.dirname(self.path(path)), exist_ok=True)
            shutil.copy(os.path.join(TOP, path), self.path(path))
        self.write("crates.txt", CRATES)
        self.write("bin/rt", RT, 0o755)
        for name in ["low", "left", "right", "upper", "alone"]:
            self.write("crates/%s/src/lib.rt" % name, "")
        self.write("crates/csid/src/main.rt", "")
        self.write("crates/csictl/src/main.rt", "")
        self.write("crates/csid/stdin", "a call")

    def path(self, name):
        return os.path.join(self.folder, name)

    def write(self, name, text, mode=0o644):
        os.makedirs(os.path.dirname(self.path(name)), exist_ok=True)
        pathlib.Path(self.path(name)).write_text(text, encoding="utf-8")
        os.chmod(self.path(name), mode)

    def variables(self, rt="bin", faulty=""):
        return {
            **os.environ,
            "CALLS": self.calls,
            "FAULTY": faulty,
            "PATH": "%s:/usr/bin:/bin" % self.path(rt),
        }

    def build(self, program):
        """Writes a program where ./build writes csid, newer than all its sources."""
        self.write("crates/csid/out/csid", program, 0o755)
        date = os.stat(self.path("crates/csid/out/csid")).st_mtime - 10
        for at, _, names in os.walk(self.path("crates")):
            for name in names if "/out" not in at else []:
                os.utime(os.path.join(at, name), (date, date))
        os.utime(self.path("crates.txt"), (date, date))

    def run(self, *words, rt="bin", faulty="", typed=""):
        """Runs a script. Returns its exit status, its output, its errors, and the lines of the calls of rt.
        """
        self.write("calls", "")
        done = subprocess.run([sys.executable, *words] if words[0] == "./build" else words, cwd=self.folder,
                              env=self.variables(rt, faulty), input=typed, capture_output=True, text=True,
                              timeout=SECONDS)
        with open(self.calls, encoding="utf-8") as file:
            return done.returncode, done.stdout, done.stderr, file.read().splitlines()

    def left(self):
        """Returns the files that a build has left besides the sources."""
        return sorted("%s/%s" % (os.path.relpath(at, self.folder), it)
                      for at, _, names in os.walk(self.path("crates"))
                      for it in names
                      if "/out" in at)


def take_sigint():
    """Lets SIGINT end the process, as in a terminal. The process that runs the tests may ignore it."""
    signal.signal(signal.SIGINT, signal.SIG_DFL)


def end_group(pid):
    with contextlib.suppress(ProcessLookupError):
        os.killpg(pid, signal.SIGKILL)


def runs(pid):
    """Returns True if a process exists and has not ended."""
    try:
        return pathlib.Path("/proc/%d/stat" % pid).read_text().rsplit(") ", 1)[1][0] != "Z"
    except FileNotFoundError:
        return False


class BuildsTest(RowTest):
    def setUp(self):
        super().setUp()
        self.place = Place(self.folder)

    # The line of a call of rt: the crate, the arguments without --jobs, the crates in its crates.txt, the
    # crates that are built already, the files in its src and in its out, and the standard input.
    LOW = "low|lib |low||lib.rt||"
    UPPER = "upper|lib |left low right upper|left low right|lib.rt||"
    CSID = "csid|run |csid left low right upper|left low right upper|main.rt||a call"
    SIDES = ["left|lib |left low|low|lib.rt||", "right|lib |low right|low|lib.rt||"]
    MADE = ["crates/%s/out/rlib/%s" % (name, name) for name in ("csid", "left", "low", "right", "upper")]

    def test_crates_below_are_built_first(self):
        status, out, _, calls = self.place.run("./build", "csid")
        self.assertEqual((status, out), (0, "crates/csid/out/csid\n"))
        self.assertEqual((calls[0], sorted(calls[1:3])), (self.LOW, self.SIDES))
        self.assertEqual(calls[3:], [self.UPPER, self.CSID])
        self.assertEqual(self.place.left(), self.MADE)

    def test_kept_libraries_are_there_for_the_next_build(self):
        self.place.run("./build", "csid")
        calls = self.place.run("./build", "right")[3]
        kept = ["low|lib |low|low|lib.rt|rlib|", "right|lib |low right|low right|lib.rt|rlib|"]
        self.assertEqual(calls, kept)

    def test_library_is_no_program(self):
        self.assertEqual(self.place.run("./build", "alone")[:2], (0, ""))

    def test_no_crate_above_one_that_fails_is_built(self):
        """Built programs stay."""
        self.place.run("./build", "csid")
        status, out, error, calls = self.place.run("./build", "csid", faulty="left")
        self.assertEqual((status, out), (1, ""))
        for line in "no proof of left\n", "build: left could not be built\n":
            self.assertIn(line, error)
        self.assertEqual([it for it in calls if it.startswith(("upper", "csid"))], [])
        self.assertEqual(set(self.MADE) - set(self.place.left()), set())

    def test_unknown_crate_is_refused(self):
        came = self.place.run("./build", "low", "none")
        self.assertEqual(came, (2, "", "build: crates.txt has no crate none\n", []))

    def test_options_are_none_but_help(self):
        status, out, error, calls = self.place.run("./build", "--help")
        self.assertEqual((status, out.split()[:2], error, calls), (0, ["usage:", "./build"], "", []))
        status, out, error, calls = self.place.run("./build", "--quick")
        self.assertEqual((status, out, error.split()[:2], calls), (2, "", ["usage:", "./build"], []))

    def test_gate_proves_all_without_a_crate(self):
        """The output of the gate goes to standard error."""
        status, out, error, calls = self.place.run("./build")
        self.assertEqual((status, out), (0, "crates/csid/out/csid\ncrates/csictl/out/csictl\n"))
        self.assertEqual((error.splitlines()[:1], calls), (["4 passed, 0 failed"], ["ci"]))

    def test_gate_that_fails_is_reported(self):
        self.assertEqual(self.place.run("./build", faulty="csid")[::3], (1, ["ci"]))
        no_kit = "'rt' is not on the PATH: the Rattle toolchain is needed (README.md, 'Build, run, test')\n"
        for script in ["build", "run"]:
            self.check("./%s without the kit" % script, self.place.run("./" + script, rt="none"),
                       (1, "", "%s: %s" % (script, no_kit), []))

    def test_run(self):
        """./run runs the built program if no source is newer. Otherwise it tries the sources by rt, and says
        that they are not proved."""
        program = self.place.path("crates/csid/out/csid")
        self.place.write("crates/csid/out/csid", '#!/bin/sh\necho "csid $*"\n', 0o755)
        for path in ["crates.txt", "crates/low/src/lib.rt", "crates/csid/src/main.rt"]:
            for seconds, is_built in [(-10, True), (10, False)]:
                date = os.stat(program).st_mtime + seconds
                for other in [os.path.join(at, it)
                              for at, _, names in os.walk(self.place.path("crates"))
                              for it in names
                              if "/out" not in at] + [self.place.path("crates.txt")]:
                    os.utime(other, (date - 20, date - 20))
                os.utime(self.place.path(path), (date, date))
                _, out, error, calls = self.place.run("./run", "serve", "x")
                self.check("%s %+d s" % (path, seconds), (out, len(calls)),
                           ("csid serve x\n", 0) if is_built else ("", 1))
                if not is_built:
                    self.check("it is said", "not proved" in error, True)
                    words = "try --seconds 1000000000 -- serve x"
                    self.check("how it is tried", calls[0].split("|")[:2], ["csid", words])

    def test_probe(self):
        """Without arguments ./run shows the call and the reply."""
        pathlib.Path(self.place.path("crates/csid/stdin")).write_bytes(PROBE)
        for reply, wanted in REPLIES:
            self.place.build("#!/bin/sh\ncmp - crates/csid/stdin && printf '%s'\n" % reply)
            done = subprocess.run(["./run"], cwd=self.folder, env=self.place.variables(),
                                  stdin=subprocess.DEVNULL, capture_output=True, text=True, timeout=SECONDS)
            self.check("the reply %r" % reply, (done.stdout, done.returncode), (SENT + wanted, 0))

    def test_serve(self):
        """./run serve says when csid serves, and ends it and removes its socket by SIGINT to all processes,
        as a terminal gives it, and by SIGTERM to itself."""
        words = ["serve", "--socket", "a.sock", "--tables", "v.db", "--idle", "60"]
        whole = ["serve", "--socket", self.place.path("a.sock"), "--tables", self.place.path("v.db")]
        tried = "try --seconds 1000000000 -- %s --idle 60" % " ".join(whole)
        for is_built, asked in [(False, tried), (True, " ".join(words))]:
            if is_built:
                self.place.build(SERVER)
            else:
                self.place.write("bin/rt", SERVER, 0o755)
            for number in (signal.SIGINT, signal.SIGTERM):
                self.check_serve(is_built, asked, number, words)

    def check_serve(self, is_built, asked, number, words):
        what = "%s, by %s" % ("the program" if is_built else "the sources", number.name)
        self.place.write("calls", "")
        with open(self.place.path("said"), "w+") as said:
            run = subprocess.Popen(["./run", *words], cwd=self.folder, env=self.place.variables(),
                                   stdin=subprocess.DEVNULL, stdout=subprocess.DEVNULL, stderr=said,
                                   start_new_session=True, preexec_fn=take_sigint)
            self.addCleanup(end_group, run.pid)

            def lines():
                said.seek(0)
                return said.read().splitlines()

            socket = self.place.path("a.sock")
            serves = "run: csid serves on %s; Ctrl-C ends it" % socket
            self.check("it says that it serves: " + what, wait(lambda: serves in lines()), True)
            self.check("what is not proved is said: " + what, "not proved" in lines()[0], not is_built)
            (os.killpg if number == signal.SIGINT else os.kill)(run.pid, number)
            self.check("its status: " + what, run.wait(SECONDS), 0)
            self.check("its last line: " + what, lines()[-1], "run: ended; %s is removed" % socket)
        call, _, pid = pathlib.Path(self.place.calls).read_text().rstrip("\n").rpartition(" ")
        self.check("how it was called: " + what, call, asked)
        self.check("nothing is left: " + what, (os.path.exists(socket), runs(int(pid))), (False, False))

    def test_serve_over_a_file(self):
        """If a file exists at the socket's path, nothing is begun."""
        self.place.write("a.sock", "mine")
        status, out, error, calls = self.place.run("./run", "serve", "--tables", "v.db", "--socket=a.sock")
        line = "run: %s: a file exists there already; remove it if no csid serves on it\n"
        wanted = (7, "", line % self.place.path("a.sock"), [])
        self.check("a file", (status, out, error, calls), wanted)
        self.check("it stays", os.path.exists(self.place.path("a.sock")), True)

"""Finds csid, and runs programs that the operating system or valgrind measures, for the benches."""
import collections
import os
import pathlib
import re
import subprocess
import sys
import tempfile
import time

TOP = os.path.dirname(os.path.dirname(os.path.abspath(__file__)))
CSID = os.path.join(TOP, "crates", "csid", "out", "csid")
# The result of a run: elapsed and processor seconds, peak memory in KiB, and the output if it is kept.
Run = collections.namedtuple("Run", "clock processor peak out")


def need(bench, program=CSID, build="./build"):
    if not os.access(program, os.X_OK):
        sys.exit("bench/%s: %s is not built: call %s first" % (bench, os.path.basename(program), build))


def write(folder, name, content):
    path = os.path.join(folder, name)
    pathlib.Path(path).write_bytes(content)
    return path


def run(command, given, keep=False):
    """Runs a program with a file as its standard input. Returns a `Run`, without output unless `keep`. Ends
    the bench if the program fails."""
    with open(given, "rb") as stdin, tempfile.TemporaryFile() as kept, open(os.devnull, "wb") as nowhere:
        begin = time.perf_counter()
        process = subprocess.Popen(command, stdin=stdin, stdout=kept if keep else nowhere)
        _, status, used = os.wait4(process.pid, 0)
        clock = time.perf_counter() - begin
        process.returncode = os.waitstatus_to_exitcode(status)
        if process.returncode != 0:
            sys.exit("bench: %s ended with %d" % (command, process.returncode))
        kept.seek(0)
        return Run(clock, used.ru_utime + used.ru_stime, used.ru_maxrss, kept.read())


def compare(bench, command, given, replies):
    """Runs csid over a file. Ends the bench if csid fails, or if its output is not `replies`."""
    with open(given, "rb") as stdin:
        ran = subprocess.run(command, stdin=stdin, stdout=subprocess.PIPE)
    if ran.returncode != 0 or ran.stdout != replies:
        said = "bench/%s: csid ended with %d, or has other replies than it has to"
        sys.exit(said % (bench, ran.returncode))


# The tools of valgrind, each with the pattern of its result.
INSTRUCTIONS = "callgrind", rb"Collected : ([0-9]+)"
ALLOCATIONS = "memcheck", rb"total heap usage: ([0-9,]+) allocs"


def valgrind(tool, pattern, command, **how):
    """Runs a command under a tool of valgrind. Returns the number that the tool reports, and the completed
    process."""
    words = ["valgrind", "--tool=" + tool, *["--callgrind-out-file=/dev/null"] * (tool == "callgrind")]
    ran = subprocess.run([*words, *command], stderr=subprocess.PIPE, **how)
    return int(re.search(pattern, ran.stderr)[1].replace(b",", b"")), ran

"""Runs programs for the tests: with limits, as another user, or on a small disk."""

import contextlib
import os
import pathlib
import resource
import shutil
import socket
import subprocess
import time
import unittest


TOP = os.path.dirname(os.path.dirname(os.path.dirname(os.path.abspath(__file__))))

SECONDS = 30

# Programs in Go begin their lines with their names here, without a time, as under systemd.
os.environ["JOURNAL_STREAM"] = "8:1"


# The paths of the built programs. An environment variable with the name in capitals ("_" for "-") gives
# another path.
PROGRAMS = {
    "csid": "crates/csid/out/csid",
    "csictl": "crates/csictl/out/csictl",
    "csid-etcd": "go/etcd/out/csid-etcd",
    "front": "go/front/out/front",
    "node-plugin": "go/node/out/node-plugin",
}


def place(name):
    """Returns the path of a program, which may not exist."""
    path = os.environ.get(name.upper().replace("-", "_")) or os.path.join(TOP, PROGRAMS[name])
    return os.path.abspath(path)


def program(name):
    """Returns the path of a built program. Raises FileNotFoundError if it is not built."""
    path = place(name)
    if not os.access(path, os.X_OK):
        raise FileNotFoundError("no program at %s: ./build makes it" % path)
    return path


def fixture(name):
    """Returns the bytes of a file of tests/fixtures."""
    return read(os.path.join(TOP, "tests", "fixtures", name))


class Shown:
    """Equals bytes that end with a line end and have each of these parts."""

    def __init__(self, *parts):
        self.parts = parts

    def __eq__(self, out):
        return out.endswith(b"\n") and all(part in out for part in self.parts)

    def __repr__(self):
        return "lines with " + ", ".join(map(repr, self.parts))


NOT_THERE = "No such file or directory (os error 2)"
DENIED = "Permission denied (os error 13)"


def run(command, **streams):
    done = subprocess.run(command, stdout=streams.pop("stdout", subprocess.PIPE), stderr=subprocess.PIPE,
                          timeout=SECONDS, **streams)
    return done.stdout or b"", done.stderr.decode(errors="replace"), done.returncode


def closed_pipe():
    read, write = os.pipe()
    os.close(read)
    return write


def small_memory():
    resource.setrlimit(resource.RLIMIT_DATA, (700_000, 700_000))


def little_memory():
    resource.setrlimit(resource.RLIMIT_DATA, (16 << 20, 16 << 20))


def with_shell(csid, redirection, given):
    return run(["sh", "-c", 'exec "$0" ' + redirection, csid], input=given)


# Enough memory for csid over a file of 1,000 volumes with parameters of 4,096 bytes in 1,024 entries, but not
# for a copy of this file.
def some_memory():
    resource.setrlimit(resource.RLIMIT_DATA, (48 << 20, 48 << 20))


def memory_of_20_mib():
    resource.setrlimit(resource.RLIMIT_DATA, (20 << 20, 20 << 20))


def memory_of_24_mib():
    resource.setrlimit(resource.RLIMIT_DATA, (24 << 20, 24 << 20))


def memory_of(size):
    """Returns a function that limits the calling process to `size` bytes of memory."""
    return lambda: resource.setrlimit(resource.RLIMIT_DATA, (size, size))


def statuses(peer, count):
    """Returns the statuses of the next `count` replies on a connection, or fewer if the connection ends."""
    held, came = b"", []
    while len(came) < count:
        piece = peer.recv(1 << 16)
        if not piece:
            break
        held += piece
        while len(held) >= 3:
            text = int.from_bytes(held[1:3], "big")
            if len(held) < 8 + text:
                break
            size = 8 + text + int.from_bytes(held[4 + text : 8 + text], "big")
            if len(held) < size:
                break
            came.append(held[0])
            held = held[size:]
    return came


def as_nobody():
    os.setgroups([])
    os.setgid(65534)
    os.setuid(65534)


def fill(folder):
    """Fills the disk of a folder. Returns the path of the file that fills it, which can be removed to make
    room."""
    path = os.path.join(folder, "filler")
    try:
        with open(path, "wb", buffering=0) as file:
            while file.write(bytes(4096)):
                pass
    except OSError:
        pass
    return path


def no_room():
    resource.setrlimit(resource.RLIMIT_FSIZE, (100_000, 100_000))


def no_byte():
    resource.setrlimit(resource.RLIMIT_FSIZE, (0, 0))


def little_room():
    """Limits the length of files, so that there is room for the WAL but not for the file."""
    resource.setrlimit(resource.RLIMIT_FSIZE, (400_000, 400_000))


def wait(happens, seconds=SECONDS, pause=0.01):
    """Calls `happens` until it returns a true value, and returns True. Returns False after `seconds`."""
    end = time.monotonic() + seconds
    while not happens():
        if time.monotonic() > end:
            return False
        time.sleep(pause)
    return True


def free_ports(count):
    """Returns ports of loopback that are free."""
    with contextlib.ExitStack() as stack:
        sockets = [stack.enter_context(socket.create_server(("127.0.0.1", 0))) for _ in range(count)]
        return [it.getsockname()[1] for it in sockets]


def has_ended(peer, within):
    """Returns True if csid closes a connection without a further byte, after `within[0]` to `within[1]`
    seconds."""
    begin = time.monotonic()
    try:
        last = peer.recv(1)
    except ConnectionResetError:
        last = b""
    return last == b"" and within[0] <= time.monotonic() - begin <= within[1]


def write(path, text):
    pathlib.Path(path).write_bytes(text)


def read(path):
    return pathlib.Path(path).read_bytes()


@contextlib.contextmanager
def small_disk(folder):
    """Makes a file system of 1 MiB in memory, in a new folder, until the block ends. If mounting is not
    possible, the test is skipped."""
    disk = os.path.join(folder, "disk")
    os.mkdir(disk)
    try:
        _, error, status = run(["mount", "-t", "tmpfs", "-o", "size=1m", "none", disk])
    except OSError as failure:
        error, status = str(failure), 1
    if status != 0:
        raise unittest.SkipTest("no disk can be mounted here: " + error.strip())
    try:
        yield disk
    finally:
        run(["umount", disk])


def copy_for_nobody(csid, folder):
    """Copies csid for the user `nobody`, since root may read every file. Returns the path of the copy, and
    the arguments of `run` that change the user from root to `nobody`. If that is not possible, the test is
    skipped."""
    os.chmod(folder, 0o777)
    copy = shutil.copy(csid, os.path.join(folder, "csid"))
    os.chmod(copy, 0o755)
    how = {"preexec_fn": as_nobody} if os.geteuid() == 0 else {}
    try:
        status = run([copy, "--version"], **how)[2]
    except (OSError, subprocess.SubprocessError) as error:
        status = error
    if status != 0:
        raise unittest.SkipTest("csid cannot be run as nobody: %s" % status)
    return copy, how

"""Runs the parts over the Debian root in the argument."""

import itertools
import os
import signal
import subprocess
import sys
import tempfile
import time

from tests.swarm.engine import Engine, missing
from tests.swarm.parts import begin_checks, form_checks, kill_checks, life_checks, pool_checks
from tests.swarm.swarm import Swarm

# The seconds to wait for an event. Swarm tries a create again after longer and longer pauses.
SECONDS = 120
SIGNALS = [signal.SIGINT, signal.SIGTERM]


def soon(find, wanted):
    """Calls `find` until it returns the expected value, or the time is over. Returns the last value."""
    end = time.monotonic() + SECONDS
    while True:
        found = find()
        if found == wanted or time.monotonic() > end:
            return found
        time.sleep(0.3)


def run(checks):
    """Prints each check until one fails. Returns the numbers of passed and of failed checks."""
    passed = 0
    try:
        for name, find, wanted in checks:
            found = soon(find, wanted)
            if found != wanted:
                print("failed: %s: %r, wanted %r" % (name, found, wanted), flush=True)
                return passed, 1
            passed += 1
            print("passed: " + name, flush=True)
    except (RuntimeError, subprocess.SubprocessError) as why:
        print("failed: %s" % why, flush=True)
        return passed, 1
    return passed, 0


def run_all(engine):
    engine.begin()
    print(engine.docker("version", "--format", "Docker {{.Server.Version}}"))
    swarm = Swarm(engine)
    parts = [begin_checks, life_checks, form_checks, pool_checks, kill_checks]
    return run(itertools.chain.from_iterable(part(swarm) for part in parts))


def main(words):
    if len(words) != 1:
        print("usage: python3 -m tests.swarm ROOT", file=sys.stderr)
        return 2
    faults = list(missing(words[0]))
    for fault in faults:
        print("tests/swarm: " + fault, file=sys.stderr)
    if faults:
        return 2
    for each in SIGNALS:
        signal.signal(each, lambda *_: sys.exit("tests/swarm: it was stopped"))
    with tempfile.TemporaryDirectory() as folder:
        engine = Engine(os.path.abspath(words[0]), folder)
        try:
            passed, failed = run_all(engine)
        finally:
            for each in SIGNALS:
                signal.signal(each, signal.SIG_IGN)
            engine.end()
    print("%d checks passed, %d failed" % (passed, failed))
    return 1 if failed else 0


if __name__ == "__main__":
    sys.exit(main(sys.argv[1:]))

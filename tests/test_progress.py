"""scripts/progress: its reports about a gate, from the lines of the gate and the table of docs/TESTING.md."""

import os
import re
import shutil
import subprocess
import sys
import time

from tests.support.processes import SECONDS, TOP
from tests.support.rows import FilesTest

CRATES = "low:\nmiddle: low\nhigh: middle\n"
START = "%d of 3 crates are kept of earlier runs on this machine; %s at half a second a million"
TABLE = """| crate | proof | wrong bodies | programs |
|---|---|---|---|
| `low` | 600 | | |
| `middle` | 1,200 | 600 | |
| `high` | 2,000 | | 400 |
"""


class ProgressTest(FilesTest):
    """scripts/progress over the lines of a gate, which the test writes. The gate has three crates, and each
    uses the crate before it."""

    def setUp(self):
        super().setUp()
        self.write("crates.txt", CRATES)
        self.write("docs/TESTING.md", TABLE)
        for name in ["progress", "crates.py"]:
            os.makedirs(os.path.join(self.folder, "scripts"), exist_ok=True)
            shutil.copy(os.path.join(TOP, "scripts", name), os.path.join(self.folder, "scripts"))

    def heard(self, *lines, jobs="2", wait=0.0):
        """Gives scripts/progress these lines, the last one after a wait. Returns the lines that it passes on,
        and its reports."""
        run = subprocess.Popen([sys.executable, "-B", "scripts/progress", "1"], cwd=self.folder,
                               env={**os.environ, "RT_JOBS": jobs}, stdin=subprocess.PIPE,
                               stdout=subprocess.PIPE, stderr=subprocess.PIPE, text=True)
        run.stdin.write("".join(line + "\n" for line in lines[:-1]))
        run.stdin.flush()
        time.sleep(wait)
        passed, said = run.communicate(lines[-1] + "\n", timeout=SECONDS)
        self.check("the status", run.returncode, 0)
        return passed.splitlines(), [line.removeprefix("gate: ") for line in said.splitlines()]

    def test_start(self):
        """The remaining steps are divided by the lanes, but are at least the longest chain."""
        kept = "rt: %s is kept: an earlier run on this machine proved the same files"
        lines = ["rt: low proved", "3 passed, 0 failed"]
        passed, said = self.heard(*lines)
        self.check("the lines", passed, lines)
        self.check("from nothing", said, [START % (0, "4,800 million steps in 2 lanes, 35 minutes")])
        _, said = self.heard(kept % "low", kept % "middle", "rt: high proved", jobs="1")
        self.check("one is left", said, [START % (2, "2,400 million steps in 1 lane, 20 minutes")])
        _, said = self.heard(kept % "low", kept % "middle", kept % "high")
        start = "3 of 3 crates are kept of earlier runs on this machine, and nothing is proved again"
        self.check("none is left", said, [start])

    def test_how_far(self):
        """A report counts proved and tried crates, and leaves out kept crates."""
        lines = ["rt: low is kept: an earlier run", "rt: middle proved"]
        lines.append("rt: middle: trying its must-fail edits (2)")
        _, said = self.heard(*lines, "3 passed, 0 failed", wait=4.0)
        told = [re.sub(r"in 1 minute, some \d+ minutes? more$", "in TIME", line) for line in said[1:]]
        self.check("some lines", bool(told), True)
        self.check("each", set(told), {"1 of 2 crates, 43 % of the steps, in TIME"})

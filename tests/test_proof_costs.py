"""scripts/proof-costs: the declarations that count, in files in the checker's format."""

import os
import pathlib
import shutil
import subprocess
import sys

from tests.support.processes import SECONDS, TOP
from tests.support.rows import FilesTest

KEPT = "crates/low/out/incremental/antt/"
MODULE = "Rattle-low-proofs.thing.make.Proof"


def declaration(name, search, kernel, used):
    """Returns the record of a declaration: its key, the number of the check that used it last, and the steps.
    """
    steps = b'[{"aux":[],"name":"%s","notes":[],"spent":null,"steps":[%d,%d,0],"toil":[1,2]}]'
    return b"k" * 32 + bytes([used]) + b"\x08A" + steps % (name.encode(), search, kernel)


class ProofCostsTest(FilesTest):
    """scripts/proof-costs over a crate with one function, and the records of two checks of this crate."""

    def put(self, name, data):
        path = os.path.join(self.folder, name)
        os.makedirs(os.path.dirname(path), exist_ok=True)
        pathlib.Path(path).write_bytes(data)

    def told(self, *declarations, names):
        """Returns the status and the lines of the script for a module with these names and these kept
        declarations."""
        scripts = os.path.join(self.folder, "scripts")
        os.makedirs(scripts, exist_ok=True)
        shutil.copy(os.path.join(TOP, "scripts", "proof-costs"), scripts)
        self.put(KEPT + MODULE + ".oantt", b"".join(b'"name":"%s",' % it.encode() for it in names))
        self.put(KEPT + "records/" + MODULE + ".decls.oantt", b"--@ generation 2\n" + b"".join(declarations))
        ran = subprocess.run([sys.executable, "-B", "scripts/proof-costs", "low"], cwd=self.folder,
                             capture_output=True, text=True, timeout=SECONDS)
        return ran.returncode, ran.stdout.splitlines()

    def test_last_form_counts(self):
        """Of two forms of a declaration the form that was used last counts, in any order."""
        first = declaration("other", 1_000_000, 0, 0)
        old, new = declaration("it", 5_000_000, 1_000_000, 0), declaration("it", 2_000_000, 1_000_000, 1)
        wanted = 0, ["4 in all: Proof 4", "    4.0  thing.make (Proof 4.0)"]
        self.check("the later one last", self.told(first, old, new, names=["it", "other"]), wanted)
        self.check("the later one first", self.told(first, new, old, names=["it", "other"]), wanted)

    def test_what_is_gone(self):
        """A declaration that the module no longer has does not count."""
        gone, now = declaration("gone", 5_000_000, 0, 0), declaration("it", 1_000_000, 2_000_000, 0)
        wanted = 0, ["3 in all: Proof 3", "    3.0  thing.make (Proof 3.0)"]
        self.check("one is gone", self.told(gone, now, names=["it"]), wanted)

    def test_modules_without_steps(self):
        """A module `Lts` counts by the megabytes of its file."""
        self.put(KEPT + "Rattle-low-proofs.thing.make.Lts.oantt", b"x" * 2_000_000)
        lines = self.told(declaration("it", 1_000_000, 0, 0), names=["it"])
        wanted = ["3 in all: Lts 2, Proof 1", "    3.0  thing.make (Lts 2.0, Proof 1.0)"]
        self.assertEqual(lines, (0, wanted))

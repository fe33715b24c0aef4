"""bench/plots: the plots of docs/PERFORMANCE.md match its tables, and a missing table is reported."""

import os
import pathlib
import re
import shutil
import subprocess

from tests.support.processes import SECONDS, TOP
from tests.support.rows import RowTest

PAGE = "docs/PERFORMANCE.md"
OUT_OF_DATE = "plots: docs/plots/%s.svg is out of date: call bench/plots\n"
GONE = "plots: docs/plots/%s.svg is missing, or has no digest: call bench/plots\n"
NOT_SHOWN = "plots: docs/PERFORMANCE.md does not show docs/plots/%s.svg\n"
NO_TABLE = "plots: docs/PERFORMANCE.md, for the plot '%s': '%s' has no table of %s\n"
NO_ROW = "plots: docs/PERFORMANCE.md, for the plot '%s': there is no row '%s..'\n"


class PagesTest(RowTest):
    def test_plots_are_those_of_the_page(self):
        done = subprocess.run([os.path.join(TOP, "bench", "plots"), "--check"], capture_output=True,
                              text=True, timeout=SECONDS)
        self.check("bench/plots --check", (done.returncode, done.stdout, done.stderr), (0, "", ""))


class PlotsTest(RowTest):
    """bench/plots over a copy of the page and its plots."""

    def setUp(self):
        super().setUp()
        for name in ["bench/plots", "bench/drawing.py", PAGE]:
            os.makedirs(os.path.join(self.folder, os.path.dirname(name)), exist_ok=True)
            shutil.copy(os.path.join(TOP, name), os.path.join(self.folder, name))
        shutil.copytree(os.path.join(TOP, "docs/plots"), os.path.join(self.folder, "docs/plots"))
        self.page = pathlib.Path(TOP, PAGE).read_text(encoding="utf-8")

    def checked(self, *words):
        done = subprocess.run(["bench/plots", *words], cwd=self.folder, capture_output=True, text=True,
                              timeout=SECONDS)
        return done.returncode, done.stdout, done.stderr

    def cell(self, begin, number):
        """Returns a cell of the first row of the page that begins with `begin`. The first cell has the number
        1."""
        line = next(line for line in self.page.splitlines() if line.startswith(begin))
        return line.split("|")[number].strip()

    def other(self, begin, number):
        """Returns the first row that begins with `begin`, up to this cell, and the same text with another
        first number in the cell."""
        cell = self.cell(begin, number)
        changed = re.sub(r"\d(?![\d,.])", lambda digit: str((int(digit[0]) + 1) % 10), cell, count=1)
        line = next(line for line in self.page.splitlines() if line.startswith(begin))
        old = line[: line.index("| %s |" % cell) + len(cell) + 4]
        return old, old.replace("| %s |" % cell, "| %s |" % changed)

    def after(self, old, new):
        """Replaces a text in the page. Returns the status, the output and the lines of --check."""
        self.assertIn(old, self.page)
        pathlib.Path(self.folder, PAGE).write_text(self.page.replace(old, new), encoding="utf-8")
        return self.checked("--check")

    def test_changed_numbers_are_reported(self):
        """A plot is out of date if a number or a label of its table has changed."""
        rows = [
            ("a time of a create", *self.other("| a create, from none to 1,000; 10,000;", 2), ["creates"]),
            ("a time of a start", *self.other("| a start over 1,000;", 3), ["start"]),
            ("calls a second", *self.other("| create and delete in turn, on a disk |", 2), ["front"]),
            ("a label", "| probe of 64 KiB |", "| probe of 65 KiB |", ["front"]),
            ("a hostile message", *self.other("| 84 topologies of 2,042 keys |", 2), ["hostile"]),
            ("a number that no plot has", *self.other("| a probe |", 2), []),
            ("a text around a table", "# Performance", "# How fast it is", []),
        ]
        for name, old, new, plots in rows:
            wanted = (1 if plots else 0, "", "".join(OUT_OF_DATE % it for it in plots))
            self.check(name, self.after(old, new), wanted)

    def test_missing_tables_are_reported(self):
        """Each plot whose table, row or numbers are missing is reported, and the others are compared."""
        hostile = NO_TABLE % ("hostile", "Hostile messages", "request, ms, MiB")
        self.check("a table", self.after("| request | ms | MiB |", "| what | ms | MiB |"), (1, "", hostile))
        self.check("a section", self.after("## Hostile messages", "## Messages"), (1, "", hostile))
        start = NO_ROW % ("start", "a start over ")
        self.check("a row", self.after("| a start over 1,000;", "| an end over 1,000;"), (1, "", start))
        times = self.cell("| a start over 1,000;", 2)
        status, _, said = self.after(times, "quick")
        self.check("numbers", (status, said.count("\n"), "'quick'" in said), (1, 1, True))
        status, _, said = self.after(times, "; ".join(times.split("; ")[:2]) + " ms")
        self.check("a number", (status, said.count("\n"), "'a start over ..'" in said), (1, 1, True))
        self.check("it draws none then", self.checked()[0], 1)

    def test_missing_plots_are_reported(self):
        path = os.path.join(self.folder, "docs/plots/front.svg")
        pathlib.Path(path).write_text("<svg/>\n", encoding="utf-8")
        self.check("another file", self.checked("--check"), (1, "", GONE % "front"))
        os.remove(path)
        self.check("no file", self.checked("--check"), (1, "", GONE % "front"))
        said = self.after("](plots/front.svg)", "](plots/back.svg)")
        self.check("a page without it", said, (1, "", GONE % "front" + NOT_SHOWN % "front"))

    def test_arguments_that_are_not_known(self):
        status, out, said = self.checked("--chek")
        usage = ["usage: bench/plots            writes docs/plots/NAME.svg"]
        self.check("another word", (status, out, said.splitlines()[:1]), (2, "", usage))

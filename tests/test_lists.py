"""scripts/lists: the lists of docs/ agree with their sources, and a source without its list is reported."""

import os
import shutil
import subprocess

from tests.support.processes import SECONDS, TOP, read
from tests.support.rows import FilesTest

FIXTURES = os.path.join(TOP, "tests", "fixtures")


def listed(name):
    """Returns a page of tests/fixtures/listed, which has its lists."""
    return read(os.path.join(FIXTURES, "listed", name)).decode()


DIFFERS = "lists: %s differs from its sources: call scripts/lists\n"
ALL_DIFFER = "".join(DIFFERS % "docs/{}.md".format(it) for it in ("ARCHITECTURE", "DECISIONS", "OPERATING"))


class PagesTest(FilesTest):
    def test_lists_are_those_of_their_sources(self):
        done = subprocess.run([os.path.join(TOP, "scripts", "lists"), "--check"], capture_output=True,
                              text=True, timeout=SECONDS)
        self.check("scripts/lists --check", (done.returncode, done.stdout, done.stderr), (0, "", ""))


class ListsTest(FilesTest):
    """scripts/lists over two crates, two records, three limits and five faults."""

    def setUp(self):
        super().setUp()
        os.mkdir(os.path.join(self.folder, "scripts"))
        for name in ["lists", "pages.py"]:
            shutil.copy(os.path.join(TOP, "scripts", name), os.path.join(self.folder, "scripts"))
        self.put("lists")

    def source(self, name):
        name += ".txt" if name.endswith(".rt") else ""
        return read(os.path.join(FIXTURES, "lists", name)).decode()

    def lists(self, *words):
        done = subprocess.run(["scripts/lists", *words], cwd=self.folder, capture_output=True, text=True,
                              timeout=SECONDS)
        return done.returncode, done.stdout, done.stderr

    def test_check_names_pages_and_writes_none(self):
        self.check("--check", self.lists("--check"), (1, "", ALL_DIFFER))
        self.check("the page", self.read("docs/DECISIONS.md"), self.source("docs/DECISIONS.md"))

    def test_lists_are_written(self):
        self.check("writing", self.lists(), (0, "", ""))
        self.check("crates", self.read("docs/ARCHITECTURE.md"), listed("ARCHITECTURE.md"))
        self.check("records", self.read("docs/DECISIONS.md"), listed("DECISIONS.md"))
        self.check("limits and faults", self.read("docs/OPERATING.md"), listed("OPERATING.md"))
        self.check("--check", self.lists("--check"), (0, "", ""))

    def test_contents_are_the_headings_of_a_page(self):
        """The title of the page and lines of code are left out."""
        page = "# Page\n\n%s\n## A part\n\n```\n## code\n```\n\n### A `b`, and 2\n\n## Rest\n"
        place = "<!-- scripts/lists: contents -->\n%s<!-- end -->\n"
        items = "\n- [A part](#a-part)\n  - [A `b`, and 2](#a-b-and-2)\n- [Rest](#rest)\n\n"
        self.write("docs/PAGE.md", page % (place % "- [Old](#old)\n"))
        self.check("writing", self.lists(), (0, "", ""))
        self.check("the page", self.read("docs/PAGE.md"), page % (place % items))

    def test_page_of_more_than_150_lines_needs_contents(self):
        self.lists()
        self.write("docs/PAGE.md", "A line.\n" * 150)
        self.check("150 lines", self.lists("--check"), (0, "", ""))
        self.write("docs/PAGE.md", "A line.\n" * 151)
        missing = "lists: docs/PAGE.md has 0 places for the list 'contents'\n"
        self.check("151 lines", self.lists("--check"), (1, "", missing))

    def test_sources_without_a_list_are_refused(self):
        rows = [
            ("docs/DECISIONS.md", "no place\n", "docs/DECISIONS.md has 0 places for the list 'decisions'"),
            ("docs/DECISIONS.md", self.source("docs/DECISIONS.md") * 2,
             "docs/DECISIONS.md has 2 places for the list 'decisions'"),
            ("docs/decisions/0002-two.md", "# Another\n\nState: kept.\n",
             "docs/decisions/0002-two.md does not begin with a title and a date"),
            ("crates/high/src/main.rt", "mod command;\n",
             "crates/high/src/main.rt does not begin with a sentence on the crate"),
            ("crates/csi_config/src/fault.rt",
             "pub enum Fault {\n    /// There is no pool.\n    #[error(\"no pool\")]\n    NoPool,\n}\n",
             "crates/csi_config/src/fault.rt has no texts of ConfigFault"),
            ("crates/csi_types/src/limits.rt",
             "/// The most.\npub const MOST: u64 = 1;\npub const OTHER: u64 = 2;\n",
             "crates/csi_types/src/limits.rt says nothing of OTHER"),
        ]
        for name, text, fault in rows:
            self.write(name, text)
            self.check(name, self.lists(), (1, "", "lists: %s\n" % fault))
            self.write(name, self.source(name))
        os.remove(os.path.join(self.folder, "crates/high/src/main.rt"))
        missing = "lists: crates/high has no src/lib.rt and no src/main.rt\n"
        self.check("no source", self.lists(), (1, "", missing))

    def test_arguments_that_are_not_known(self):
        usage = "usage: scripts/lists [--check]\n"
        self.check("another word", self.lists("--chek"), (2, "", usage))

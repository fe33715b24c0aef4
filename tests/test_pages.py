"""scripts/check-pages and scripts/theorems, over a repository with a few files."""

import os
import shutil
import subprocess

from tests.support.processes import SECONDS, TOP, read
from tests.support.rows import FilesTest

FIXTURES = os.path.join(TOP, "tests", "fixtures")
# The output of scripts/theorems for the crate of tests/fixtures/pages, and files of that repository.
PAGE, INDEX, TESTING, EDITS, LAWS = [
    read(os.path.join(FIXTURES, name)).decode()
    for name in ("low.md", "pages/docs/theorems/README.md", "pages/docs/TESTING.md",
                 "pages/tests/edits/low.edits", "pages/crates/low/src/laws.rt.txt")]
# The table in the index of these sources.
TABLE = """<!-- scripts/theorems -->

|crate|public functions|laws|wrong bodies|of these in the merge gate|
|---|---|---|---|---|
|[`low`](../../crates/low/src)|2|1|2|0|

<!-- end -->
"""
CHANGED = (
    "docs/theorems/README.md is not what scripts/theorems makes of the sources: call it, and commit what it"
    " writes"
)
LACKING = "low::double has no wrong body and no reason (docs/theorems/README.md)"
USAGE = "usage: scripts/theorems CRATE..    prints a page for each crate"


class ScriptTest(FilesTest):
    """A script over a repository of one crate."""

    def setUp(self):
        super().setUp()
        self.put("pages")
        os.mkdir(os.path.join(self.folder, "scripts"))
        for name in ["check-pages", "theorems", "crates.py", "edits.py", "pages.py"]:
            shutil.copy(os.path.join(TOP, "scripts", name), os.path.join(self.folder, "scripts"))

    def ended(self, name, *words):
        """Returns the status of a script, and its lines."""
        done = subprocess.run([os.path.join(self.folder, "scripts", name), *words], cwd=self.folder,
                              stdout=subprocess.PIPE, stderr=subprocess.STDOUT, text=True,
                              timeout=10 * SECONDS)
        return done.returncode, done.stdout.splitlines()


class CheckPagesTest(ScriptTest):
    def places(self, rows, *words):
        """Runs check-pages over a page with a paragraph for each row. Returns the status, and the reports by
        line number."""
        self.write("docs/PAGE.md", "\n\n".join(text for _, text, _ in rows))
        status, lines = self.ended("check-pages", *words, "docs/PAGE.md")
        said = {}
        for line in lines:
            page, number, what = line.split(":", 2)
            self.assertEqual(page, "docs/PAGE.md")
            said.setdefault(int(number), []).append(what.strip())
        return status, said

    def compare(self, rows, *words):
        status, said = self.places(rows, *words)
        self.check("the status", status, 1)
        for number, (name, _, wanted) in enumerate(rows):
            self.check(name, said.pop(2 * number + 1, []), wanted)
        self.check("other lines", said, {})

    def test_dead_links_and_names(self):
        """Each link and each name that leads nowhere is reported."""
        sums = "../crates/low/src/sums.rt"
        self.write("docs/OTHER.md", "# Other\n\n## A part\n")
        self.write("tests/test_sums.py", "class LowTest:\n    def test_sum(self):\n        test_low()\n")
        rows = [
            ("a file", "[it](%s)" % sums, []),
            ("no file", "[it](../crates/low/src/none.rt)", ["dead link: ../crates/low/src/none.rt"]),
            ("a heading", "[it](OTHER.md#a-part)", []),
            ("no heading", "[it](OTHER.md#a-whole)", ["dead link: docs/OTHER.md has no heading of a-whole"]),
            ("a clause", "[`few`](%s)" % sums, []),
            ("no clause", "[`most`](%s)" % sums, ["dead link: crates/low/src/sums.rt has no most"]),
            ("a path", "It is in crates/low/src.", []),
            ("no path", "It is in crates/high.", ["no such file: crates/high"]),
            ("a section", 'See docs/OTHER.md, "A part".', []),
            ("no section", 'See docs/OTHER.md, "All".', ["no such section: All of docs/OTHER.md"]),
            ("no option", "Call `low --quick`.", ["no such option: --quick"]),
            ("no crate", "It is in `csi_low`.", ["no such crate: csi_low"]),
            ("a test", "`test_low` of `tests/test_sums.py` has `LowTest.test_sum`.", []),
            ("no test", "`test_high` of `HighTest`", ["no such test: HighTest", "no such test: test_high"]),
            ("a clause of it", "`few` and `value` of `low::double`", []),
            ("no clause of it", "`few` of `low::half`", ["no such clause: few of low::half"]),
            ("a clause of another function", "`shifted` of `double`", ["no such clause: shifted of double"]),
            ("no path in code", "```\ncrates/high\n```", []),
        ]
        self.compare(rows)

    def test_words_of_a_link_go_on_in_the_next_line(self):
        self.write("docs/PAGE.md", "# Page\n\nIt is [a\nlink](OTHER.md).\n")
        wanted = ["docs/PAGE.md:3: dead link: OTHER.md"]
        self.check("the line in which it begins", self.ended("check-pages", "docs/PAGE.md"), (1, wanted))

    def test_style(self):
        """Long sentences and lines are reported only with --style."""
        words = "word " * 35
        rows = [
            ("code", "It is `else`.", []),
            ("a wide line", "It is %s." % ("w" * 110), ["117 columns"]),
            ("a wide row", "| It is %s |" % ("w" * 110), []),
            ("a wide row of an item", "   | It is %s |" % ("w" * 110), []),
            ("a line of 110 columns", "It is %s." % ("w" * 103), []),
            ("a line of 111", "It is %s." % ("w" * 104), ["111 columns"]),
            ("36 words", "a " * 35 + "a", ["36 words: " + "a " * 35 + ".."]),
            ("35 words", words[:100] + "\n" + words[100:], []),
        ]
        self.compare(rows, "--style")
        self.check("without --style", self.places(rows), (0, {}))

    def test_place_of_a_long_sentence_is_its_first_line(self):
        self.write("docs/PAGE.md", "# Page\n\nIt takes 12 ms, and so\n%sare too many.\n" % ("word " * 35))
        _, said = self.ended("check-pages", "--style", "docs/PAGE.md")
        self.check("44 words", said[0][:34], "docs/PAGE.md:3: 44 words: It takes")

    def test_most_long_sentences(self):
        long = "a " * 35 + "a.\n\n"
        for name, page, status in [("20 long sentences", long * 20, 0), ("21 long sentences", long * 21, 1)]:
            self.write("docs/PAGE.md", page)
            self.check(name, self.ended("check-pages", "--style", "docs/PAGE.md")[0], status)


class TheoremsTest(ScriptTest):
    def test_page_of_a_crate(self):
        """The page has the public functions and laws of the crate, and the private functions with a wrong
        body."""
        self.check("printed", self.ended("theorems", "low"), (0, PAGE.splitlines()))
        self.check("the index", self.read("docs/theorems/README.md"), INDEX)

    def test_word_that_is_no_crate(self):
        status, lines = self.ended("theorems", "low", "high")
        self.check("the status and the first line", (status, lines[0]), (2, USAGE))

    def test_table_of_the_index_is_written(self):
        self.check("made", self.ended("theorems"), (0, []))
        wanted = INDEX.replace("<!-- scripts/theorems -->\n<!-- end -->\n", TABLE)
        self.check("its text", self.read("docs/theorems/README.md"), wanted)
        self.check("compared", self.ended("theorems", "--check"), (0, []))

    def test_table_that_differs_is_refused_and_not_written(self):
        self.ended("theorems")
        self.write("crates/low/src/laws.rt", LAWS.replace("pub fn", "fn"))
        self.check("compared", self.ended("theorems", "--check"), (1, [CHANGED]))
        self.check("again", self.ended("theorems", "--check"), (1, [CHANGED]))
        self.check("made", self.ended("theorems"), (0, []))
        self.check("then compared", self.ended("theorems", "--check"), (0, []))

    def write_reason(self, name):
        reason = "\n- `%s`: a sum\n  of two\n" % name
        self.write("docs/theorems/README.md", INDEX.replace("body\n", "body\n" + reason))

    def test_public_function_needs_a_wrong_body_or_a_reason(self):
        self.write("tests/edits/low.edits", EDITS.partition("\n\n")[2])
        self.check("no reason", self.ended("theorems"), (1, [LACKING]))
        self.write_reason("low::double")
        self.check("a reason", self.ended("theorems"), (0, []))
        row = "|[`double`](crates/low/src/sums.rt)|Twice a number.|`few` / `value`|none: a sum of two|"
        self.check("its row", row in self.ended("theorems", "low")[1], True)

    def test_reason_that_nothing_needs_is_refused(self):
        self.write_reason("low::double")
        unneeded = "low::double needs no reason (docs/theorems/README.md)"
        self.check("a reason too many", self.ended("theorems"), (1, [unneeded]))

    def test_names_of_no_crate_or_function_are_refused(self):
        self.write_reason("none::double")
        index = self.read("docs/theorems/README.md")
        met = "\n- `low::half`: a half\n- `low`: a length\n- `low::third`: a third\n"
        self.write("docs/theorems/README.md", index + met)
        self.write("docs/TESTING.md", TESTING + "| `other` | A name | all tests |\n")
        wanted = ["docs/theorems/README.md has a reason of no crate: none::double",
                  "docs/theorems/README.md names no function: low::third",
                  "docs/TESTING.md has a row of no crate: other"]
        self.check("each is named", self.ended("theorems"), (1, wanted))

    def test_what_tests_hold_is_on_the_page_of_the_crate(self):
        self.write("docs/TESTING.md", TESTING + "| `low` | A length | all tests |\n| `low` | A sum | one |\n")
        held = ["", "## Held by tests alone", "", "|what no clause forbids|tests that hold it|", "|---|---|",
                "|A length|all tests|", "|A sum|one|"]
        self.check("the page", self.ended("theorems", "low"), (0, PAGE.splitlines() + held))

    def test_name_that_no_test_has_is_refused(self):
        self.write("tests/test_low.py", 'ROWS = [("a length: 1", 1), ("of two", 2)]\n')
        self.write("crates/test_low/stdin", "sum 1 2\n")
        self.write("go/low/low_test.go", "func TestLow() {}\n")
        names = ["a length: ..", "a .. 1", "of two", "sum 1 2", "TestLow", "tests/test_low.py"]
        names += ["two", "1 .. length", "TestHigh", "test_low", "tests/test_high.py"]
        self.write("docs/TESTING.md", TESTING + "| `low` | A | `%s` |\n" % "`, `".join(names))
        wanted = ["docs/TESTING.md names no test: %s" % it for it in names[-5:]]
        self.check("each is named", self.ended("theorems"), (1, wanted))

    def test_section_that_is_missing_is_refused(self):
        self.write("docs/theorems/README.md", INDEX.partition("\n## Wrong")[0].replace("<!-- end -->\n", ""))
        self.write("docs/TESTING.md", "# Tests\n")
        wanted = ["docs/theorems/README.md has no section 'Wrong bodies that meet each clause'",
                  "docs/TESTING.md has no section 'Held by tests alone'",
                  "docs/theorems/README.md has no place for the table"]
        self.check("each is named", self.ended("theorems", "--check"), (1, wanted))

    def test_name_in_the_reason_of_a_wrong_body_exists(self):
        """The name is a word of the crate, or of a crate that it uses."""
        self.write("crates.txt", "low:\nhigh: low\n")
        self.write("crates/high/src/lib.rt", "//! Sums.\n")
        self.write("crates/high/specs/Sums.antt", "IsSum : ℕ → Type 0\n")
        edit = "edit: sums\nreason: `half` of `IsSum` and `Unknown`\nfile: src/lib.rt\nold: Sums\nnew: Sum\n"
        self.write("tests/edits/high.edits", edit)
        self.write("tests/edits/low.edits", EDITS.replace("file", "reason: `IsSum`\nfile", 1))
        wanted = ["the reason of low/double_of_one names what does not exist: IsSum",
                  "the reason of high/sums names what does not exist: Unknown"]
        self.check("each is named", self.ended("theorems"), (1, wanted))

    def test_wrong_body_of_no_function_has_a_line_of_its_own(self):
        edit = "\nedit: no_laws\nfile: src/lib.rt\nold: pub mod laws;\nnew: mod laws;\n"
        self.write("tests/edits/low.edits", EDITS + edit)
        self.check("it", "Of no one function: `no_laws`." in self.ended("theorems", "low")[1], True)

    def test_head_of_a_function_is_no_call(self):
        """The head of a trait's method with the name of a private function does not call that function."""
        trait = "/// Shifts.\npub trait Shift {\n    fn shifted(n: u64);\n}\n"
        self.write("crates/low/src/laws.rt", trait + LAWS)
        row = "|[`Shift::shifted`](crates/low/src/laws.rt)||-|(no body)|"
        self.check("its row", row in self.ended("theorems", "low")[1], True)

"""The names of the vectors in tests/vectors, and the files of rows."""

import os
from unittest import mock

from tests.support.rows import FilesTest
from tests.vectors import corpus
from tests.vectors.rows import STEPS, Plain, Words


class VectorsTest(FilesTest):
    def groups_of(self, text, reader=Plain, **words):
        """Returns the groups of a file with this text, or the text of the fault in it."""
        self.write("rows.txt", text)
        try:
            return reader(os.path.join(self.folder, "rows.txt"), **words).groups
        except ValueError as error:
            return os.path.basename(str(error))

    def test_row_is_a_frame_and_its_reply(self):
        probe = b"\0\x16/csi.v1.Identity/Probe\0\0\0\0\2ab", b"\0\0\0\0\0\0\0\1c"
        text = "= a title\nWORD = 61\nname | Probe WORD 62 | ok 63*1\n"
        self.assertEqual(self.groups_of(text), {"a title": {"name": [probe]}})

    def test_refusal_has_the_digits_and_the_text(self):
        refusal = b"\3\0\2no\0\0\0\0\0"
        text = "= a title\nname\n  bytes 00 | 030002 no\n"
        self.assertEqual(self.groups_of(text), {"a title": {"name": [(b"\0", refusal)]}})

    def test_row_in_words_has_named_steps_and_a_call(self):
        one, two, three = (b"a", b"b"), (b"a", b"c"), (b"d", b"e")
        text = ("= a title\nONE = b'a', b'b'\nTWO = [ONE, (b'a', b'c')]\n"
                "name | ONE | b'd' | b'e'\nmore\n  ONE, TWO\n  b'd' |\n    b'e'\n")
        groups = {"a title": {"name": [one, three], "more": [one, one, two, three]}}
        self.assertEqual(self.groups_of(text, Words), groups)

    def test_unknown_word_in_words_is_refused(self):
        groups = self.groups_of("= a title\nname | WORD | DONE\n", Words, words=STEPS)
        self.assertRegex(groups, "^rows.txt:2: ")

    def test_name_twice_is_refused(self):
        text = "= a title\nname | Probe | ok\nname | Probe | ok\n"
        self.assertRegex(self.groups_of(text), "^rows.txt:3: .*second time")

    def test_unknown_word_is_refused(self):
        self.assertRegex(self.groups_of("= a title\nname | Probe WORD | ok\n"), "^rows.txt:2: ")

    def test_name_in_two_groups_is_refused(self):
        groups = [{"a title": {"name": []}}, {"another": {"name": []}}]
        with mock.patch.object(corpus, "GROUPS", groups):
            self.assertRaisesRegex(ValueError, "not the only one: name", corpus.lines)

    def test_name_with_a_space_is_refused(self):
        with mock.patch.object(corpus, "GROUPS", [{"a title": {"a name": []}}]):
            self.assertRaisesRegex(ValueError, "malformed.*: a name", corpus.lines)

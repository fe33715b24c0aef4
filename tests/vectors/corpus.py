"""All vectors, in the order of printing."""

import collections
import re

from tests.vectors.families import CUT, MODES, PAIRS
from tests.vectors.rows import plain, words

HEAD = """\
# Test vectors of the server: what it writes for a stream of calls, byte for byte.
#
# A line is NAME INPUT OUTPUT, with one space between. INPUT is all that a new server reads until its end: the
# frames of calls, one after the other. OUTPUT is all that it writes: the frames of replies. Both are lower
# case hexadecimal, two digits a byte, and '-' is no bytes. The server has the sample configuration
# (docs/OPERATING.md), no volumes, and memory enough. An empty line, and one that begins with '#', is skipped.
# NAME says what the vector pins.
#
# The bytes are made by tests/vectors, which has the same rows in words: each call is put together by the
# Protocol Buffers encoding guide and the tables of docs/PROTOCOL.md, and after it comes the reply that was
# worked out for it by hand from docs/PROTOCOL.md and docs/MACHINE.md. No output of a program was copied."""

SUBJECTS = """
    create_fields capabilities maps malformed fields checks limits create_volume modify_volume delete_volume
    publish_volume validate_volume list_volumes get_capacity streams""".split()
# The groups in order. Each has a title, and the steps of each name.
GROUPS = [plain("calls"), CUT, plain("arguments"), MODES, plain("modes"), plain("modify"), PAIRS,
          words("identity"), words("frames"), plain("wire"), *map(words, SUBJECTS)]


def all_vectors():
    """Returns all vectors, as pairs of a title and its vectors."""
    return [(title, vectors) for groups in GROUPS for title, vectors in groups.items()]


def names():
    """Returns the names of all vectors. Raises ValueError if a name is malformed, or is the name of two
    vectors."""
    counts = collections.Counter(name for _, vectors in all_vectors() for name in vectors)
    for name, count in counts.items():
        if not re.fullmatch("[a-z0-9]+(-[a-z0-9]+)*", name) or count != 1:
            raise ValueError("a name that is malformed, or not the only one: " + name)
    return list(counts)


def line(name, steps):
    """Returns a vector as a line for `csictl vectors`: NAME INPUT OUTPUT."""
    sides = [b"".join(step[side] for step in steps).hex() or "-" for side in (0, 1)]
    return " ".join([name, *sides])


def lines():
    """Returns the lines of all vectors, without the head."""
    names()
    out = []
    for title, vectors in all_vectors():
        out += ["", "# " + title, *(line(name, steps) for name, steps in vectors.items())]
    return out

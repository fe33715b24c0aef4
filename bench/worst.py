"""The most expensive messages of about 1 MiB that are known: rows of crates/test_bytes/stdin, and creates for
the volume machine.

The head of the section codec in crates/test_bytes/stdin describes the notation of a message.
"""
import os
import re

import streams

TOP = os.path.dirname(os.path.dirname(os.path.abspath(__file__)))
STDIN = os.path.join(TOP, "crates", "test_bytes", "stdin")
BEGIN = "@ codec\n"
SECTION = "# Hostile messages"


def hostile_rows():
    with open(STDIN, encoding="utf-8") as stdin:
        section = stdin.read().partition(BEGIN)[2].partition(SECTION)[2].partition("\n\n")[0]
    return [line for line in section.split("\n")[1:] if not line.startswith("#")]


def method_and_message(row):
    name, _, notation = row.split(" ", 2)
    return name.encode(), expand(notation)


def shrunk(notation, most):
    """Returns the notation with at most `most` repetitions of each part."""
    return re.sub(r"\*(\d+)", lambda times: "*%d" % min(int(times[1]), most), notation)


def closing(text, at):
    """Returns the index of the bracket that closes the bracket before index `at`. Brackets in quotes do not
    count. Raises ValueError if there is no such bracket."""
    depth, quoted = 0, False
    for place in range(at, len(text)):
        character = text[place]
        if character == '"':
            quoted = not quoted
        elif not quoted and character in "([":
            depth += 1
        elif not quoted and character in ")]":
            if depth == 0:
                return place
            depth -= 1
    raise ValueError("a bracket is not closed: " + text)


def expand(text, count=0):
    out, at = bytearray(), 0
    while at < len(text):
        first, inside = text[at], None
        if first == " ":
            at += 1
            continue
        if first == '"':
            end = text.index('"', at + 1)
            part = text[at + 1 : end].encode()
        elif first in "([":
            end = closing(text, at + 1)
            inside = text[at + 1 : end]
            part = None
            if first == "(":
                part = expand(inside, count)
                part = streams.varint(len(part)) + part
        elif first == "#":
            end = at + 1
            part = bytes(count >> 6 * place & 63 for place in reversed(range(int(text[end]))))
        else:
            end = at + 1
            part = bytes.fromhex(text[at : at + 2])
        at = end + 1
        times = re.match(r"\*(\d+)", text[at:])
        at += times.end() if times else 0
        for before in range(int(times[1]) if times else 1):
            out += expand(inside, before) if part is None else part
    return bytes(out)


# Each pool has the empty segments 'a' to 'g', and a segment 'h'. A term with 'a' to 'g' and without 'h' must
# be compared to its end.
CONFIG = """name = "hostile.example.org"
vendor_version = "1"
default_bytes = 1048576
greatest_bytes = 8388608
""" + "".join(
    """
[[pool]]
name = "p%d"
bytes = 1099511627776
segments = { a = "", b = "", c = "", d = "", e = "", f = "", g = "", h = "%d" }
"""
    % (number, number)
    for number in range(1, 17)
)
SEVEN = "".join('0a(0a("%s"))' % key for key in "abcdefg")
NAMED = '0a("a")'
BLOCK = "1a(0a() 1a(0801))"
LONG_TYPE = "1a(12(0a(7a*125 #3)) 1a(0801))"
MOUNTS = "[1a(12(0a(#3)) 1a(0801))]*80600"


def shuffled(count):
    """Returns the notation of `count` segments. Each key is a letter and another character. The order of the
    keys by bytes differs from their order without case."""
    second = [it for it in map(chr, range(33, 127)) if it != '"' and not it.isupper()]
    keys = [one + other for other in second for one in "hijklmnopqrstuvwxyzabcdefg"][:count]
    for place, key in enumerate(keys):
        upper = (7 * place + place // 3 + place // 26) % 2 == 0
        keys[place] = key.upper() if upper and place % 5 < 2 else key[0].upper() + key[1] if upper else key
    return "".join('0a(0a("%s"))' % key for key in keys)


FEW = SEVEN + '[0a(0a("z" #1))]*25'
MARKED = SEVEN + '[0a(0a("z" #1))]*26'
LARGE = SEVEN + "[0a(0a(#2))]*2035"

# The replies: a volume of the pool p1, or a refusal.
VOLUME = ('0a(08808040 12("vol-%d") 1a(0a("pool") 12("p1")) 2a('
          + SEVEN.replace('"))', '") 1200)')
          + '0a(0a("h") 12("1"))))')
NO_ROOM = (8, "no room in the topology")
OTHER = (6, "volume exists and is not compatible")

# For each row: its name, the creates that come before, the measured create, and its answer, which is the
# number of a volume or a refusal.
CREATES = [
    ("116,000 preferred of one key", [], NAMED + BLOCK + "3a([12(0a(0a(#3)))]*116000)", 1),
    ("116,000 requisite of one key", [], NAMED + BLOCK + "3a([0a(0a(0a(#3)))]*116000)", NO_ROOM),
    ("262,000 preferred of an empty key", [], NAMED + BLOCK + "3a([12(0a())]*262000)", 1),
    ("23,000 preferred with seven keys and one more", [],
     NAMED + BLOCK + "3a([12(" + SEVEN + '0a(0a("z" #3)))]*23000)', 1),
    ("5,400 preferred of 32 keys", [], NAMED + BLOCK + "3a([12(" + FEW + ")]*5400)", 1),
    ("5,200 preferred of 33 keys", [], NAMED + BLOCK + "3a([12(" + MARKED + ")]*5200)", 1),
    ("5,200 requisite of 33 keys", [], NAMED + BLOCK + "3a([0a(" + MARKED + ")]*5200)", NO_ROOM),
    ("84 preferred of 2,042 keys", [], NAMED + BLOCK + "3a([12(" + LARGE + ")]*84)", 1),
    ("84 requisite of 2,042 keys", [], NAMED + BLOCK + "3a([0a(" + LARGE + ")]*84)", NO_ROOM),
    ("5,200 preferred of 33 keys out of order", [],
     NAMED + BLOCK + "3a([12(" + SEVEN + shuffled(26) + ")]*5200)", 1),
    ("700 preferred of 240 keys out of order", [],
     NAMED + BLOCK + "3a([12(" + SEVEN + shuffled(233) + ")]*700)", 1),
    ("100 preferred of 1,700 keys out of order", [],
     NAMED + BLOCK + "3a([12(" + SEVEN + shuffled(1700) + ")]*100)", 1),
    ("80,600 mounts", [], NAMED + MOUNTS, 1),
    ("80,600 mounts, again", [NAMED + MOUNTS], NAMED + MOUNTS, 1),
    ("7,400 mounts of long types, again", [NAMED + "[%s]*7400" % LONG_TYPE], NAMED + "[%s]*7400" % LONG_TYPE,
     1),
    ("131,000 times one block, again", [NAMED + MOUNTS], NAMED + "[%s]*131000" % BLOCK, OTHER),
    ("116,000 requisite of one key, again", [NAMED + BLOCK], NAMED + BLOCK + "3a([0a(0a(0a(#3)))]*116000)",
     OTHER),
    ("84 requisite of 2,042 keys, again", [NAMED + BLOCK], NAMED + BLOCK + "3a([0a(" + LARGE + ")]*84)",
     OTHER),
]


def create(notation):
    return streams.call(b"CreateVolume", expand(notation))


def replied(answer):
    """Returns the reply frame of an answer, which is the number of a volume or a refusal."""
    return streams.reply(expand(VOLUME % answer)) if isinstance(answer, int) else streams.refusal(*answer)

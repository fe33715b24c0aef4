"""Frames of csid's envelope (docs/PROTOCOL.md), and calls for the sample configuration."""

import os
import pathlib

from tests.support.processes import TOP
from tests.vectors.messages import controller, frame, refusal, reply, unhex
from tests.vectors.rows import Plain

VERSION = pathlib.Path(TOP, "VERSION").read_bytes().strip()
PROBE = b"/csi.v1.Identity/Probe"
INFO = b"/csi.v1.Identity/GetPluginInfo"


def fault(text):
    """Returns the last reply to a malformed stream, the line on standard error, and the exit status."""
    return refusal(3, text), "csid: " + text + "\n", 1


READY = unhex("00 0000 00 00000004 0a020801")
NAMED = reply(unhex("0a11 706f6f6c732e6578616d706c652e6f7267 1205 312e302e30"))
UNKNOWN = unhex("0c 000e 756e6b6e6f776e206d6574686f64 00 00000000")
READ_FAILED = "csid: a read of standard input failed\n"
WRITE_FAILED = "csid: a write to standard output failed\n"
NO_MEMORY = "csid: out of memory\n"

# An unknown field of 1,048,576 bytes: its tag, a length of three bytes, and the payload.
LONGEST = unhex("7a fcff3f") + b"x" * 1048572

SAMPLE = Plain("plain/frames.txt")
CREATE_A, CREATE_B, VOL_1, VOL_2, BLOCK, VOLUME_1, VOLUME_2, WRITER = map(SAMPLE.words.get, (
    "CREATE_A", "CREATE_B", "VOL_1", "VOL_2", "BLOCK", "VOLUME_1", "VOLUME_2", "WRITER"))
[CALLS] = SAMPLE.groups["Calls over one another's volumes"].values()
ASKED = b"".join(call for call, _ in CALLS)
ANSWERED = b"".join(answer for _, answer in CALLS)

# A create of 3 MiB. A p1 of 1 MiB has no room for it, so p2 gets it. Without segments no topology is in the
# reply.
CREATE_3_MIB = controller("CreateVolume", unhex("0a0161 1205 088080c001 1a06 0a00 1a020801"))
OF_P2 = unhex("0a25 088080c001 1205 766f6c2d31 1a0a 0a04706f6f6c 12027032 2a0b 0a09 0a047a6f6e65 120162")

# 'vol-1' of 2 MiB under a default size of 2 MiB, and 'vol-1' of a pool q1 in the rack r.
OF_2_MIB = unhex("0a25 0880808001 1205 766f6c2d31 1a0a 0a04706f6f6c 12027031 2a0b 0a09 0a047a6f6e65 120161")
OF_Q1 = unhex("0a24 08808040 1205 766f6c2d31 1a0a 0a04706f6f6c 12027131 2a0b 0a09 0a047261636b 120172")


def listed(number, *nodes):
    """Returns an entry of a page: a volume like 'vol-1', and its nodes, whose ids have two bytes."""
    at = b"".join(b"\x0a\x02" + node for node in nodes)
    entry = VOLUME_1.replace(b"vol-1", b"vol-%d" % number) + bytes([0x12, len(at)]) + at
    return bytes([0x0A, len(entry)]) + entry


ONE = reply(unhex("0a28") + VOLUME_1 + unhex("1200"))

# The names of access modes by number, from 1 on (CSI specification, 'CreateVolume',
# VolumeCapability.AccessMode.Mode).
MODE_NAMES = ("SINGLE_NODE_WRITER", "SINGLE_NODE_READER_ONLY", "MULTI_NODE_READER_ONLY",
              "MULTI_NODE_SINGLE_WRITER", "MULTI_NODE_MULTI_WRITER", "SINGLE_NODE_SINGLE_WRITER",
              "SINGLE_NODE_MULTI_WRITER")

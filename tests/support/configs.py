"""Configurations of csid: the sample, its parts and changes, and configurations that are refused."""

from tests.support.data import tables
from tests.support.processes import fixture


# The sample configuration as text (docs/OPERATING.md).
SAMPLE = fixture("sample.toml")
LARGE_POOL = fixture("large-pool.toml")


def sample(*changes):
    """Returns the sample configuration, with the first occurrence of each text replaced. Raises ValueError if
    it lacks a text."""
    text = SAMPLE
    for old, new in changes:
        if old not in text:
            raise ValueError("the sample has no " + repr(old))
        text = text.replace(old, new, 1)
    return text


POOLS = SAMPLE[SAMPLE.index(b"[[pool]]") : SAMPLE.index(b"[[node]]")]
NODES = SAMPLE[SAMPLE.index(b"[[node]]") :]
SEGMENTS = b'segments = { zone = "a" }'


# These make further pools and nodes for the sample.
def pools(count):
    return b"".join(b'[[pool]]\nname = "q%d"\nbytes = 1048576\n' % number for number in range(count))


def nodes(count):
    return b"".join(b'[[node]]\nid = "m%d"\nmax_volumes = 1\n' % number for number in range(count))


REFUSED, FAULTS = tables("configs", globals()).values()

"""Makes streams of calls for the benches, with the expected replies (docs/PROTOCOL.md, docs/MACHINE.md).

The configuration has one pool of 2^62 bytes without segments, and the node n1. The volume with the number N
has 1 MiB and the id vol-N. Its name is vN, unless a function gets another `name`.
"""
import contextlib
import sqlite3
import subprocess
import uuid

MIB = 1 << 20
POOL_BYTES, GREATEST_BYTES = 1 << 62, 8 * MIB
CONFIG = b"""name = "bench.example.org"
vendor_version = "1"
default_bytes = 1048576
greatest_bytes = %d

[[pool]]
name = "p"
bytes = %d

[[node]]
id = "n1"
max_volumes = 100000
""" % (GREATEST_BYTES, POOL_BYTES)
WRITER = bytes.fromhex("0a11 0a08 726561646f6e6c79 1205 66616c7365")
BLOCK = bytes.fromhex("1a06 0a00 1a020801")


def varint(number):
    out = bytearray()
    while number > 127:
        out.append(number % 128 + 128)
        number //= 128
    return bytes(out + bytes([number]))


def part(number, payload):
    """Returns the encoding of a field of wire type 2 with this payload."""
    return varint(8 * number + 2) + varint(len(payload)) + payload


def call(method, message, service=b"Controller"):
    path = b"/csi.v1." + service + b"/" + method
    return len(path).to_bytes(2, "big") + path + b"\0" + len(message).to_bytes(4, "big") + message


def reply(body=b""):
    return bytes(4) + len(body).to_bytes(4, "big") + body


def refusal(code, text):
    return bytes([code]) + len(text).to_bytes(2, "big") + text.encode() + bytes(5)


def probe(message=b""):
    return call(b"Probe", message, b"Identity"), reply(bytes.fromhex("0a020801"))


def volume_id(number):
    return b"vol-%d" % number


def volume(number):
    """Returns field 1 of a message, with the volume of this number: 1 MiB of the pool 'p', without a
    topology."""
    context = part(3, part(1, b"pool") + part(2, b"p"))
    return part(1, bytes.fromhex("08808040") + part(2, volume_id(number)) + context)


def short_name(number):
    return b"v%d" % number


def alike_name(number):
    """Returns a name of 12 bytes. The first six bytes of all names are the same."""
    return b"volume%06d" % number


def claim_name(number):
    """Returns a name as csi-provisioner makes it for a claim."""
    return b"pvc-%s" % str(uuid.uuid5(uuid.NAMESPACE_URL, str(number))).encode()


def create(number, name=short_name):
    return call(b"CreateVolume", part(1, name(number)) + BLOCK), reply(volume(number))


def publish(number):
    message = part(1, volume_id(number)) + part(2, b"n1") + BLOCK
    return call(b"ControllerPublishVolume", message), reply(WRITER)


def unpublish(number):
    return call(b"ControllerUnpublishVolume", part(1, volume_id(number)) + part(2, b"n1")), reply()


def delete(number):
    return call(b"DeleteVolume", part(1, volume_id(number))), reply()


def capacity(standing):
    """Returns a GetCapacity call, and its reply while `standing` volumes exist."""
    free = b"\x08" + varint(POOL_BYTES - standing * MIB)
    return call(b"GetCapacity", b""), reply(free + part(2, b"\x08" + varint(GREATEST_BYTES)))


def page(after, entries, last, published=()):
    """Returns a ListVolumes call and its reply: at most `entries` volumes, from the number after `after` up
    to `last`. All of them exist, and the volumes in `published` are at n1."""
    token = part(2, b"%d" % after) if after else b""
    first, end = after + 1, min(after + entries, last)
    body = b"".join(part(1, volume(number) + part(2, part(1, b"n1") if number in published else b""))
                    for number in range(first, end + 1))
    more = part(2, b"%d" % end) if end < last else b""
    return call(b"ListVolumes", b"\x08" + varint(entries) + token), reply(body + more)


def probes(count):
    return [probe()] * count


def creates(count, standing=0, name=short_name):
    return [create(number, name) for number in range(standing + 1, standing + count + 1)]


def pages(standing, count):
    """Returns `count` ListVolumes calls with their replies, while `standing` volumes exist. Each call asks
    for the next page of 100. After the last page the first page comes again."""
    walk = [page(after, 100, standing) for after in range(0, standing, 100)]
    return [walk[number % len(walk)] for number in range(count)]


def mix(standing, rounds, with_capacity=True):
    """Yields the calls of the mix, with their replies. A round is for one volume, which is deleted at its
    end: a create, a publish, a page of at most ten, the free bytes (unless they are left out), an unpublish
    and a delete. The page has the new volume and the five volumes before it."""
    for number in range(standing + 1, standing + rounds + 1):
        after = standing - 5
        body = b"".join(part(1, volume(other) + part(2, b"")) for other in range(after + 1, standing + 1))
        body += part(1, volume(number) + part(2, part(1, b"n1")))
        listing = call(b"ListVolumes", b"\x08\x0a" + part(2, b"%d" % after)), reply(body)
        yield from [create(number), publish(number), listing, *[capacity(standing + 1)] * with_capacity,
                    unpublish(number), delete(number)]


def asked(calls):
    """Returns the frames of the calls, without their replies, as one stream."""
    return b"".join(frame for frame, _ in calls)


def answered(calls):
    return b"".join(frame for _, frame in calls)


def fill(csid, config, path, count):
    """Makes a file of tables by csid, and adds `count` volumes by Python's sqlite3."""
    subprocess.run([csid, "pipe", "--config", config, "--tables", path], stdin=subprocess.DEVNULL, check=True)
    with contextlib.closing(sqlite3.connect(path)) as database, database:
        database.executemany("INSERT INTO volumes VALUES (?, ?, 1048576, 'p', ?, x'')",
                             ((n, "v%d" % n, BLOCK) for n in range(1, count + 1)))
        database.execute("UPDATE meta SET next_number = ?", (count + 1,))

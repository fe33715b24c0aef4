"""The parts of calls and replies in bytes (Protocol Buffers' encoding guide, docs/PROTOCOL.md)."""

from functools import partial

# The encoding guide.


def unhex(digits):
    return bytes.fromhex(digits)


def varint(n, size=1):
    """Returns n with seven bits in each byte, the low bits first, in at least `size` bytes."""
    out = []
    while n or len(out) < size:
        out.append(n & 127 | 128)
        n >>= 7
    return bytes(out[:-1] + [out[-1] & 127])


def tag(number, kind):
    return varint(number * 8 + kind)


def num(number, n, size=1):
    """Returns a field of wire type 0. A negative number becomes 64 bits in two's complement."""
    return tag(number, 0) + varint(n % (1 << 64), size)


def fixed64(number, eight=bytes(8)):
    return tag(number, 1) + eight


def msg(number, *parts):
    """Returns a field of wire type 2: an embedded message of these parts."""
    payload = b"".join(parts)
    return tag(number, 2) + varint(len(payload)) + payload


def fixed32(number, four=bytes(4)):
    return tag(number, 5) + four


def txt(number, text):
    return msg(number, text.encode() if isinstance(text, str) else text)


def entry(number, key, value):
    """Returns an entry of a map: an embedded message with the key as field 1 and the value as field 2."""
    return msg(number, txt(1, key), txt(2, value))


# The envelope: docs/PROTOCOL.md, "Envelope".


def frame(path, *parts, flag=0):
    """Returns the frame of a call."""
    path, message = path.encode() if isinstance(path, str) else path, b"".join(parts)
    size = len(message).to_bytes(4, "big")
    return len(path).to_bytes(2, "big") + path + bytes([flag]) + size + message


def reply(*parts):
    """Returns a reply with status 0."""
    body = b"".join(parts)
    return unhex("00 0000 00") + len(body).to_bytes(4, "big") + body


def refusal(code, text):
    """Returns a reply with another status, and its text."""
    return bytes([code]) + len(text).to_bytes(2, "big") + text.encode() + unhex("00 00000000")


# Calls: docs/PROTOCOL.md, "Paths" and "Messages".

MIB = 1 << 20
PROBE_PATH = "/csi.v1.Identity/Probe"


def identity(method, *parts):
    return frame("/csi.v1.Identity/" + method, *parts)


def controller(method, *parts):
    return frame("/csi.v1.Controller/" + method, *parts)


probe = partial(identity, "Probe")
create = partial(controller, "CreateVolume")
delete = partial(controller, "DeleteVolume")
publish = partial(controller, "ControllerPublishVolume")
unpublish = partial(controller, "ControllerUnpublishVolume")
validate = partial(controller, "ValidateVolumeCapabilities")
modify = partial(controller, "ControllerModifyVolume")
listing = partial(controller, "ListVolumes")
capacity = partial(controller, "GetCapacity")

# The fields of calls: their names, and the methods that have them if not all do.

name = partial(txt, 1)  # of CreateVolume
vol = partial(txt, 1)  # the volume_id
node = partial(txt, 2)  # the node_id
required, limit = partial(num, 1), partial(num, 2)
size = partial(msg, 2)  # the capacity_range of CreateVolume
cap = partial(msg, 3)  # a capability of create, publish and validate; GetCapacity has them in field 1
fs_type, mount_flag, mount_group = partial(txt, 1), partial(txt, 2), partial(txt, 3)
parameter = partial(entry, 4)  # of create and validate; GetCapacity has parameters in field 2
mutable = partial(entry, 8)  # of create
sets = partial(entry, 3)  # the mutable_parameters of modify
topology = partial(msg, 7)  # the accessibility_requirements of CreateVolume
requisite, preferred = partial(msg, 1), partial(msg, 2)
within = partial(msg, 3)  # the accessible_topology of GetCapacity
segment = partial(entry, 1)
max_entries, starting_token = partial(num, 1), partial(txt, 2)


def block(mode):
    """Returns the fields of a capability: a block device with an access mode."""
    return msg(1) + msg(3, num(1, mode))


def mount(mode, *parts):
    """Returns the fields of a capability: a mount with an access mode."""
    return msg(2, *parts) + msg(3, num(1, mode))


BLOCK, READONLY = cap(block(1)), num(4, 1)
A, B, C = name("a"), name("b"), name("c")
VOL_1, VOL_2, VOL_3 = vol("vol-1"), vol("vol-2"), vol("vol-3")
N1, N2 = node("n1"), node("n2")


def create_in(*terms):
    """Returns a call that creates the volume a with these topology requirements."""
    return create(A, BLOCK, topology(*terms))


# Replies (docs/PROTOCOL.md, "Messages"). A pool is its name and its zone.

P1, P2 = ("p1", "a"), ("p2", "b")


def volume(number, size, pool):
    name, zone = pool
    fields = num(1, size), txt(2, "vol-%d" % number), entry(3, "pool", name)
    return b"".join(fields) + msg(5, entry(1, "zone", zone))


def created(number, size, pool):
    """Returns the reply of CreateVolume."""
    return reply(msg(1, volume(number, size, pool)))


def confirmed(capabilities, parameters=None):
    """Returns the reply of ValidateVolumeCapabilities: the fields of each capability, and the parameters."""
    maps = [entry(3, key, value) for key, value in (parameters or {}).items()]
    return reply(msg(1, *[msg(2, fields) for fields in capabilities], *maps))


def listed(number, size, pool, *nodes):
    """Returns an entry of a page of ListVolumes."""
    return msg(1, msg(1, volume(number, size, pool)), msg(2, *[txt(1, node) for node in nodes]))


def page(*entries, next_token=""):
    """Returns the reply of ListVolumes."""
    return reply(*entries, txt(2, next_token) if next_token else b"")


def free(available, maximum):
    """Returns the reply of GetCapacity. A number 0 is left out, but not the message around the maximum."""
    first = num(1, available) if available else b""
    return reply(first, msg(2, num(1, maximum) if maximum else b""))


def fault(text):
    """Returns the reply that ends a malformed stream."""
    return refusal(3, text)


def malformed(at):
    return refusal(3, "malformed message in the field at byte %d" % at)


READY = reply(unhex("0a020801"))
NAMED = reply(txt(1, "pools.example.org"), txt(2, "1.0.0"))
SERVICES = reply(unhex("0a040a020801 0a040a020802"))
METHODS = reply(unhex("0a040a020801 0a040a020802 0a040a020803 0a040a020804"),
                unhex("0a040a020808 0a040a02080a 0a040a02080d 0a040a02080e"))
CREATED, DONE = created(1, MIB, P1), reply()
WRITER = reply(entry(1, "readonly", "false"))
READER = reply(entry(1, "readonly", "true"))
NOT_CONFIRMED = reply(txt(2, "capabilities or parameters are not supported"))

UNKNOWN = refusal(12, "unknown method")
NAME_MISSING = refusal(3, "name is missing")
NAME_LONG = refusal(3, "name is longer than 128 bytes")
NAME_BANNED = refusal(3, "name holds a banned character")
CAP_MISSING = refusal(3, "volume capability is missing")
ACCESS_MISSING = refusal(3, "access type is missing")
MODE_UNKNOWN = refusal(3, "access mode is missing or unknown")
CAP_UNSUPPORTED = refusal(3, "volume capability is not supported")
NEGATIVE = refusal(3, "capacity is negative")
MAP_LARGE = refusal(3, "map is larger than 4096 bytes")
TEXT_LONG = refusal(3, "text is too long")
SOURCE = refusal(3, "content source is not supported")
ALIKE = refusal(3, "topology keys are alike")
NOT_REQUISITE = refusal(3, "preferred topology is not requisite")
ID_MISSING = refusal(3, "volume id is missing")
NODE_MISSING = refusal(3, "node id is missing")
MOST_NEGATIVE = refusal(3, "max_entries is negative")
MUTABLE_MISSING = refusal(3, "mutable parameters are missing")
MUTABLE_LARGE = refusal(3, "mutable parameters are too large")
NO_VOLUME = refusal(5, "volume not found")
NO_NODE = refusal(5, "node not found")
NOT_COMPATIBLE = refusal(6, "volume exists and is not compatible")
OTHERWISE = refusal(6, "volume is published otherwise")
NO_ROOM = refusal(8, "no room in the topology")
NODE_FULL = refusal(8, "node is full")
IN_USE = refusal(9, "volume is in use")
ELSEWHERE = refusal(9, "volume is published elsewhere")
BAD_TOKEN = refusal(10, "bad starting token")
OUT_OF_RANGE = refusal(11, "capacity is out of range")
NOT_OF_VOLUME = refusal(3, "volume does not have this capability")

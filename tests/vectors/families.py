"""Vectors that differ by a number, in plain bytes: frames cut at each byte, each access mode alone, and each
pair of modes."""

from tests.vectors.messages import fault, unhex
from tests.vectors.rows import call, ok, refused

# A probe, and a call that creates the volume a.
CALLS = {
    "probe": unhex("0016 2f6373692e76312e4964656e746974792f50726f6265 00 00000000"),
    "create": unhex("001f 2f6373692e76312e436f6e74726f6c6c65722f437265617465566f6c756d65 00"
                    " 0000000b 0a0161 1a060a001a020801"),
}
CUT = {"In plain bytes: each front of a frame": {
    "%s-cut-at-%d" % (name, at): [(call[:at], fault("end of input at byte %d" % at))]
    for name, call in CALLS.items() for at in range(1, len(call))
}}

VOL_1, N1, N2 = "0a05766f6c2d31", "12026e31", "12026e32"
CREATED = ok(unhex("0a24 08808040 1205766f6c2d31 1a0a0a04706f6f6c12027031 2a0b0a090a047a6f6e65120161"))
WRITER = ok(unhex("0a11 0a08726561646f6e6c79 120566616c7365"))
READER = ok(unhex("0a10 0a08726561646f6e6c79 120474727565"))
DONE = ok(b"")
# With vol-1 of 1 MiB, 13 MiB are free in the two pools. The greatest size is 8 MiB.
THIRTEEN_AND_8_MIB = ok(unhex("08 8080c006 1205 0880808004"))
NONE_FREE = ok(unhex("1200"))
NOT_CONFIRMED = ok(unhex("122c") + b"capabilities or parameters are not supported")
MODE_UNKNOWN = refused("030021", "access mode is missing or unknown")
NOT_SUPPORTED = refused("030022", "volume capability is not supported")
NOT_OF_VOLUME = refused("030024", "volume does not have this capability")
OTHERWISE = refused("06001d", "volume is published otherwise")
ELSEWHERE = refused("09001d", "volume is published elsewhere")


def block(mode):
    """Returns a capability in hexadecimal, without its tag, which is 0a in GetCapacity and 1a elsewhere."""
    return "06 0a00 1a0208%02x" % mode


def mount(mode):
    return "06 1200 1a0208%02x" % mode


def create(*capabilities):
    return call("CreateVolume", unhex("0a0161" + "".join("1a" + it for it in capabilities)))


def publish(node, capability, readonly=""):
    return call("ControllerPublishVolume", unhex(VOL_1 + node + "1a" + capability + readonly))


CREATE = (create(block(1)), CREATED)


def calls(capability, replies):
    """Returns the steps for a capability: a create, further steps, and then a publish, a validation and a
    GetCapacity. `replies` has the reply to the create, the list of the further steps, and the replies to the
    three last calls."""
    return [(create(capability), replies[0]), *replies[1],
            (publish(N1, capability), replies[2]),
            (call("ValidateVolumeCapabilities", unhex(VOL_1 + "1a" + capability)), replies[3]),
            (call("GetCapacity", unhex("0a" + capability)), replies[4])]


def supported(capability):
    confirmed = ok(unhex("0a0812" + capability))
    return calls(capability, [CREATED, [], WRITER, confirmed, THIRTEEN_AND_8_MIB])


def unsupported(capability):
    return calls(capability, [NOT_SUPPORTED, [CREATE], NOT_OF_VOLUME, NOT_CONFIRMED, NONE_FREE])


def unknown(capability):
    return calls(capability, [MODE_UNKNOWN, [CREATE], *[MODE_UNKNOWN] * 3])


MODES = {"In plain bytes: each access mode, of a block device and of a mount": {
    **{"plain-block-mode-%d" % mode: supported(block(mode)) for mode in range(1, 8)},
    **{"plain-mount-mode-%d" % mode: supported(mount(mode)) for mode in (1, 2, 3, 6, 7)},
    **{"plain-mount-mode-%d" % mode: unsupported(mount(mode)) for mode in (4, 5)},
    **{"plain-block-mode-%d" % mode: unknown(block(mode)) for mode in (0, 8)},
    **{"plain-mount-mode-%d" % mode: unknown(mount(mode)) for mode in (0, 8)},
}}


def pair(first, second, allowed):
    """Returns steps for a volume with all modes of a block device. It is published with the mode `first` at
    n1, and then with `second` at n1, at n2, and after an unpublish at n2 again as read-only. `allowed` is the
    letter for both modes in BESIDE."""
    return [(create(*map(block, range(1, 8))), CREATED),
            (publish(N1, block(first)), WRITER),
            (publish(N1, block(second)), WRITER if first == second else OTHERWISE),
            (publish(N2, block(second)), WRITER if allowed == "w" else ELSEWHERE),
            (call("ControllerUnpublishVolume", unhex(VOL_1 + N2)), DONE),
            (publish(N2, block(second), "2001"), ELSEWHERE if allowed == "-" else READER)]


# A line for each mode at the first node, with a letter for each mode at the second node: 'w' if both may be
# attached for writing, 'r' if one of them must be read-only, '-' if they exclude each other.
BESIDE = {1: "-------", 2: "-------", 3: "--w----", 4: "---r---", 5: "----w--", 6: "-------", 7: "-------"}
PAIRS = {
    "Each access mode at a node, and each after it at that node and at another: of a block device that was"
    " made with all of them": {"modes-%d-and-%d" % (first, second): pair(first, second, allowed)
                               for first, row in BESIDE.items()
                               for second, allowed in enumerate(row, 1)},
}

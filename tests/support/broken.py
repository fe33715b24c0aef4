"""Makes broken frames, messages and HTTP/2 from correct ones at random, and reads correct ones
(docs/PROTOCOL.md)."""
import io

from tests.support import change_stores
from tests.vectors import corpus, messages as v

MIB = 1 << 20


class Breaker:
    """Breaks correct frames and messages at random. `corpus` has correct calls: their paths and messages."""

    def __init__(self, source, corpus):
        self.source, self.corpus = source, corpus

    def one_of(self, *values):
        return self.source.choice(values)

    def place(self, text):
        at = self.source.randrange(len(text) + 1)
        return at, min(len(text), at + self.one_of(1, 2, 4, 8, self.source.randrange(len(text) + 1)))

    def bytes(self, text):
        at, to = self.place(text)
        how, part = self.source.randrange(8), text[at:to]
        if how == 0:
            return text[:at] + bytes(it ^ 1 << self.source.randrange(8) for it in part) + text[to:]
        if how == 1:
            return text[:at] + bytes([self.one_of(0, 1, 0x7F, 0x80, 0xFF)]) * len(part) + text[to:]
        if how == 2:
            return text[:at]
        if how == 3:
            return text[:at] + text[to:]
        if how == 4:
            return (text[:at] + part * self.one_of(2, 3, 50, 5000) + text[to:])[
                : MIB + self.source.randrange(300)
            ]
        if how == 5:
            return text[:at] + self.source.randbytes(self.one_of(1, 2, 5, 100)) + text[to:]
        if how == 6:
            other = self.one_of(*self.corpus)[1]
            return text[:at] + other[self.source.randrange(len(other) + 1) :]
        return (text[:at]
                + v.varint(self.one_of(0, 1 << 31, 1 << 32, (1 << 63) - 1, 1 << 63, (1 << 64) - 1),
                           self.one_of(1, 10))
                + text[to:])

    def nested(self, message):
        """Returns the message inside an embedded message, this one inside a further one, and so on: up to
        200,000 levels or 1 MiB."""
        number, heads, length = self.source.randrange(1, 10), [], len(message)
        for _ in range(self.one_of(2, 10, 100, 1000, self.source.choice((5000, 5000, 5000, 200000)))):
            heads.append(v.tag(number, 2) + v.varint(length))
            length += len(heads[-1])
            if length > MIB - 10:
                break
        return b"".join(reversed(heads)) + message

    def message(self, message):
        how = self.source.randrange(12)
        if how == 0:
            return self.nested(message)
        if how == 1 and self.source.randrange(4) == 0:
            piece = (self.one_of(message, v.msg(self.source.randrange(1, 9), *[self.bytes(message)[:40]]))
                     or b"\x1a\0")
            return (piece * (MIB // len(piece) + 1))[: MIB + self.one_of(0, 0, 0, 1)]
        if how == 2:
            return v.msg(self.source.randrange(1, 10), self.bytes(message)) + message
        return self.bytes(message) if how < 9 else message

    def stream(self):
        """Returns a stream of frames with broken messages. The stream as a whole may be broken, too."""
        frames = []
        for _ in range(self.one_of(1, 1, 2, 5)):
            path, message = self.one_of(*self.corpus)
            for _ in range(self.one_of(0, 1, 1, 2, 4)):
                message = self.message(message)
            frames.append(v.frame(path, message))
        whole = b"".join(frames)
        for _ in range(self.one_of(0, 0, 0, 1, 2)):
            whole = self.bytes(whole)
        return whole

    def pieces(self, whole):
        """Returns the stream in pieces, of one byte each or of random lengths."""
        if len(whole) < 200 and self.source.randrange(4) == 0:
            return [whole[at : at + 1] for at in range(len(whole))]
        cuts = sorted(self.source.randrange(len(whole) + 1) for _ in range(self.one_of(0, 1, 5, 40)))
        return [whole[at:to] for at, to in zip([0, *cuts], [*cuts, len(whole)])]


def calls_of_vectors():
    """Returns the calls of tests/vectors, each as its path and its message."""
    calls = []
    for line in corpus.lines():
        digits = line.split(" ")[1] if line and line[0] != "#" else "-"
        stream = io.BytesIO(b"" if digits == "-" else bytes.fromhex(digits))
        while frame := change_stores.next_frame(stream):
            calls.append(frame)
    return [it for it in calls if it[0].startswith(b"/csi")]


def reading(stream):
    """Returns the number of calls in a stream, and the text of the fault that ends it, or None for a whole
    stream (docs/PROTOCOL.md, "Streams")."""
    at = count = 0
    cut = "end of input at byte %d" % len(stream)
    while at < len(stream):
        size = int.from_bytes(stream[at : at + 2], "big")
        if len(stream) < at + 2 or not 1 <= size <= 128:
            return count, cut if len(stream) < at + 2 else "bad path length at byte %d" % at
        bad = [it for it in range(at + 2, min(at + 2 + size, len(stream))) if not 0x21 <= stream[it] <= 0x7E]
        if bad:
            return count, "bad path at byte %d" % bad[0]
        place = at + 2 + size
        if stream[place : place + 1] not in (b"", b"\0"):
            return count, "bad flag at byte %d" % place
        length = int.from_bytes(stream[place + 1 : place + 5], "big")
        if len(stream) >= place + 5 and length > MIB:
            return count, "message too long at byte %d" % (place + 1)
        at = place + 5 + length
        if len(stream) < place + 5 or at > len(stream):
            return count, cut
        count += 1
    return count, None


def replies_in(stream):
    """Returns the replies in a stream, each with status, text and body, or None if the stream is malformed.
    """
    found, at = [], 0
    while at < len(stream):
        size = int.from_bytes(stream[at + 1 : at + 3], "big")
        length = int.from_bytes(stream[at + size + 4 : at + size + 8], "big")
        end = at + size + 8 + length
        if len(stream) < end or stream[at + size + 3] or (size if stream[at] == 0 else length):
            return None
        found.append((stream[at], stream[at + 3 : at + 3 + size].decode(), stream[end - length : end]))
        at = end
    return found


def is_ok(reply):
    """Returns True if the bytes are one OK reply, None if more bytes follow one, and False for other bytes.
    """
    size = 8 + int.from_bytes(reply[4:8], "big")
    if len(reply) < 8 or reply[:4] != bytes(4) or not size <= min(len(reply), 8 + 4 * MIB):
        return False
    return True if len(reply) == size else None


# HTTP/2 and gRPC as a client writes them, without compressed headers.


def h2(kind, flags, stream, payload=b""):
    """Returns a frame of HTTP/2 (RFC 9113, section 4.1)."""
    return (len(payload).to_bytes(3, "big")
            + bytes([kind, flags])
            + (stream & 0xFFFFFFFF).to_bytes(4, "big")
            + payload)


DATA, HEADERS, RESET, SETTINGS, PING, GOAWAY, WINDOW, CONTINUATION = 0, 1, 3, 4, 6, 7, 8, 9
HELLO = b"PRI * HTTP/2.0\r\n\r\nSM\r\n\r\n" + h2(SETTINGS, 0, 0)
END, WHOLE, MOST = 1, 4, 16384


def string(text):
    """Returns a name or a value of a header as a string literal without Huffman coding: its length, and then
    its bytes (RFC 7541, section 5.2)."""
    return (bytes([len(text)]) if len(text) < 127 else b"\x7f" + v.varint(len(text) - 127)) + text


def headers(path, *more):
    fields = [
        (b":method", b"POST"),
        (b":scheme", b"http"),
        (b":path", path),
        (b":authority", b"x"),
        (b"te", b"trailers"),
        (b"content-type", b"application/grpc"),
    ]
    return b"".join(b"\0" + string(name) + string(value) for name, value in [*fields, *more])


def head(stream, path, *more):
    """Returns the frames with the headers of a call."""
    block = headers(path, *more)
    rest = [block[at : at + MOST] for at in range(MOST, len(block), MOST)]
    parts = [(HEADERS, block[:MOST])] + [(CONTINUATION, it) for it in rest]
    return b"".join(h2(kind, WHOLE * (at == len(parts) - 1), stream, it)
                    for at, (kind, it) in enumerate(parts))


def message_frames(stream, text):
    pieces = [text[at : at + MOST] for at in range(0, max(len(text), 1), MOST)]
    return b"".join(h2(DATA, END * (at == len(pieces) - 1), stream, it) for at, it in enumerate(pieces))


def enveloped(message):
    return b"\0" + len(message).to_bytes(4, "big") + message


# Inputs for the front. Each function makes one kind.

PROBE = b"/csi.v1.Identity/Probe"


def raw_bytes(source, _):
    return source.randbytes(source.choice((1, 10, 100, 5000)))


def any_frames(source, _):
    streams, sizes = (0, 1, 2, 3, 1 << 31, 0x7FFFFFFF), (0, 4, 5, 8, 100)
    return b"".join(h2(source.randrange(12), source.randrange(256), source.choice(streams),
                       source.randbytes(source.choice(sizes)))
                    for _ in range(20))


def long_headers(source, _):
    size, calls = source.choice((1000, 100000, 4 * MIB)), source.choice((1, 10, 50))
    more = [(b"n%d" % it, b"v" * 1000) for it in range(size // 1000)]
    return b"".join(head(2 * at + 1, PROBE, *more) for at in range(calls))


def reset_calls(source, _):
    return b"".join(head(2 * at + 1, PROBE) + h2(RESET, 0, 2 * at + 1, b"\0\0\0\x08")
                    for at in range(source.choice((1, 300, 3000))))


def silent_calls(source, _):
    """Calls whose messages are missing or incomplete."""
    parts = b"", b"\0\0", b"\0\0\x10\0\0"
    return b"".join(head(2 * at + 1, PROBE) + h2(DATA, 0, 2 * at + 1, source.choice(parts))
                    for at in range(source.choice((1, 1, 20, 20, 20, 20, 20, 300))))


def pings_and_settings(source, _):
    settings = source.choice((b"", b"\0\x03\0\0\0\0", b"\0\x04\x7f\xff\xff\xff", b"\0\x05\0\0\x40\0"))
    return (h2(PING, 0, 0, bytes(8)) + h2(SETTINGS, 0, 0, settings)) * source.choice((10, 5000))


def calls(source, corpus):
    """Calls with broken messages. The length prefix of some messages is also broken, and in half of the
    inputs the whole stream."""
    breaker, whole = Breaker(source, corpus), b""
    for at in range(source.choice((1, 1, 3, 20))):
        path, message = source.choice(corpus)
        text = enveloped(breaker.message(message))
        text = breaker.bytes(text) if source.randrange(4) == 0 else text
        deadline = [(b"grpc-timeout", source.choice((b"1m", b"1S", b"99999999H", b"x")))] * source.randrange(
            2
        )
        whole += head(2 * at + 1, path, *deadline) + message_frames(2 * at + 1, text)
    return breaker.bytes(whole) if source.randrange(2) else whole


# For each kind, its weight in the random choice.
KINDS = {raw_bytes: 10, any_frames: 10, long_headers: 1, reset_calls: 10, silent_calls: 10,
         pings_and_settings: 10, calls: 50}


def broken_http(source, corpus):
    """Returns the name of a random kind of input for the front, and an input of this kind."""
    [kind] = source.choices(list(KINDS), list(KINDS.values()))
    return kind.__name__, (b"" if kind is raw_bytes else HELLO) + kind(source, corpus)

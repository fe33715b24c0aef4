"""A simple model of the volume machine, and random requests for it.

The model follows docs/MACHINE.md with the sample configuration of docs/OPERATING.md, and looks through all
volumes for each request. tests/vectors makes the bytes of its replies.
"""

import collections
import random

from tests.vectors import messages as v


MIB = 1 << 20
DEFAULT, GREATEST, MAP_BYTES = MIB, 8 * MIB, 4096
Pool = collections.namedtuple("Pool", "name bytes zone")
POOLS = [Pool("p1", 10 * MIB, "a"), Pool("p2", 4 * MIB, "b")]
NODES = {"n1": 2, "n2": 2}
Volume = collections.namedtuple("Volume", "number name bytes pool keys parameters mutable")
# A capability key is (0, "", mode) of a block device, or (1, file system, mode) of a mount.
SINGLE, SHARED, ONE_WRITER, WRITERS, SINGLE_WRITER, MULTI_WRITER = 1, 3, 4, 5, 6, 7


def capability(key):
    """Returns the fields of a capability with this key."""
    kind, fs, mode = key
    return v.mount(mode, *[v.fs_type(fs)] * bool(fs)) if kind else v.block(mode)


def capabilities(keys):
    return b"".join(v.cap(capability(key)) for key in keys)


def entries(field, pairs):
    """Returns the fields for the entries of a map, sorted by key."""
    return b"".join(field(key, value) for key, value in sorted(pairs.items()))


def serves(pool, term):
    """Returns True if the segments of the pool contain the term, or the term contains them. Upper and lower
    case are the same in keys."""
    segments, term = {("zone", pool.zone)}, {(key.lower(), value) for key, value in term.items()}
    return segments <= term or term <= segments


def has(volume, key):
    """Returns True if a volume has this key, or has SINGLE and the key has SINGLE_WRITER or MULTI_WRITER."""
    kind, fs, mode = key
    return key in volume.keys or mode in (SINGLE_WRITER, MULTI_WRITER) and (kind, fs, SINGLE) in volume.keys


def coexist(one, other):
    (_, _, mode), readonly = one
    return one[0][2] == other[0][2] and (
        mode in (SHARED, WRITERS) or mode == ONE_WRITER and (readonly or other[1])
    )


def size_of(required, limit):
    """Returns the size of a new volume, or None if the required size and the limit allow none. 0 stands for a
    size that the call does not have."""
    if required:
        size = -(-required // MIB) * MIB
    else:
        size = min(DEFAULT, limit // MIB * MIB) if limit else DEFAULT
    return None if size == 0 or limit and size > limit or max(size, required) > GREATEST else size


class Model:
    """The State: the next number, the volumes in the order of their numbers, and the attachments. An
    attachment is a capability key and the read-only flag, by volume number and node. The method of a call
    returns the reply and a description of what happened."""

    def __init__(self):
        self.next, self.volumes, self.attachments = 1, [], {}

    def copy(self):
        """Returns a copy of the model. Volumes are never changed in place, so both models may share them."""
        other = Model()
        other.next, other.volumes, other.attachments = self.next, list(self.volumes), dict(self.attachments)
        return other

    def state(self):
        """Returns the complete State as a text."""
        return repr((self.next, self.volumes, sorted(self.attachments.items())))

    def of_id(self, text):
        return next((it for it in self.volumes if "vol-%d" % it.number == text), None)

    def free(self, pool):
        return pool.bytes - sum(it.bytes for it in self.volumes if it.pool is pool)

    def nodes(self, number):
        return sorted(node for of, node in self.attachments if of == number)

    def create(self, name, required, limit, keys, given, mutable, requisite, preferred):
        volume = next((it for it in self.volumes if it.name == name), None)
        if volume:
            reachable = not requisite or any(serves(volume.pool, term) for term in requisite)
            if not (reachable
                    and required <= volume.bytes <= (limit or volume.bytes)
                    and all(has(volume, key) for key in keys)
                    and given == volume.parameters
                    and all(volume.mutable.get(key) == value for key, value in mutable.items())):
                return v.NOT_COMPATIBLE, "volume exists and is not compatible"
            pool = volume.pool
            return v.created(volume.number, volume.bytes, (pool.name, pool.zone)), "created again"
        size = size_of(required, limit)
        if size is None:
            return v.OUT_OF_RANGE, "capacity is out of range"
        for term in preferred + (requisite or [{}]):
            for pool in POOLS:
                if serves(pool, term) and self.free(pool) >= size:
                    self.volumes.append(Volume(self.next, name, size, pool, sorted(set(keys)), given,
                                               mutable))
                    self.next += 1
                    return v.created(self.next - 1, size, (pool.name, pool.zone)), "created"
        return v.NO_ROOM, "no room in the topology"

    def modify(self, text, mutable):
        volume = self.of_id(text)
        if not mutable:
            return v.MUTABLE_MISSING, "mutable parameters are missing"
        if volume is None:
            return v.NO_VOLUME, "volume not found"
        laid = {**volume.mutable, **mutable}
        if sum(len(key) + len(value) for key, value in laid.items()) > MAP_BYTES:
            return v.MUTABLE_LARGE, "mutable parameters are too large"
        self.volumes[self.volumes.index(volume)] = volume._replace(mutable=laid)
        return v.DONE, "modified again" if laid == volume.mutable else "modified"

    def delete(self, text):
        volume = self.of_id(text)
        if volume is None:
            return v.DONE, "nothing to delete"
        if self.nodes(volume.number):
            return v.IN_USE, "volume is in use"
        self.volumes.remove(volume)
        return v.DONE, "deleted"

    def publish(self, text, node, key, readonly):
        volume, wanted = self.of_id(text), (key, readonly)
        if volume is None:
            return v.NO_VOLUME, "volume not found"
        if node not in NODES:
            return v.NO_NODE, "node not found"
        standing = self.attachments.get((volume.number, node))
        if standing:
            if standing != wanted:
                return v.OTHERWISE, "volume is published otherwise"
            return v.READER if readonly else v.WRITER, "published again"
        if not has(volume, key):
            return v.NOT_OF_VOLUME, "volume does not have this capability"
        if not all(coexist(other, wanted)
                   for (number, _), other in self.attachments.items()
                   if number == volume.number):
            return v.ELSEWHERE, "volume is published elsewhere"
        if sum(at == node for _, at in self.attachments) >= NODES[node]:
            return v.NODE_FULL, "node is full"
        self.attachments[volume.number, node] = wanted
        return v.READER if readonly else v.WRITER, (
            "published" if key in volume.keys else "published with a part of its mode"
        )

    def unpublish(self, text, node):
        volume = self.of_id(text)
        found = [it for it in self.attachments if volume and it[0] == volume.number and node in ("", it[1])]
        for it in found:
            del self.attachments[it]
        return v.DONE, "unpublished" if found else "nothing to unpublish"

    def validate(self, text, keys, given):
        volume = self.of_id(text)
        if volume is None:
            return v.NO_VOLUME, "volume not found"
        if not all(has(volume, key) for key in keys) or given not in ({}, volume.parameters):
            return v.NOT_CONFIRMED, "not confirmed"
        return v.confirmed(map(capability, keys), dict(sorted(given.items()))), "confirmed"

    def listing(self, most, token):
        """Returns the reply, a description, the numbers of the volumes in the page, and the token of the next
        page. The token is '' for the last page and for a refusal. A page has at most `most` volumes, and 100
        if `most` is 0."""
        if token and (not token.isdigit() or token != str(int(token)) or not 0 < int(token) < self.next):
            return v.BAD_TOKEN, "bad starting token", [], ""
        beyond = [it for it in self.volumes if it.number > int(token or 0)]
        there = beyond[: most or 100]
        then = str(there[-1].number) if len(there) < len(beyond) else ""
        listed = [v.listed(it.number, it.bytes, (it.pool.name, it.pool.zone), *self.nodes(it.number))
                  for it in there]
        what, numbers = "page" if then else "last page", [it.number for it in there]
        return v.page(*listed, next_token=then), what, numbers, then

    def capacity(self, keys, term):
        if any(kind and mode in (ONE_WRITER, WRITERS) for kind, _, mode in keys):
            return v.free(0, 0), "no capacity"
        parts = [self.free(pool) for pool in POOLS if term is None or serves(pool, term)]
        return v.free(sum(parts), min(max(parts, default=0), GREATEST)), "capacity"

    def breaks(self):
        """Returns a text about the first rule that the volumes or attachments break, or None."""
        names, at = [it.name for it in self.volumes], collections.Counter(
            node for _, node in self.attachments
        )
        pairs = [(one, other)
                 for (n, a), one in self.attachments.items()
                 for (m, b), other in self.attachments.items()
                 if n == m and a < b]
        if any(self.free(pool) < 0 for pool in POOLS):
            return "a pool is overcommitted"
        if len(set(names)) < len(names):
            return "two volumes have one name"
        if any(at[node] > most for node, most in NODES.items()):
            return "a node has too many volumes"
        return None if all(coexist(*pair) for pair in pairs) else "two attachments do not coexist"


class Requests:
    """Random requests. A request is a call, the model's reply, and a description of what happened."""

    def __init__(self, seed, model):
        self.random, self.model = random.Random(seed), model

    def one_of(self, *values):
        return self.random.choice(values)

    def id(self):
        """Returns the id of an existing volume in most cases, otherwise the id of any volume, or a text that
        is not an id."""
        number = self.one_of(*[it.number for it in self.model.volumes] or [self.model.next])
        return self.one_of("vol-0%d" % number, str(number),
                           "vol-%d" % self.random.randrange(self.model.next + 2), *["vol-%d" % number] * 13)

    def key(self, modes=(SINGLE, SHARED, SINGLE_WRITER, MULTI_WRITER)):
        if self.one_of(*range(6)):
            return (0, "",
                    self.one_of(SINGLE, SINGLE, SHARED, SHARED, SHARED, ONE_WRITER, ONE_WRITER, WRITERS,
                                SINGLE_WRITER, MULTI_WRITER))
        return 1, self.one_of("", "ext4"), self.one_of(*modes)

    def keys(self, least):
        return [self.key() for _ in range(least + self.random.randrange(3))]

    def given(self):
        return {} if self.one_of(*range(6)) else {"k": self.one_of("1", "2")}

    def mutable(self):
        """Returns mutable parameters: few keys, with short or long values. Two long values are too long for
        one volume."""
        value = self.one_of("1", "1", "2", *["x" * (MAP_BYTES // 2)] * 3)
        return self.one_of({}, {"i": value}, {"j": value}, {"i": "1", "j": value})

    def term(self):
        term = ({}
                if self.one_of(*range(5)) == 0
                else {self.one_of("zone", "ZONE", "Zone"): self.one_of("a", "b", "b", "a", "A")})
        return {"rack": "1", **term} if self.one_of(*range(5)) == 0 else term

    def range(self):
        size, more = self.random.randrange(10) * MIB, self.one_of(0, 500_000, 1_000_000)
        return self.one_of((size, 0), (0, size + more), (size + more, size), (size, size + more), (0, 0),
                           (0, 0))

    def topology(self):
        """Returns topology requirements: mostly none, otherwise one requisite or one preferred term, or two
        requisite terms of which the first is preferred."""
        one, other = self.term(), self.term()
        return self.one_of(([one], []), ([], [one]), ([one, other], [one]), *[([], [])] * 6)

    def create(self):
        name, (required, limit), keys, given, (requisite, preferred) = (self.one_of(*"abcdefghijkl"),
                                                                        self.range(), self.keys(3),
                                                                        self.given(), self.topology())
        terms = [v.requisite(entries(v.segment, term)) for term in requisite] + [
            v.preferred(entries(v.segment, term)) for term in preferred
        ]
        mutable = self.one_of({}, {}, self.mutable())
        call = v.create(v.name(name),
                        v.size(v.required(required), v.limit(limit)) if required or limit else b"",
                        capabilities(keys), entries(v.parameter, given), v.topology(*terms) if terms else b"",
                        entries(v.mutable, mutable))
        return call, *self.model.create(name, required, limit, keys, given, mutable, requisite, preferred)

    def modify(self):
        text, mutable = self.id(), self.mutable()
        return v.modify(v.vol(text), entries(v.sets, mutable)), *self.model.modify(text, mutable)

    def delete(self):
        text = self.id()
        return v.delete(v.vol(text)), *self.model.delete(text)

    def publish(self):
        text, node, key, readonly = (self.id(), self.one_of("n1", "n2", "n1", "n2", "n3"), self.key(),
                                     self.one_of(*range(3)) == 0)
        return v.publish(v.vol(text), v.node(node), v.cap(capability(key)),
                         v.READONLY if readonly else b""), *self.model.publish(text, node, key, readonly)

    def unpublish(self):
        text, node = self.id(), self.one_of("n1", "n2", "", "n3")
        return v.unpublish(v.vol(text), v.node(node) if node else b""), *self.model.unpublish(text, node)

    def validate(self):
        text, keys, given = self.id(), self.keys(1), self.given()
        return v.validate(v.vol(text), capabilities(keys), entries(v.parameter, given)), *self.model.validate(
            text, keys, given
        )

    def listing(self):
        most, number = self.one_of(0, 1, 2, 3, 5, 100), self.random.randrange(self.model.next + 2)
        token = self.one_of("", "", str(number), "0%d" % number)
        return (v.listing(v.max_entries(most) if most else b"", v.starting_token(token) if token else b""),
                *self.model.listing(most, token)[:2])

    def capacity(self):
        keys, term = [self.key((SINGLE, SHARED, WRITERS, MULTI_WRITER))
                      for _ in range(self.random.randrange(3))], self.one_of(None, self.term())
        within = v.within(entries(v.segment, term)) if term is not None else b""
        return v.capacity(*[v.msg(1, capability(key)) for key in keys], within), *self.model.capacity(
            keys, term
        )

    def next(self):
        return self.one_of(*[self.create] * 6, *[self.delete] * 2, *[self.publish] * 5, *[self.unpublish] * 2,
                           *[self.modify] * 2, *[self.validate] * 2, *[self.listing] * 2, self.capacity)()

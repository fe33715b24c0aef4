"""A call that is repeated after a call of another client (docs/MACHINE.md, "Repeats among other clients"). If
the other call does not change its object, the repeat has the same reply and changes nothing. For each line of
the table on that page there is a history whose other call changes the object. The repeat then has another
reply, or changes something."""

import collections

from tests.vectors import messages as v
from tests.support.data import tables
from tests.support.processes import run
from tests.support.rows import CsidTest, each

# A history of a new csid: the calls before, each with its reply; the call with its reply; the call of another
# client with its reply; and the reply to the repeat. The question is a call right before and right after the
# repeat, with its two replies.
History = collections.namedtuple("History", "name before call other again question")


def a_volume(number, *nodes):
    """Returns the entry of a volume of the default size in the first pool, with its nodes."""
    return v.listed(number, v.MIB, v.P1, *nodes)


def listing(before, after):
    """Returns a question: a call that lists all volumes with their nodes, and its replies with these entries
    before the repeat and after it."""
    return v.listing(), v.page(*before), v.page(*after)


I_1, J_1 = v.mutable("i", "1"), v.mutable("j", "1")
SHARED = v.cap(v.block(3))
CREATE_A, CREATE_A_I_1 = (v.create(v.A, v.BLOCK), v.CREATED), (v.create(v.A, v.BLOCK, I_1), v.CREATED)
CREATE_A_SHARED = v.create(v.A, SHARED), v.CREATED
CREATE_B = v.create(v.B, v.BLOCK), v.created(2, v.MIB, v.P1)
DELETE_1, DELETE_2 = (v.delete(v.VOL_1), v.DONE), (v.delete(v.VOL_2), v.DONE)
PUBLISH_1 = v.publish(v.VOL_1, v.N1, v.BLOCK), v.WRITER
PUBLISH_2 = v.publish(v.VOL_2, v.N1, v.BLOCK), v.WRITER
SHARE_N1, SHARE_N2 = [(v.publish(v.VOL_1, node, SHARED), v.WRITER) for node in (v.N1, v.N2)]
UNPUBLISH_N1, UNPUBLISH_N2 = [(v.unpublish(v.VOL_1, node), v.DONE) for node in (v.N1, v.N2)]
UNPUBLISH_ALL, UNPUBLISH_2 = (v.unpublish(v.VOL_1), v.DONE), (v.unpublish(v.VOL_2), v.DONE)
MODIFY_I_1, MODIFY_I_2, MODIFY_J_1 = [(v.modify(v.VOL_1, v.sets(*it)), v.DONE)
                                      for it in (("i", "1"), ("i", "2"), ("j", "1"))]
VALIDATE = v.validate(v.VOL_1, v.BLOCK), v.confirmed([v.block(1)])
LIST_NONE, LIST_1, LIST_1_AT_N1 = [(v.listing(), v.page(*it))
                                   for it in ([], [a_volume(1)], [a_volume(1, "n1")])]
# Of 14 MiB a volume takes one. A volume has at most 8 MiB.
CAPACITY_14, CAPACITY_13 = [(v.capacity(), v.free(it * v.MIB, 8 * v.MIB)) for it in (14, 13)]


def alone(name, before, call, other, *volumes):
    """Returns a history whose repeat has the reply of the call, and does not change these volumes."""
    return History(name, before, call, other, call[1], listing(volumes, volumes))


# Shows if the volume has both parameters.
HAS_BOTH = v.create(v.A, v.BLOCK, I_1, J_1), v.CREATED, v.CREATED
TWO = [CREATE_A, CREATE_B]
# Volumes that leave 2 MiB in the first pool, and nothing in the second.
CREATE_8_MIB, CREATE_4_MIB = [
    (v.create(v.name(name), v.size(v.required(bytes_)), v.BLOCK), v.created(number, bytes_, pool))
    for number, name, bytes_, pool in [(1, "c", 8 * v.MIB, v.P1), (2, "d", 4 * v.MIB, v.P2)]
]
ROWS = tables("repeats", globals())
DIFFERS = [History(*row) for row in ROWS["DIFFERS"]]
ALONE = [alone(*row) for row in ROWS["ALONE"]] + [History(*row) for row in ROWS["ALONE BY A QUESTION"]]


class RepeatsTest(CsidTest):
    """Calls of a `csid pipe`, with a stream for each history."""

    def stream(self, name, *steps):
        """Compares the replies to the calls of a stream."""
        calls, replies = (b"".join(side) for side in zip(*steps))
        self.check(name, run([self.csid, "pipe"], input=calls), (replies, "", 0))

    def repeat(self, it):
        """Compares the replies of a history, with its question right before and right after the repeat."""
        asked, before, after = it.question
        steps = it.call, it.other, (asked, before), (it.call[0], it.again), (asked, after)
        self.stream(it.name, *it.before, *steps)

    @each([(it.name, it) for it in DIFFERS + ALONE])
    def test_repeat_at_once_has_the_same_reply(self, name, it):
        self.stream(name, *it.before, it.call, it.call)

    @each([(it.name, it) for it in DIFFERS])
    def test_repeat_differs_after_another_call(self, name, it):
        _, before, after = it.question
        self.check(name + ": differs", it.again == it.call[1] and before == after, False)
        self.repeat(it)

    @each([(it.name, it) for it in ALONE])
    def test_repeat_is_the_same_if_its_object_is_left_alone(self, name, it):
        self.repeat(it)

"""Calls of several clients at the same time are linearizable, also while csid is killed, and while another
csid over the same etcd takes over. The search for an order finds one if and only if there is one."""

import os
import shutil
import tempfile

from tests.vectors import messages as v
from tests.support.callers import Plugin, histories
from tests.support.data import tables
from tests.support.histories import NEVER, Operation, linearization
from tests.support.model import SINGLE, Model
from tests.support.processes import place, program
from tests.support.replicas import Stacks
from tests.support.rows import RowTest, each

HISTORIES, HISTORIES_OVER_ETCD = 300, 32
KEY = (0, "", SINGLE)
ZONE_A = ("p1", "a")


def create(name, mutable=None):
    return lambda it: it.create(name, 0, 0, [KEY], {}, mutable or {}, [], [])[0]


def publish(node, readonly=False):
    return lambda it: it.publish("vol-1", node, KEY, readonly)[0]


def modify(value):
    return lambda it: it.modify("vol-1", {"i": value})[0]


def unpublish(it):
    return it.unpublish("vol-1", "")[0]


def delete(it):
    return it.delete("vol-1")[0]


def volume(number):
    return v.created(number, 1 << 20, ZONE_A)


FIRST = (create("a"), 0, 1, volume(1))
ROWS = tables("histories", globals())


def operations_of(rows):
    return [Operation(at, "", *row) for at, row in enumerate(rows)]


class SearchTest(RowTest):
    @each(ROWS["BY_HAND"])
    def test_histories_by_hand(self, name, is_linearizable, rows):
        found = linearization(operations_of(rows), Model())
        self.check(name, found is not None, is_linearizable)

    def test_order_keeps_real_time(self):
        rows = [FIRST, (delete, 2, 5, v.DONE), (publish("n1"), 3, 4, v.WRITER), (unpublish, 3, 6, v.DONE)]
        order, model = linearization(operations_of(rows), Model())
        self.check("the order", [it.client for it in order], [0, 2, 3, 1])
        self.check("the model after it", (model.volumes, model.attachments, model.next), ([], {}, 2))


class ClientsTest(RowTest):
    def setUp(self):
        super().setUp()
        if not os.access(place("front"), os.X_OK):
            self.skipTest("there is no front")
        # A file in memory needs no waiting for a disk.
        memory = "/dev/shm" if os.path.isdir("/dev/shm") else None
        self.files = self.enterContext(tempfile.TemporaryDirectory(dir=memory))

    def orders(self, fronts, count):
        """Records `count` new histories, and searches each for an order of its calls. Returns the orders,
        with None for a history without an order."""
        self.addCleanup(fronts.end)
        return [order for _, _, order in histories(fronts, count)]

    def are_linearizable(self, fronts, count):
        orders = self.orders(fronts, count)
        self.check("histories without an order", orders.count(None), 0)
        self.check("histories", len(orders), count)

    def plugin(self, **how):
        return Plugin(program("csid"), place("front"), self.files, **how)

    def stacks(self, **how):
        if not shutil.which("etcd") or not os.access(place("csid-etcd"), os.X_OK):
            self.skipTest("there is no etcd or no csid-etcd")
        return Stacks((program("csid"), place("csid-etcd"), place("front")), self.files, **how)

    def test_clients_are_linearizable(self):
        self.are_linearizable(self.plugin(), HISTORIES)

    def test_forgotten_file_is_noticed(self):
        self.assertIsNone(self.orders(self.plugin(forgets=True), HISTORIES)[-1])

    def test_clients_are_linearizable_over_takeovers(self):
        stacks = self.stacks()
        self.are_linearizable(stacks, HISTORIES_OVER_ETCD)
        self.check("the lead passed over", stacks.takeovers >= HISTORIES_OVER_ETCD // 8, True)

    def test_two_leaders_are_noticed(self):
        orders = self.orders(self.stacks(is_apart=True), HISTORIES_OVER_ETCD)
        self.check("the last history has no order", orders[-1], None)

"""Finds out if a history of calls by several clients is linearizable: if one order of the calls, which keeps
their real-time order, gives each reply (Herlihy and Wing, "Linearizability: a correctness condition for
concurrent objects", ACM TOPLAS 12(3), 1990)."""

import collections
import math

# A call of a client: its description, its effect on a model (a function that returns the reply), its times of
# begin and end, and its reply. The reply is None if no reply came. Then the call took effect before its end,
# or never.
Operation = collections.namedtuple("Operation", "client what act begun ended reply")
NEVER = math.inf


def begins_first(operation, left):
    """Returns True if no operation in `left` was answered before this operation began."""
    return all(it.reply is None or operation.begun <= it.ended for it in left)


def linearization(operations, model):
    """Returns an order of operations in which the model gives each recorded reply, and the model after them,
    or None if there is no such order. The order has all answered operations, and possibly others. The search
    is Wing and Gong's ("Testing and verifying concurrent objects", 1993): it tries each operation that may be
    first, and tries no State twice with the same remaining operations."""
    seen, ways = set(), [((), tuple(operations), model)]
    while ways:
        order, left, model = ways.pop()
        if all(it.reply is None for it in left):
            return order, model
        for at, operation in enumerate(left):
            if not begins_first(operation, left):
                continue
            after = model.copy()
            reply = operation.act(after)
            if operation.reply not in (None, reply):
                continue
            # If a call without a reply ended before this operation began, it took effect before this
            # operation, or never.
            others = left[:at] + left[at + 1 :]
            rest = tuple(it for it in others if it.reply is not None or it.ended >= operation.begun)
            place = (tuple(map(id, rest)), after.state())
            if place not in seen:
                seen.add(place)
                ways.append(((*order, operation), rest, after))
    return None

"""The objects with their kinds, and what may be found first of the wrong ones."""

import collections

from . import (
    after_you,
    get_then_set,
    hasty_take,
    lazy_counter,
    library_queues,
    list_set,
    loaded_cas,
    lock_order,
    missed_notification,
    reused_nodes,
    seen_least,
    sharded_counter,
    striped_map,
    two_locks,
    wrapped_ring,
)

Case = collections.namedtuple("Case", "name kind wanted wrong right settings")


def _case(module, kind, wanted, right, **settings):
    name = module.__name__.rpartition(".")[2]
    return Case(name, kind, wanted.split(), module.Wrong, right, settings)


CASES = [
    _case(reused_nodes, "queue", "illegal", reused_nodes.ReusedNodes),
    _case(list_set, "set", "illegal", list_set.ListSet),
    _case(striped_map, "map", "illegal", striped_map.StripedMap),
    _case(sharded_counter, "counter", "illegal", sharded_counter.OneNumber),
    _case(
        wrapped_ring,
        "queue",
        "illegal livelock step-limit",
        wrapped_ring.WrappedRing,
        at_most_more_puts=1,
    ),
    _case(lazy_counter, "counter", "illegal", lazy_counter.LazyCounter),
    _case(loaded_cas, "casreg", "illegal", loaded_cas.CellRegister),
    _case(two_locks, "stack", "illegal", two_locks.LockedStack),
    _case(get_then_set, "map", "illegal", get_then_set.LockedDict),
    _case(seen_least, "pqueue", "illegal", seen_least.LockedHeap),
    _case(lock_order, "register", "deadlock", lock_order.TwoHalves),
    _case(
        missed_notification,
        "queue",
        "deadlock",
        missed_notification.WaitingQueue,
        producers_and_consumers=True,
    ),
    _case(after_you, "counter", "livelock", after_you.LockedCounter),
    _case(hasty_take, "queue", "exception", hasty_take.DequeQueue),
]

# Of the standard library, with no wrong form.
RIGHT = [
    Case("queue.Queue", "queue", [], None, library_queues.LibraryQueue, {}),
    Case("queue.LifoQueue", "stack", [], None, library_queues.LibraryStack, {}),
    Case("queue.PriorityQueue", "pqueue", [], None, library_queues.LibraryHeap, {}),
    Case(
        "queue.Queue that waits",
        "queue",
        [],
        None,
        library_queues.BoundedQueue,
        {"producers_and_consumers": True},
    ),
]

#!/usr/bin/env python3
"""The queues of Python's module `queue`, which threads of this process share.

    python3 examples/services/queue_threads.py [--seconds 30] [--folder FOLDER]

Each queue of the module is a right object of its kind, and one of two places is a right bounded queue. A queue that is asked
for its size before a value is put into it isn't bounded: two threads may both have been told that there is room.
"""

import contextlib
import queue
import random
import sys
import time

from common import Case, by_kind, by_model, drive, main, selfcheck
from selfcheck.models import BoundedQueue

CLIENTS, CALLS, PLACES = 4, 8, 2


def taken(waiting):
    try:
        return waiting.get_nowait()
    except queue.Empty:
        return None


def put_if_room(waiting, value):
    try:
        waiting.put_nowait(value)
        return True
    except queue.Full:
        return False


def ask_and_put(waiting, value):
    if waiting.qsize() >= PLACES:
        return False
    time.sleep(0)
    waiting.put(value)
    return True


def history(kind, waiting, put, put_name, take_name, clients=CLIENTS):
    recorder = selfcheck.Recorder(kind)

    def client(which):
        me = recorder.caller()

        def call(number):
            value = CALLS * which + number + 1
            if random.random() < 0.5:
                me.call(put_name, value, lambda: put(waiting, value))
            else:
                me.call(take_name, lambda: taken(waiting))

        return call

    drive([client(which) for which in range(clients)], CALLS)
    # what is in it at the end is seen too
    while recorder.call(take_name, lambda: taken(waiting)) is not None:
        pass
    return recorder


@contextlib.contextmanager
def cases():
    # a thread is to give its turn away often
    sys.setswitchinterval(1e-5)
    kinds = [
        ("Queue", "queue", "enq", "deq"),
        ("LifoQueue", "stack", "push", "pop"),
        ("PriorityQueue", "pqueue", "insert", "min"),
    ]
    bounded = BoundedQueue(PLACES)
    yield [
        *(
            Case(
                f"{name} as a {kind}",
                True,
                by_kind,
                lambda kind=kind, make=getattr(queue, name), words=words: history(kind, make(), queue.Queue.put, *words),
            )
            for name, kind, *words in kinds
        ),
        Case(
            f"Queue of {PLACES} places as a bounded queue",
            True,
            by_model(bounded),
            lambda: history(bounded, queue.Queue(PLACES), put_if_room, "put", "take"),
        ),
        Case(
            "a size asked before a put",
            False,
            by_model(bounded),
            lambda: history(bounded, queue.Queue(), ask_and_put, "put", "take", clients=2),
        ),
    ]


if __name__ == "__main__":
    main(__doc__, cases)

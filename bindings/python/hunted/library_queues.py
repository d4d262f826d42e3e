"""Queues of the standard library, which are right."""

import queue


class _Library:
    def _take(self):
        try:
            return self._queue.get_nowait()
        except queue.Empty:
            return None


class LibraryQueue(_Library):
    def __init__(self):
        self._queue = queue.Queue()

    def enq(self, value):
        self._queue.put(value)

    deq = _Library._take


class LibraryStack(_Library):
    def __init__(self):
        self._queue = queue.LifoQueue()

    def push(self, value):
        self._queue.put(value)

    pop = _Library._take


class LibraryHeap(_Library):
    def __init__(self):
        self._queue = queue.PriorityQueue()

    def insert(self, value):
        self._queue.put(value)

    min = _Library._take


class BoundedQueue:
    """Its puts wait where it is full, and its takes where it is empty."""

    def __init__(self):
        self._queue = queue.Queue(2)

    def enq(self, value):
        self._queue.put(value)

    def deq(self):
        return self._queue.get()

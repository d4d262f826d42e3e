"""A ring whose takers look without a lock, and then move its head by one compare-and-set.

Wrong where the head wraps around: after as many takes as it has numbers it is the same again.
"""

import threading
import time

from .cells import Cell

_PLACES = 2


class WrappedRing:
    numbers = 2**64

    def __init__(self):
        self._values = [None] * _PLACES
        self._head = Cell(0)
        self._tail = 0
        self._lock = threading.Lock()

    def enq(self, value):
        with self._lock:
            tail = self._tail
            while (tail - self._head.value) % self.numbers >= _PLACES:
                time.sleep(0)
            self._values[tail % _PLACES] = value
            self._tail = (tail + 1) % self.numbers

    def deq(self):
        while True:
            head = self._head.value
            if head == self._tail:
                return None
            value = self._values[head % _PLACES]
            if self._head.compare_and_set(head, (head + 1) % self.numbers):
                return value


class Wrong(WrappedRing):
    numbers = 2 * _PLACES

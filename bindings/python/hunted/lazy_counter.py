"""A counter that is made when it is used first.

Wrong where it isn't looked for again under the lock.
"""

import threading

from .cells import Cell


class LazyCounter:
    looks_again = True

    def __init__(self):
        self._number = None
        self._lock = threading.Lock()

    def inc(self):
        if self._number is None:
            with self._lock:
                if self._number is None or not self.looks_again:
                    self._number = Cell(0)
        return self._number.next()


class Wrong(LazyCounter):
    looks_again = False

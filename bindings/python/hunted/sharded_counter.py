"""A counter in shards.

Wrong, since the sum of shards that others change is the number of no time.
"""

import itertools

from .cells import Cell


class OneNumber:
    def __init__(self):
        self._number = Cell(0)

    def inc(self):
        return self._number.next()


class Wrong:
    def __init__(self):
        self._shards = [Cell(0) for _ in range(2)]
        self._next = itertools.count().__next__

    def inc(self):
        before = sum(it.value for it in self._shards)
        self._shards[self._next() % 2].next()
        return before

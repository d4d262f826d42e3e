"""A register in two halves, each with a lock.

Wrong where a read takes the locks in another order than a write.
"""

import threading


class TwoHalves:
    def __init__(self):
        self._locks = threading.Lock(), threading.Lock()
        self._halves = [0, 0]

    def write(self, value):
        with self._locks[0], self._locks[1]:
            self._halves[:] = divmod(value, 2**16)

    def _read_by(self, first, second):
        with first, second:
            return self._halves[0] * 2**16 + self._halves[1]

    def read(self):
        return self._read_by(*self._locks)


class Wrong(TwoHalves):
    def read(self):
        return self._read_by(*self._locks[::-1])

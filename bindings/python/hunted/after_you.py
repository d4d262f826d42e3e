"""A counter that one thread uses at a time.

Wrong where each waits for all others that want it too.
"""

import threading
import time


class LockedCounter:
    def __init__(self):
        self._number = 0
        self._lock = threading.Lock()

    def inc(self):
        with self._lock:
            self._number += 1
            return self._number - 1


class Wrong:
    def __init__(self):
        self._number = 0
        self._want = set()

    def inc(self):
        self._want.add(threading.get_ident())
        while len(self._want) > 1:
            time.sleep(0)
        self._number += 1
        number = self._number - 1
        self._want.discard(threading.get_ident())
        return number

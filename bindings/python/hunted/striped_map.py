"""A map in stripes, each a dict behind a lock.

Wrong where it looks under the lock, and then changes under it again.
"""

import threading


class StripedMap:
    def __init__(self):
        self._stripes = [(threading.Lock(), {}) for _ in range(2)]

    def _stripe(self, key):
        return self._stripes[key % 2]

    def put(self, key, value):
        lock, values = self._stripe(key)
        with lock:
            old = values.get(key)
            values[key] = value
            return old

    def get(self, key):
        lock, values = self._stripe(key)
        with lock:
            return values.get(key)

    def del_(self, key):
        lock, values = self._stripe(key)
        with lock:
            return values.pop(key, None)


class Wrong(StripedMap):
    def put(self, key, value):
        old = self.get(key)
        lock, values = self._stripe(key)
        with lock:
            values[key] = value
        return old

"""A map as a dict. Wrong where a put gets what was, and then sets."""

import threading


class Wrong:
    def __init__(self):
        self._values = {}

    def put(self, key, value):
        old = self._values.get(key)
        self._values[key] = value
        return old

    def get(self, key):
        return self._values.get(key)

    def del_(self, key):
        return self._values.pop(key, None)


class LockedDict(Wrong):
    def __init__(self):
        super().__init__()
        self._lock = threading.Lock()

    def put(self, key, value):
        with self._lock:
            return super().put(key, value)

    def get(self, key):
        with self._lock:
            return super().get(key)

    def del_(self, key):
        with self._lock:
            return super().del_(key)

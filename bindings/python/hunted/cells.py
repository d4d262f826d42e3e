"""A cell whose value is read at once, and whose changes are each one step for other threads."""

import threading


class Cell:
    def __init__(self, value):
        self.value = value
        self._lock = threading.Lock()

    def set(self, value):
        with self._lock:
            self.value = value

    def compare_and_set(self, old, new):
        with self._lock:
            if self.value != old:
                return False
            self.value = new
            return True

    def next(self):
        """One more; it gives what was."""
        with self._lock:
            old = self.value
            self.value = old + 1
            return old

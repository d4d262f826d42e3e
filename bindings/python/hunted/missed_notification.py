"""A queue whose takers wait for a value.

Wrong where they look for one before they have the lock.
"""

import collections
import threading


class WaitingQueue:
    def __init__(self):
        self._values = collections.deque()
        self._changed = threading.Condition()

    def enq(self, value):
        with self._changed:
            self._values.append(value)
            self._changed.notify()

    def deq(self):
        with self._changed:
            while not self._values:
                self._changed.wait()
            return self._values.popleft()


class Wrong(WaitingQueue):
    def deq(self):
        while not self._values:
            with self._changed:
                self._changed.wait()
        with self._changed:
            return self._values.popleft() if self._values else None

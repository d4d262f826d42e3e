"""A queue as a deque. Wrong where it looks whether there is a value, and then takes one."""

import collections


class DequeQueue:
    def __init__(self):
        self._values = collections.deque()

    def enq(self, value):
        self._values.append(value)

    def deq(self):
        try:
            return self._values.popleft()
        except IndexError:
            return None


class Wrong(DequeQueue):
    def deq(self):
        return self._values.popleft() if self._values else None

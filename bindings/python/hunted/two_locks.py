"""A stack as a linked list. Wrong where pushes have one lock, and pops another one."""

import threading


class LockedStack:
    def __init__(self):
        self._top = None
        self._pushes = self._pops = threading.Lock()

    def push(self, value):
        with self._pushes:
            self._top = value, self._top

    def pop(self):
        with self._pops:
            if self._top is None:
                return None
            value, self._top = self._top
            return value


class Wrong(LockedStack):
    def __init__(self):
        super().__init__()
        self._pops = threading.Lock()

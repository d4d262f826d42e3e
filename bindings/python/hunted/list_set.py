"""A set as a sorted list whose nodes have locks (Heller and others 2005).

Wrong where a removed node has no mark: what is added after it goes with it.
"""

import threading


class _Node:
    def __init__(self, value, after=None):
        self.value, self.next = value, after
        self.is_removed = False
        self.lock = threading.Lock()


class ListSet:
    has_marks = True

    def __init__(self):
        self._first = _Node(-1, _Node(2**32))

    def _find(self, value):
        before = self._first
        node = before.next
        while node.value < value:
            before, node = node, node.next
        return before, node

    def _is_there(self, before, node):
        if self.has_marks and (before.is_removed or node.is_removed):
            return False
        return before.next is node

    def _change(self, value, change):
        while True:
            before, node = self._find(value)
            with before.lock, node.lock:
                if self._is_there(before, node):
                    return change(before, node)

    def add(self, value):
        def change(before, node):
            if node.value == value:
                return False
            before.next = _Node(value, node)
            return True

        return self._change(value, change)

    def remove(self, value):
        def change(before, node):
            if node.value != value:
                return False
            node.is_removed = True
            before.next = node.next
            return True

        return self._change(value, change)

    def has(self, value):
        node = self._find(value)[1]
        return node.value == value and not (self.has_marks and node.is_removed)


class Wrong(ListSet):
    has_marks = False

"""A queue of linked nodes that are used again (Michael and Scott 1996), each pointer with a count.

Wrong where an enqueue doesn't look at the tail again once it has the tail's next node: the node may
be in use elsewhere.
"""

import threading

from .cells import Cell


class _Node:
    def __init__(self):
        self.value = None
        self.next = Cell((None, 0))


def _swings(cell, old, node):
    return cell.compare_and_set(old, (node, old[1] + 1))


class ReusedNodes:
    looks_again = True

    def __init__(self):
        first = _Node()
        self._free = []
        self._lock = threading.Lock()
        self._head, self._tail = Cell((first, 0)), Cell((first, 0))

    def _take_node(self):
        with self._lock:
            return self._free.pop() if self._free else _Node()

    def enq(self, value):
        node = self._take_node()
        node.value = value
        node.next.set((None, node.next.value[1] + 1))
        while True:
            tail = self._tail.value
            after = tail[0].next.value
            if self.looks_again and self._tail.value is not tail:
                continue
            if after[0] is not None:
                _swings(self._tail, tail, after[0])
            elif _swings(tail[0].next, after, node):
                _swings(self._tail, tail, node)
                return

    def deq(self):
        while True:
            head, tail = self._head.value, self._tail.value
            after = head[0].next.value
            if self._head.value is not head:
                continue
            if after[0] is None:
                return None
            if head[0] is tail[0]:
                _swings(self._tail, tail, after[0])
                continue
            value = after[0].value
            if _swings(self._head, head, after[0]):
                with self._lock:
                    self._free.append(head[0])
                return value


class Wrong(ReusedNodes):
    looks_again = False

"""A priority queue as a heap.

Wrong where a min looks at the least under the lock, and takes under it again.
"""

import heapq
import threading


class LockedHeap:
    def __init__(self):
        self._heap = []
        self._lock = threading.Lock()

    def insert(self, value):
        with self._lock:
            heapq.heappush(self._heap, value)

    def min(self):
        with self._lock:
            return heapq.heappop(self._heap) if self._heap else None


class Wrong(LockedHeap):
    def min(self):
        with self._lock:
            if not self._heap:
                return None
            least = self._heap[0]
        with self._lock:
            if self._heap:
                heapq.heappop(self._heap)
        return least

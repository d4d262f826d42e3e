import collections
import threading

from selfcheck.hunts import Settings, hunt


class Tickets:
    def __init__(self):
        self.waiting = collections.deque()
        self.lock = threading.Lock()

    def enq(self, ticket):
        with self.lock:
            self.waiting.append(ticket)

    def deq(self):
        with self.lock:
            first = self.waiting[0] if self.waiting else None
        with self.lock:
            if self.waiting:
                self.waiting.popleft()
        return first


print(hunt(Settings("queue", folder="findings"), Tickets))

"""A bounded queue that refuses when it is full, whose calls check themselves by a model of its own: four threads call a right
one, and then one that reads the first value and removes it in two steps, with the processor given away between them. Two
threads take one value, and the call that shows it is an error, with its calls. With a word these are shown too."""

import sys
import threading
import time

import selfcheck

PLACES, THREADS, CALLS = 2, 4, 64


class Bounded:
    def init(self):
        return ()

    def step(self, state, op):
        name, *values = op
        if name == "put":
            return (state, False) if len(state) == PLACES else ((*state, *values), True)
        return (state[1:], state[0]) if state else (state, None)

    def leaves(self, op, reply):
        return reply is False or reply is None


class Queue:
    def __init__(self, is_hasty):
        self.is_hasty, self.values, self.lock = is_hasty, [], threading.Lock()

    def put(self, value):
        with self.lock:
            return len(self.values) < PLACES and self.values.append(value) is None

    def take(self):
        with self.lock:
            first = self.values[0] if self.values else None
            if not self.is_hasty:
                del self.values[:1]
        if self.is_hasty:
            time.sleep(0)
            with self.lock:
                del self.values[:1]
        return first


def run(is_hasty):
    """How many calls are delivered, and the errors."""
    queue, delivered, errors = Queue(is_hasty), [], []
    checked = selfcheck.Enforced(Bounded(), callers=THREADS, calls=CALLS)

    def work(caller, number):
        try:
            for at in range(CALLS):
                if at % 2 == 0:
                    value = f"{at} of {number}"
                    caller.call("put", value, lambda: queue.put(value))
                else:
                    caller.call("take", queue.take)
                delivered.append(at)
        except selfcheck.Illegal as error:
            errors.append(error)

    threads = [threading.Thread(target=work, args=(checked.caller(), number)) for number in range(THREADS)]
    for thread in threads:
        thread.start()
    for thread in threads:
        thread.join()
    return len(delivered), errors


delivered, errors = run(False)
print(f"right: {delivered} calls are delivered, and {len(errors)} are errors")
for _ in range(100):
    _, errors = run(True)
    if errors:
        print("hasty: an error, with its calls")
        verdict = selfcheck.judge(Bounded(), errors[0].events)
        print("judged again:", "legal" if verdict.legal else "illegal")
        if len(sys.argv) > 1:
            print(errors[0], errors[0].book, sep="\n")
        break

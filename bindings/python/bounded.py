"""A bounded queue that refuses when it is full, which none of the library's kinds is, judged by a model of its own: a right
and a wrong history, and what threads did to a queue, which has as many places as the model, or one more."""

import collections
import threading

import selfcheck


class Bounded:
    def init(self):
        return ()

    def step(self, state, op):
        name, *values = op
        if name == "put":
            return (state, False) if len(state) == 2 else ((*state, *values), True)
        return (state[1:], state[0]) if state else (state, None)

    def leaves(self, op, reply):
        return reply is False or reply is None


def write(name, verdict):
    print(f"{name}: {'legal' if verdict.legal else 'illegal'}", end="")
    if verdict.legal and verdict.kept < 8:
        print(":", ", ".join(" ".join(map(str, call.op)) for call in verdict.order), end="")
    print()


# While one caller puts 1, 2 and 3, of which the last is refused, the other one takes a value.
for name, taken in ("first", 1), ("second", 2):
    events = [("begin", "taker", ("take",))]
    for value in 1, 2, 3:
        events += [("begin", "putter", ("put", value)), ("end", "putter", value < 3)]
    write(f"takes the {name} value", selfcheck.judge(Bounded(), [*events, ("end", "taker", taken)]))


def judge_threads(places):
    recorder, lock, values = selfcheck.Recorder(Bounded()), threading.Lock(), collections.deque()

    def put(value):
        with lock:
            return len(values) < places and values.append(value) is None

    def take():
        with lock:
            return values.popleft() if values else None

    def work():
        for value in range(1, 25):
            if value % 8 < 4:
                recorder.call("put", value, lambda: put(value))
            else:
                recorder.call("take", take)

    for value in 1, 2, 3:
        recorder.call("put", value, lambda: put(value))
    threads = [threading.Thread(target=work) for _ in range(3)]
    for thread in threads:
        thread.start()
    for thread in threads:
        thread.join()
    return recorder.verify()


write("two places", judge_threads(2))
write("three places", judge_threads(3))

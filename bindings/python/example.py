"""A deque, which is a queue, and a counter that adds in two steps, which is none."""

import collections
import threading

import selfcheck


def book_of(kind, count, work):
    recorder = selfcheck.Recorder(kind)
    threads = [threading.Thread(target=work, args=(recorder.caller(), t)) for t in range(count)]
    for thread in threads:
        thread.start()
    for thread in threads:
        thread.join()
    return recorder.book()


queue = collections.deque()


def take_turns(me, t):
    for i in range(2):
        value = 10 * t + i
        me.call("enq", value, lambda: queue.append(value))
        # one step of the deque, as `if queue` before it is another
        me.call("deq", lambda: next(iter_pop(queue), None))


def iter_pop(items):
    try:
        yield items.popleft()
    except IndexError:
        return


numbers, between = [0], threading.Barrier(2)


def increment(me, _):
    def torn():
        number = numbers[0]
        between.wait()
        numbers[0] = number + 1
        return number

    me.call("inc", torn)


for book in book_of("queue", 2, take_turns), book_of("counter", 2, increment):
    print(book, end="")
    print("legal" if selfcheck.verify(book) else "illegal")

"""What is recorded of objects on threads, how it is judged, and texts of any origin."""

import asyncio
import collections
import concurrent.futures
import ctypes
import itertools
import os
import pathlib
import pickle
import random
import signal
import subprocess
import sys
import tempfile
import threading
import time
import unittest

import selfcheck

LOST_VALUE = "book 2\nobject queue\ncallers 2\ncalls 1 1\n0 0 enq 5 done view 0:1\n1 0 deq none view 0:1 1:1\nend\n"


def run_threads(count, work, *arguments):
    threads = [threading.Thread(target=work, args=[it(t) for it in arguments]) for t in range(count)]
    for thread in threads:
        thread.start()
    for thread in threads:
        thread.join()


def record(kind, count, work):
    recorder = selfcheck.Recorder(kind)
    run_threads(count, work, lambda _: recorder.caller(), lambda t: t)
    return recorder.book()


class Library(unittest.TestCase):
    def test_missing(self):
        script = "try:\n    import selfcheck\nexcept ImportError as error:\n    print(error)\n"
        nowhere = {**os.environ, "SELFCHECK_SO": "/nowhere/libselfcheck.so"}
        said = subprocess.check_output([sys.executable, "-c", script], env=nowhere, text=True)
        cause, ways = said.splitlines()
        self.assertIn("/nowhere/libselfcheck.so", cause)
        for way in "a release", "bindings/try", "SELFCHECK_LIB", "SELFCHECK_SO":
            self.assertIn(way, ways)


class Texts(unittest.TestCase):
    def test_examples(self):
        folder = os.environ.get("SELFCHECK_BOOKS", os.path.join(os.path.dirname(__file__), "..", "..", "examples"))
        wanted = {"lost-value": False, "lost-increment": False, "overlapping-calls": True, "one-caller-legal": True}
        for name, is_legal in wanted.items():
            with open(os.path.join(folder, f"{name}.book"), "rb") as it:
                self.assertEqual(selfcheck.verify(it.read()), is_legal, name)

    def test_certificates(self):
        book = "book 2\nobject queue\ncallers 1\ncalls 2\n0 0 enq 5 done view 0:1\n0 1 deq =5 view 0:2\nend\n"
        certificate = selfcheck.certify(book)
        self.assertEqual(certificate, book + "order 2\n0 0 done\n0 1 =5\nend\n")
        self.assertTrue(selfcheck.order(certificate))
        self.assertFalse(selfcheck.order(book + "order 2\n0 1 =5\n0 0 done\nend\n"))
        self.assertIsNone(selfcheck.certify(LOST_VALUE))

    def test_smaller_books(self):
        begun = "book 2\nobject queue\ncallers 2\ncalls 3 1\n0 0 enq 5 done view 0:1\n"
        book = begun + "0 1 enq 6 done view 0:2\n0 2 deq =6 view 0:3\n1 0 deq none view 0:3 1:1\nend\n"
        small = selfcheck.smaller(book)
        self.assertLess(small.count("\n"), book.count("\n"))
        self.assertFalse(selfcheck.verify(small))
        self.assertEqual(selfcheck.smaller("illegal\n" + book), small)
        self.assertIsNone(selfcheck.smaller("book 2\nobject queue\ncallers 1\ncalls 1\n0 0 deq none view 0:1\nend\n"))

    def test_explanations(self):
        begun = "book 2\nobject queue\ncallers 1\ncalls 3\n0 0 enq 1 done view 0:1\n0 1 enq 2 done view 0:2\n"
        passed_over = "call 0 0 put 1 in first, yet call 0 2 took 2 while it was there\n"
        for took, line in (2, passed_over), (1, None):
            book = f"{begun}0 2 deq ={took} view 0:3\nend\n"
            self.assertEqual(selfcheck.explain(book), line)
            self.assertEqual(selfcheck.explain("illegal\n" + book), line)

    def test_pictures(self):
        picture = selfcheck.picture(LOST_VALUE)
        self.assertTrue(picture.startswith("<svg ") and picture.endswith("</svg>\n"))
        for call in "call-0-0", "call-1-0":
            self.assertEqual(picture.count(f'id="{call}"'), 1)

    def test_refusals(self):
        reading = selfcheck.smaller, selfcheck.explain, selfcheck.picture
        for judge in selfcheck.verify, selfcheck.certify, selfcheck.order, *reading:
            with self.assertRaises(selfcheck.Refused) as it:
                judge("book 2\nobject queue\ncallers 1\ncalls 1\n0 0 deq none view 0:2\nend\n")
            self.assertEqual((it.exception.line, it.exception.what), (5, "ViewOutside"))
            self.assertEqual(str(it.exception), "refused 5 ViewOutside")
        with self.assertRaises(selfcheck.Refused):
            selfcheck.verify("")

    # Eight callers write to a register, each another value, and a ninth one reads, all at once. An order of nine calls takes
    # nine steps, and before it is known that nobody wrote what is read, each of the 256 sets of writes is tried.
    def test_limit(self):
        view = "".join(f" {caller}:1" for caller in range(9))
        writes = "".join(f"{caller} 0 write {caller} done view{view}\n" for caller in range(8))
        for value, is_legal, few in (7, True, 8), (8, False, 255):
            book = f"book 2\nobject casreg\ncallers 9\ncalls{' 1' * 9}\n{writes}8 0 read ={value} view{view}\nend\n"
            for steps in 0, few:
                self.assertIsNone(selfcheck.verify(book, steps=steps))
                self.assertEqual(selfcheck.verify_many([book], steps=steps), [(0, None, None)])
            for steps in 10**6, None:
                self.assertIs(selfcheck.verify(book, steps=steps), is_legal)
                self.assertEqual(selfcheck.verify_many([book], steps=steps), [(0, is_legal, None)])
        for judge in selfcheck.verify, lambda book, steps: selfcheck.verify_many([book], steps=steps):
            for steps in -1, 2**64:
                with self.assertRaises(ValueError):
                    judge(book, steps=steps)
        with self.assertRaises(selfcheck.Refused) as it:
            selfcheck.verify("", steps=0)
        self.assertEqual((it.exception.line, it.exception.what), (1, "Cut"))


class ManyBooks(unittest.TestCase):
    LEGAL = LOST_VALUE.replace("deq none", "deq =5")

    def test_one_by_one(self):
        nowhere = pathlib.Path("/nowhere/some.book")
        books = [self.LEGAL, LOST_VALUE.encode(), "", None, nowhere, self.LEGAL.encode(), b"\xff"]
        wanted = [True, False, selfcheck.Refused, TypeError, FileNotFoundError, True, selfcheck.Refused]
        for threads in (None, 1, 2, 9):
            judged = selfcheck.verify_many(iter(books), threads)
            self.assertEqual([it.index for it in judged], list(range(len(books))))
            said = [it.legal if it.error is None else type(it.error) for it in judged]
            self.assertEqual(said, wanted)
            self.assertEqual((judged[2].error.line, judged[2].error.what, judged[2].legal), (1, "Cut", None))
        self.assertEqual(selfcheck.verify_many([]), [])

    # The verdicts of many books are those of one after the other, by whichever thread.
    def test_order(self):
        rnd = random.Random(1)
        books = [rnd.choice((self.LEGAL, LOST_VALUE)) for _ in range(500)]
        judged = selfcheck.verify_many(books, 4)
        self.assertEqual([it.legal for it in judged], [it is self.LEGAL for it in books])

    def test_files(self):
        with tempfile.TemporaryDirectory() as folder:
            paths = [pathlib.Path(folder, name) for name in "abc"]
            for path, text in zip(paths, (LOST_VALUE, self.LEGAL)):
                path.write_text(text)
            self.assertEqual([it.legal for it in selfcheck.verify_many(paths)], [False, True, None])

    # What other processes hand back is as it was.
    def test_pickled(self):
        for it in selfcheck.verify_many([LOST_VALUE, "book 2\nobject queue\ncallers 0\n"]):
            again = pickle.loads(pickle.dumps(it))
            self.assertEqual((again[:2], repr(again.error), str(again.error)), (it[:2], repr(it.error), str(it.error)))
        self.assertEqual(str(again.error), "refused 3 Callers")

    # Nothing is judged to its end that nobody wants.
    def test_ends(self):
        def broken():
            yield LOST_VALUE
            raise ZeroDivisionError

        with self.assertRaises(ZeroDivisionError):
            selfcheck.verify_many(broken(), 3)
        with self.assertRaises(ValueError):
            selfcheck.verify_many([], -1)
        signal.signal(signal.SIGALRM, signal.default_int_handler)
        signal.setitimer(signal.ITIMER_REAL, 0.2)
        with self.assertRaises(KeyboardInterrupt):
            selfcheck.verify_many(itertools.repeat(LOST_VALUE), 2)

    def test_lock(self):
        self.assertIsInstance(selfcheck._library, ctypes.CDLL)
        self.assertNotIsInstance(selfcheck._library, ctypes.PyDLL, "it would be called with the interpreter's lock")


class Recordings(unittest.TestCase):
    def test_lost_value(self):
        recorder = selfcheck.Recorder("queue")
        recorder.caller().call("enq", 5, lambda: None)
        recorder.caller().call("deq", lambda: None)
        self.assertEqual(recorder.book(), LOST_VALUE)
        self.assertFalse(selfcheck.verify(recorder.book()))

    def test_overlapping_calls(self):
        recorder = selfcheck.Recorder("queue")
        enq = recorder.caller().invoke("enq", 5)
        deq = recorder.caller().invoke("deq")
        enq(None)
        deq(None)
        self.assertIn("\n0 0 enq 5 done view 0:1 1:1\n", recorder.book())
        self.assertTrue(selfcheck.verify(recorder.book()))

    def test_deque(self):
        for threads in range(1, 17):
            queue, lock = collections.deque(), threading.Lock()

            def take():
                with lock:
                    return queue.popleft() if queue else None

            def work(me, t):
                for i in range(64 // threads):
                    value = 100 * t + i
                    me.call("enq", value, lambda: queue.append(value))
                    me.call("deq", take)

            self.assertTrue(selfcheck.verify(record("queue", threads, work)))

    def test_torn_counter(self):
        numbers, between = [0], threading.Barrier(2)

        def work(me, _):
            def torn():
                number = numbers[0]
                between.wait()
                numbers[0] = number + 1
                return number

            me.call("inc", torn)

        self.assertFalse(selfcheck.verify(record("counter", 2, work)))

    # One operation of each name, with replies that are worked by hand; in the last call of each kind the second is wrong.
    def test_kinds(self):
        kinds = {
            "queue": [("enq", 1, None), ("deq", 1, 2)],
            "stack": [("push", 1, None), ("push", 2, None), ("pop", 2, 1)],
            "register": [("write", 7, None), ("read", 7, 0)],
            "counter": [("inc", 0), ("inc", 1, 0)],
            "set": [("add", 3, True), ("remove", 4, False), ("has", 3, True, False)],
            "pqueue": [("insert", 5, None), ("insert", 4, None), ("min", 4, 5)],
            "casreg": [("cas", 0, 9, True), ("write", 6, None), ("read", 6, 9)],
            "map": [("put", 1, 10, None), ("get", 1, 10), ("del", 1, 10, None)],
        }
        for kind, calls in kinds.items():
            for wrong in False, True:
                recorder = selfcheck.Recorder(kind)
                me = recorder.caller()
                for *call, reply in [*calls[:-1], calls[-1][:-1]]:
                    me.call(*call, lambda reply=calls[-1][-1] if wrong and call == list(calls[-1][:-2]) else reply: reply)
                self.assertEqual(selfcheck.verify(recorder.book()), not wrong, recorder.book())

    def test_lost_calls(self):
        recorder = selfcheck.Recorder("queue")
        me = recorder.caller()
        for caller in me, recorder:
            with self.assertRaises(ZeroDivisionError):
                caller.call("enq", 7, lambda: 1 // 0)
        me.call("deq", lambda: 7)
        wanted = "callers 3\ncalls 1 1 1\n0 0 enq 7\n1 0 enq 7\n2 0 deq =7 view 0:1 1:1 2:1\nend\n"
        self.assertTrue(recorder.book().endswith(wanted), recorder.book())
        self.assertTrue(selfcheck.verify(recorder.book()))

    def test_refusals(self):
        for wrong in ("heap",), ("queue", "pop"), ("queue", "enq", -1), ("queue", "enq", 2**32):
            with self.assertRaises(ValueError):
                selfcheck.Recorder(wrong[0]).invoke(*wrong[1:])
        with self.assertRaises(TypeError):
            selfcheck.Recorder("queue").invoke("deq", 1)
        with self.assertRaises(ValueError):
            selfcheck.Recorder("queue", open_calls=0)


class Lanes(unittest.TestCase):
    """Calls of threads and tasks that come and go, and histories that don't fit a book."""

    # threads in turn, how many at once, and calls of each
    def test_short_threads(self):
        for threads, at_once, calls in (400, 1, 4), (200, 10, 4):
            for by_caller in False, True:
                recorder, tick = selfcheck.Recorder("counter"), itertools.count().__next__

                def work():
                    me = recorder.caller() if by_caller else recorder
                    for _ in range(calls):
                        me.call("inc", tick)

                for _ in range(threads // at_once):
                    run_threads(at_once, work)
                self.assertEqual(recorder.prefix()[1:], (threads * calls, 0))
                self.assertTrue(selfcheck.verify(recorder.book()))

    # 12 tasks, of which the executor's 4 threads run some at once: a right counter, and a torn one
    def test_pool(self):
        for is_torn in False, True:
            recorder, numbers, lock = selfcheck.Recorder("counter"), [0], threading.Lock()
            between = threading.Barrier(4)

            def inc():
                if is_torn:
                    number = numbers[0]
                    between.wait()
                    numbers[0] = number + 1
                    return number
                with lock:
                    numbers[0] += 1
                    return numbers[0] - 1

            with concurrent.futures.ThreadPoolExecutor(4) as pool:
                tasks = [pool.submit(recorder.call, "inc", inc) for _ in range(12)]
            for task in tasks:
                task.result()
            self.assertEqual(selfcheck.verify(recorder.book()), not is_torn)

    def test_tasks(self):
        for is_torn in False, True:
            recorder, numbers = selfcheck.Recorder("counter"), [0]

            async def inc():
                number = numbers[0]
                if is_torn:
                    await asyncio.sleep(0)
                numbers[0] = number + 1
                return number

            async def life():
                for _ in range(5):
                    await recorder.call_async("inc", inc())

            async def all_lives():
                await asyncio.gather(*(life() for _ in range(12)))

            asyncio.run(all_lives())
            self.assertEqual(selfcheck.verify(recorder.book()), not is_torn)

    # Books that are made while threads call a right queue, and the last one after that.
    def test_books_amid_calls(self):
        recorder, queue, lock = selfcheck.Recorder("queue"), collections.deque(), threading.Lock()

        def take():
            with lock:
                return queue.popleft() if queue else None

        def work(t):
            for value in range(100 * t, 100 * t + 40):
                recorder.call("enq", value, lambda: queue.append(value))
                recorder.call("deq", take)
                time.sleep(0)

        threads = [threading.Thread(target=work, args=[t]) for t in range(4)]
        for thread in threads:
            thread.start()
        counts = []
        while not counts or any(thread.is_alive() for thread in threads):
            first = recorder.prefix()
            self.assertTrue(selfcheck.verify(first.book), first.book)
            counts.append(first.kept)
        self.assertEqual(counts, sorted(counts))
        for thread in threads:
            thread.join()
        self.assertEqual(recorder.prefix()[1:], (320, 0))
        self.assertTrue(selfcheck.verify(recorder.book()))

    def test_cancelled_task(self):
        recorder = selfcheck.Recorder("queue")

        async def enq():
            await asyncio.Event().wait()

        async def cancel():
            task = asyncio.ensure_future(recorder.call_async("enq", 7, enq()))
            await asyncio.sleep(0)
            task.cancel()
            with self.assertRaises(asyncio.CancelledError):
                await task
            recorder.call("deq", lambda: 7)

        asyncio.run(cancel())
        wanted = "callers 2\ncalls 1 1\n0 0 enq 7\n1 0 deq =7 view 0:1 1:1\nend\n"
        self.assertTrue(recorder.book().endswith(wanted), recorder.book())

    def test_open_calls(self):
        recorder, numbers, lock = selfcheck.Recorder("counter", open_calls=3), [0, 0], threading.Lock()

        def inc():
            with lock:
                numbers[1] += 1
                self.assertLessEqual(numbers[1], 3)
            time.sleep(0)
            with lock:
                numbers[1] -= 1
                numbers[0] += 1
                return numbers[0] - 1

        run_threads(40, lambda: [recorder.call("inc", inc) for _ in range(5)])
        self.assertEqual(recorder.prefix()[1:], (200, 0))
        self.assertTrue(selfcheck.verify(recorder.book()))

    def test_sixteen_open_calls(self):
        recorder = selfcheck.Recorder("counter")
        for number, ret in enumerate([recorder.invoke("inc") for _ in range(17)]):
            ret(number)
        with self.assertRaises(selfcheck.Incomplete) as it:
            recorder.book()
        self.assertEqual((it.exception.kept, it.exception.left_out), (16, 1))
        lines = "".join(f"{caller} 0 inc\n" for caller in range(16))
        wanted = f"book 2\nobject counter\ncallers 16\ncalls{' 1' * 16}\n{lines}end\n"
        self.assertEqual(recorder.prefix(), (wanted, 16, 1))

    def test_lost_reads(self):
        kinds = {
            "queue": [("enq", 1), ("deq",)],
            "stack": [("push", 1), ("pop",)],
            "register": [("read",), ("write", 1)],
            "counter": [("inc",)],
            "set": [("has", 1), ("add", 1), ("remove", 1)],
            "pqueue": [("insert", 1), ("min",)],
            "casreg": [("read",), ("write", 1), ("cas", 1, 2)],
            "map": [("get", 1), ("put", 1, 2), ("del", 1)],
        }
        for kind, operations in kinds.items():
            recorder = selfcheck.Recorder(kind)
            for operation in operations:
                recorder.invoke(*operation)
            changing = [" ".join(map(str, it)) for it in operations if it[0] not in ("read", "has", "get")]
            lines = "".join(f"{caller} 0 {it}\n" for caller, it in enumerate(changing))
            self.assertTrue(recorder.book().endswith(f"\n{lines}end\n"), recorder.book())

    # Random histories: the whole book is legal exactly where that of each key is.
    def test_keys(self):
        draw = random.Random(7)
        kinds = {
            "set": ([("add",), ("remove",), ("has",)], [True, False]),
            "map": ([("put", 0), ("put", 1), ("get",), ("del",)], [None, 0, 1]),
        }
        for kind, (operations, replies) in kinds.items():
            counts = collections.Counter()
            for _ in range(500):
                recorder, pending = selfcheck.Recorder(kind), []
                for _ in range(6):
                    op, *values = draw.choice(operations)
                    pending.append(recorder.invoke(op, draw.randrange(2), *values))
                    while pending and draw.randrange(2):
                        ret = pending.pop(draw.randrange(len(pending)))
                        if draw.randrange(8):
                            ret(draw.choice(replies))
                is_legal = selfcheck.verify(recorder.book())
                parts = recorder.by_key().values()
                self.assertEqual(all(selfcheck.verify(part.book) for part in parts), is_legal, recorder.book())
                counts[is_legal] += 1
            self.assertGreaterEqual(min(counts[True], counts[False]), 50, counts)
        with self.assertRaises(TypeError):
            selfcheck.Recorder("queue").by_key()

    # 20 threads with more calls than a book has: those of each key fit.
    def test_limits_by_key(self):
        for forgotten in None, 3:
            recorder, things, lock = selfcheck.Recorder("map"), {}, threading.Lock()

            def put(key, value):
                with lock:
                    old = things.get(key)
                    if key != forgotten:
                        things[key] = value
                    return old

            def work(t):
                for i in range(220):
                    key = 2 * (i % 10) + t % 2
                    recorder.call("put", key, i, lambda: put(key, i))

            run_threads(20, work, lambda t: t)
            with self.assertRaises(selfcheck.Incomplete):
                recorder.book()
            parts = recorder.by_key()
            self.assertEqual({part[1:] for part in parts.values()}, {(220, 0)})
            wrong = [key for key, part in parts.items() if not selfcheck.verify(part.book)]
            self.assertEqual((len(parts), wrong), (20, [] if forgotten is None else [3]))

    # The calls before two that overlap, and how many fit; with a call that is open all the time there is no quiet moment.
    def test_long_histories(self):
        for before, kept, is_open in (4096, 4096, False), (4095, 4095, False), (4094, 4096, False), (4096, 3841, True):
            recorder = selfcheck.Recorder("counter")
            long = [recorder.invoke("inc") for _ in range(is_open)]
            for number in range(before):
                recorder.call("inc", lambda: number)
            for number, ret in enumerate([recorder.invoke("inc") for _ in range(2)] + long, before):
                ret(number)
            first = recorder.prefix()
            self.assertEqual(first[1:], (kept, before + 2 + is_open - kept))
            self.assertEqual(first.book.count(" inc\n"), is_open)
            self.assertTrue(selfcheck.verify(first.book))


class Enforced(unittest.TestCase):
    """Calls that check themselves."""

    # An operation and a reply of each name, worked by hand; with the last one wrong the call is an error.
    def test_kinds(self):
        kinds = {
            "queue": [("enq", 1, None), ("enq", 2, None), ("deq", 1, 2)],
            "stack": [("push", 1, None), ("push", 2**32 - 1, None), ("pop", 2**32 - 1, 1)],
            "register": [("write", 7, None), ("read", 7, 8)],
            "counter": [("inc", 0), ("inc", 1, 2)],
            "set": [("add", 3, True), ("add", 3, False), ("remove", 3, True), ("has", 3, False, True)],
            "pqueue": [("insert", 5, None), ("insert", 4, None), ("min", 4, None)],
            "casreg": [("cas", 0, 9, True), ("cas", 0, 8, False), ("write", 6, None), ("read", 6, 9)],
            "map": [("put", 1, 10, None), ("put", 1, 11, 10), ("get", 2, None), ("del", 1, 11, None)],
        }
        for kind, calls in kinds.items():
            *begun, (*last, right, wrong) = calls
            for by_caller in False, True:
                for reply in right, wrong:
                    thing = selfcheck.Enforced(kind, callers=1, calls=8)
                    me = thing.caller() if by_caller else thing
                    for *call, told in begun:
                        self.assertIs(me.call(*call, lambda told=told: told), told)
                    if reply == right:
                        self.assertEqual(me.call(*last, lambda: reply), reply)
                        continue
                    with self.assertRaises(selfcheck.Illegal) as it:
                        me.call(*last, lambda: reply)
                    self.assertEqual(it.exception.reply, reply)
                    self.assertFalse(selfcheck.verify(it.exception.book))
                    lines = it.exception.book.splitlines()
                    self.assertEqual(lines[:4], ["book 2", f"object {kind}", "callers 1", f"calls {len(calls)}"])
                    self.assertIn(" ".join(map(str, last)), lines[-2])
                    with self.assertRaises(selfcheck.NoCallLeft):
                        me.call(*last, lambda: right)

    # More threads than callers: each call waits for one that is free, and callers without a call left are replaced.
    def test_threads(self):
        queue, lock = collections.deque(), threading.Lock()
        checked = selfcheck.Enforced("queue", callers=3, calls=32)

        def take():
            with lock:
                return queue.popleft() if queue else None

        def work(t):
            for i in range(6):
                checked.call("enq", 10 * t + i, lambda: queue.append(10 * t + i))
                checked.call("deq", take)

        run_threads(8, work, lambda t: t)
        with self.assertRaises(selfcheck.NoCallLeft):
            checked.call("deq", take)

    def test_error(self):
        numbers, between = [0], threading.Barrier(2)
        counter, found = selfcheck.Enforced("counter", callers=2, calls=8), []

        def torn():
            number = numbers[0]
            between.wait()
            numbers[0] = number + 1
            return number

        def work():
            try:
                counter.call("inc", torn)
            except selfcheck.Illegal as error:
                found.append(error.book)

        run_threads(2, work)
        self.assertIn(len(found), (1, 2))
        for book in found:
            self.assertFalse(selfcheck.verify(book))

    # A call that raises stays unanswered, and its caller makes no further call.
    def test_lost_calls(self):
        checked = selfcheck.Enforced("queue", callers=2, calls=3)
        with self.assertRaises(ZeroDivisionError):
            checked.call("enq", 7, lambda: 1 // 0)
        self.assertEqual(checked.call("deq", lambda: 7), 7)
        stays = selfcheck.Enforced("queue", callers=1, calls=3).caller()
        with self.assertRaises(ValueError):
            stays.call("deq", lambda: -1)
        with self.assertRaises(selfcheck.NoCallLeft):
            stays.call("deq", lambda: None)

    def test_limits(self):
        for callers, calls in (0, 1), (17, 1), (1, 0), (1, 257):
            with self.assertRaises(ValueError):
                selfcheck.Enforced("queue", callers, calls)
        for wrong in ("heap",), ("queue", "pop"), ("queue", "enq", -1):
            with self.assertRaises(ValueError):
                selfcheck.Enforced(wrong[0]).call(*wrong[1:], lambda: None)
        counter = selfcheck.Enforced("counter", callers=3, calls=2)
        stays, numbers = counter.caller(), itertools.count()
        for number in range(4):
            self.assertEqual(counter.call("inc", numbers.__next__), number)
        for _ in range(2):
            with self.assertRaises(selfcheck.NoCallLeft):
                counter.call("inc", self.fail)
        with self.assertRaises(selfcheck.NoCallLeft):
            counter.caller()
        self.assertEqual(stays.call("inc", numbers.__next__), 4)


if __name__ == "__main__":
    unittest.main()

"""Recorded calls and given histories that models of one's own judge."""

import asyncio
import collections
import itertools
import os
import random
import subprocess
import threading
import unittest
import unittest.mock

import selfcheck
from selfcheck import models

from test_selfcheck import run_threads


def sequential(model, calls, **settings):
    """The verdict on calls of one caller, each an operation and its reply."""
    events = [event for op, reply in calls for event in (("begin", 0, op), ("end", 0, reply))]
    return selfcheck.judge(model, events, recheck=True, **settings)


def recorded(model, events):
    """A recorder of these events."""
    recorder, pending = selfcheck.Recorder(model), {}
    for what, caller, value in events:
        if what == "begin":
            pending[caller] = recorder.invoke(*value)
        else:
            pending[caller](value)
    return recorder


class Call:
    def __init__(self, caller, number, op, begun):
        self.caller, self.number, self.op, self.begun = caller, number, op, begun
        self.ended = self.reply = None

    def precedes(self, other):
        return self.ended is not None and self.ended < other.begun


def calls_of(events):
    calls, numbers, pending = [], collections.Counter(), {}
    for moment, (what, caller, value) in enumerate(events):
        if what == "begin":
            pending[caller] = Call(caller, numbers[caller], value, moment)
            numbers[caller] += 1
            calls.append(pending[caller])
        else:
            pending[caller].ended, pending.pop(caller).reply = moment, value
    return calls


def has_legal_order(model, calls, state):
    """A plain search, which tries all orders."""
    if all(call.ended is None for call in calls):
        return True
    for call in calls:
        if not any(other.precedes(call) for other in calls):
            after, reply = model.step(state, call.op)
            if call.ended is None or reply == call.reply:
                if has_legal_order(model, [other for other in calls if other is not call], after):
                    return True
    return False


class Random:
    """Random histories of a model: of calls whose effects come in some order, and whose replies are changed now and then."""

    def __init__(self, seed, model, ops):
        self.draw, self.model, self.ops = random.Random(seed), model, ops

    def events(self, count, callers=3):
        state, events, free, pending, effected = self.model.init(), [], list(range(callers)), {}, {}
        said = [None, True]
        while count or pending and self.draw.randrange(4):
            choice = self.draw.randrange(3)
            if choice == 0 and count and free:
                caller = free.pop(self.draw.randrange(len(free)))
                op = self.draw.choice(self.ops)
                pending[caller], count = op, count - 1
                events.append(("begin", caller, op))
            elif choice == 1 and pending.keys() - effected.keys():
                caller = self.draw.choice(sorted(pending.keys() - effected.keys()))
                state, effected[caller] = self.model.step(state, pending[caller])
                said.append(effected[caller])
            elif choice == 2 and effected:
                caller = self.draw.choice(sorted(effected))
                del pending[caller]
                reply = effected.pop(caller)
                events.append(("end", caller, self.draw.choice(said) if self.draw.randrange(12) == 0 else reply))
                free.append(caller)
            elif not count and not self.draw.randrange(3):
                break
        return events


class Product:
    """A keyed model as one object, whose state has that of each key."""

    def __init__(self, model):
        self.model = model

    def init(self):
        return frozenset()

    def step(self, states, op):
        states = dict(states)
        key = self.model.key(op)
        states[key], reply = self.model.step(states.get(key, self.model.init()), op)
        return frozenset(states.items()), reply


class Keyed(models.Counter):
    """Counters by keys."""

    def step(self, state, op):
        return super().step(state, (op[0], *op[2:]))

    def key(self, op):
        return op[1]


OPS = {
    "deque": (models.Deque(), [("push_front", 1), ("push_back", 2), ("push_back", 3), ("pop_front",), ("pop_back",)]),
    "bounded": (models.BoundedQueue(2), [("put", 1), ("put", 2), ("put", 3), ("take",)]),
    "lock": (models.Lock(), [(name, owner) for name in ("acquire", "release") for owner in "ab"]),
    "semaphore": (models.Semaphore(1), [("acquire",), ("release",)]),
    "counter": (models.Counter(), [("add", 1), ("add", 2), ("read",)]),
    "accounts": (
        models.Accounts({"a": 2}),
        [("deposit", "b", 1), ("transfer", "a", "b", 2), ("transfer", "b", "a", 1), ("balance", "a"), ("balance", "b")],
    ),
    "store": (
        models.VersionedStore(),
        [("put", key, "v") for key in "xy"] + [("put_if", "x", 1, "w"), ("get", "x"), ("get", "y")],
    ),
    "keyed": (Keyed(), [("add", "x", 1), ("add", "y", 2), ("read", "x"), ("read", "y")]),
}


class Verdicts(unittest.TestCase):
    # Calls one after another, worked by hand: with the last reply in the place of the one before it they are illegal.
    def test_ready_models(self):
        store = models.VersionedStore()
        cases = [
            (models.Deque(), [("push_back", "a"), None], [("push_front", "b"), None], [("pop_back",), "a", "b"]),
            (models.Deque(), [("push_back", "a"), None], [("pop_front",), "a"], [("pop_front",), None, "a"]),
            (models.BoundedQueue(1), [("put", 5), True], [("put", 6), False], [("take",), 5, 6]),
            (models.BoundedQueue(1), [("put", 5), True], [("take",), 5], [("put", 6), True, False]),
            (models.Lock(), [("acquire", "a"), True], [("release", "b"), False], [("acquire", "b"), False, True]),
            (models.Lock(), [("acquire", "a"), True], [("release", "a"), True], [("acquire", None), True, False]),
            (models.Semaphore(1), [("acquire",), True], [("release",), None], [("acquire",), True, False]),
            (models.Semaphore(0), [("release",), None], [("acquire",), True], [("acquire",), False, True]),
            (models.Counter(), [("add", 2), None], [("add", 3), None], [("read",), 5, 3]),
            (models.Accounts({"a": 4}), [("transfer", "a", "b", 3), True], [("balance", "b"), 3], [("balance", "a"), 1, 4]),
            (models.Accounts(), [("deposit", "a", 2), None], [("transfer", "a", "b", 3), False], [("balance", "b"), 0, 3]),
            (store, [("put", "k", "v"), 1], [("put_if", "k", 0, "w"), None], [("get", "k"), (1, "v"), (2, "w")]),
            (store, [("put", "k", "v"), 1], [("put_if", "k", 1, "w"), 2], [("get", "k"), (2, "w"), (1, "v")]),
        ]
        for model, *begun, (last, right, wrong) in cases:
            verdict = sequential(model, [*begun, (last, right)])
            self.assertIs(verdict.legal, True)
            order = verdict.keys["k"].order if verdict.keys else verdict.order
            wanted = [(number, *call) for number, call in enumerate([*begun, (last, right)])]
            self.assertEqual([place[1:4] for place in order], wanted)
            self.assertIs(sequential(model, [*begun, (last, wrong)]).legal, False)

    # Thousands of small histories beside a plain search; an order is replayed.
    def test_plain_search(self):
        for name, (model, ops) in OPS.items():
            source, counts = Random(name, Product(model) if hasattr(model, "key") else model, ops), collections.Counter()
            for _ in range(600):
                events = source.events(6)
                calls = calls_of(events)
                verdict = selfcheck.judge(model, events, recheck=True)
                self.assertIs(verdict.legal, has_legal_order(source.model, calls, source.model.init()), events)
                self.assertEqual((verdict.kept, verdict.left_out), (len(calls), 0))
                recorder = recorded(model, events)
                self.assertIs(recorder.verify().legal, verdict.legal, events)
                self.assertIs(selfcheck.judge(model, recorder.events()).legal, verdict.legal, events)
                counts[verdict.legal] += 1
                if not hasattr(model, "key"):
                    self.check_order(model, calls, verdict.order)
            self.assertGreaterEqual(min(counts[True], counts[False]), 50, (name, counts))

    # Evidence, worked by hand: a queue of one place that gives what it never held. By the program that judges it without
    # the model it has the verdict that came with it.
    def test_evidence(self):
        events = [("begin", 0, ("put", "a")), ("end", 0, True), ("begin", 1, ("take",)), ("end", 1, "b")]
        [found] = selfcheck.model.evidence(models.BoundedQueue(1), events)
        self.assertEqual((found.key, found.legal), (None, False))
        steps = "0 op 0 1 =0\n1 op 1 0 =2\n"
        calls = "".join(f"calls{' '.join(['', '1', '1'] + ['0'] * 14)}\n0 0 op 0 =0 view 0:1\n1 0 op 1 =1 view 0:1 1:1\n")
        self.assertEqual(found.text, f"book 2\nobject model\ncallers 16\n{calls}end\nsteps 2\n{steps}end\n")
        self.assertEqual(
            found.names,
            "op 0 ('put', 'a')\nop 1 ('take',)\nreply 0 True\nreply 1 'b'\nreply 2 'a'\nstate 0 ()\nstate 1 ('a',)\n",
        )
        self.assertEqual(selfcheck.model.evidence(models.BoundedQueue(1), events, steps=0), [])
        program, counts = os.environ.get("SELFCHECK_JUDGE_MODEL"), collections.Counter()
        for name, (model, ops) in OPS.items():
            source = Random(name, Product(model) if hasattr(model, "key") else model, ops)
            for _ in range(30):
                events = source.events(6)
                shown, verdict = selfcheck.model.evidence(model, events), selfcheck.judge(model, events)
                self.assertIs(all(it.legal for it in shown), verdict.legal, events)
                self.assertLessEqual({it.key for it in shown}, set(verdict.keys) or {None})
                for it in shown if program else []:
                    ran = subprocess.run([program], input=it.text, capture_output=True, text=True)
                    self.assertEqual((ran.stdout, ran.returncode), (["illegal\n", "legal\n"][it.legal], 1 - it.legal), it)
                counts[verdict.legal] += 1
        self.assertGreaterEqual(min(counts[True], counts[False]), 20, counts)

    def check_order(self, model, calls, order):
        if order is None:
            return
        state, left = model.init(), {(call.caller, call.number): call for call in calls}
        for place in order:
            call = left.pop(place[:2])
            self.assertFalse(any(other.precedes(call) for other in left.values()))
            state, reply = model.step(state, call.op)
            self.assertEqual(place[2:], (call.op, reply, state))
            self.assertIn(call.reply, [reply] if call.ended is not None else [None])
        self.assertTrue(all(call.ended is None for call in left.values()))

    # A keyed model's verdict is that of the product as one.
    def test_keys(self):
        source = Random("keys", Product(Keyed()), OPS["keyed"][1])
        for _ in range(300):
            events = source.events(12, 5)
            parts, whole = selfcheck.judge(Keyed(), events), selfcheck.judge(source.model, events)
            self.assertIs(parts.legal, whole.legal, events)
            self.assertEqual(parts.kept, sum(part.kept for part in parts.keys.values()))
            self.assertEqual(set(parts.keys), {op[1] for what, _, op in events if what == "begin"})
        self.assertEqual(selfcheck.judge(Keyed(), []), (True, None, 0, 0, 0, {}))
        self.assertEqual(selfcheck.judge(models.Counter(), []), (True, [], 0, 0, 0, {}))

    def test_steps(self):
        adds = [("begin", caller, ("add", 2**caller)) for caller in range(9)]
        for total, is_legal in (2**9 - 2, True), (2**9, False):
            events = [*adds, ("begin", "reader", ("read",)), ("end", "reader", total)]
            self.assertIs(selfcheck.judge(models.Counter(), events, steps=20).legal, None)
            self.assertIs(selfcheck.judge(models.Counter(), events, steps=0).legal, None)
            self.assertIs(selfcheck.judge(models.Counter(), events, steps=10**6).legal, is_legal)
            self.assertIs(selfcheck.judge(models.Counter(), events).legal, is_legal)
        # one key's is known to be wrong, whatever the other's is
        keyed = [(what, (caller, "x"), (op[0], "x", *op[1:]) if what == "begin" else op) for what, caller, op in events]
        self.assertIs(selfcheck.judge(Keyed(), keyed[:-1] + [("end", ("reader", "x"), 510)], steps=100).legal, None)
        keyed += [("begin", 0, ("read", "y")), ("end", 0, 1)]
        verdict = selfcheck.judge(Keyed(), keyed, steps=100)
        self.assertEqual((verdict.legal, verdict.keys["x"].legal, verdict.keys["y"].legal), (False, None, False))
        for steps in -1, 2**64:
            with self.assertRaises(ValueError):
                selfcheck.judge(models.Counter(), [], steps=steps)

    def test_wrong_histories(self):
        begin, end = ("begin", 0, ("read",)), ("end", 0, 0)
        for events in [end], [begin, begin], [begin, end, end], [("begins", 0, ("read",))], [begin, end] * 257:
            with self.assertRaises(ValueError):
                selfcheck.judge(models.Counter(), events)
        with self.assertRaises(ValueError):
            selfcheck.judge(models.Counter(), [("begin", caller, ("read",)) for caller in range(17)])
        self.assertTrue(selfcheck.judge(models.Counter(), [begin, end] * 256).legal)


class WrongModels(unittest.TestCase):
    def test_no_models(self):
        for wrong in models.Deque, 5, None, "deque":
            with self.assertRaises((TypeError, ValueError)):
                selfcheck.Recorder(wrong)
        with self.assertRaises(TypeError):
            selfcheck.judge(models.Deque, [])

    # It says so of a reply that is recorded, and of one that isn't.
    def test_broken_promises(self):
        class Wrong(models.Counter):
            def leaves(self, op, reply):
                return op == ("add", 1)

        for reply in None, 7:
            with self.assertRaises(selfcheck.BrokenPromise) as it:
                sequential(Wrong(), [(("add", 2), None), (("add", 1), reply)])
            told = it.exception
            self.assertEqual((told.state, told.op, told.reply, told.next), (2, ("add", 1), None, 3))
            self.assertIn("step(2, ('add', 1)) leads to 3", str(told))

    # It says so when the call ends, and not when the step is asked for.
    def test_broken_promises_of_ends(self):
        class Wrong(models.Counter):
            is_asked = False

            def step(self, state, op):
                self.is_asked = True
                return super().step(state, op)

            def leaves(self, op, reply):
                return not self.is_asked

        with self.assertRaises(selfcheck.BrokenPromise) as it:
            selfcheck.judge(Wrong(), [("begin", 0, ("read",)), ("end", 0, 0), ("begin", 0, ("add", 1)), ("end", 0, None)])
        self.assertEqual((it.exception.state, it.exception.op), (0, ("add", 1)))

    def test_contradictions(self):
        class Wrong(models.Counter):
            def __init__(self, first, again):
                self.inits, self.steps = iter([0, first]), iter([(1, None), again])

            def init(self):
                return next(self.inits)

            def step(self, state, op):
                return next(self.steps)

        calls = [(("add", 1), None)]
        self.assertTrue(sequential(Wrong(0, (1, None)), calls).legal)
        for again in (2, None), (1, "done"):
            with self.assertRaises(selfcheck.ContradictoryModel) as it:
                sequential(Wrong(0, again), calls)
            told = it.exception
            self.assertEqual((told.state, told.op, told.first, told.again), (0, ("add", 1), (1, None), again))
        with self.assertRaises(selfcheck.ContradictoryModel) as it:
            sequential(Wrong(5, None), calls)
        self.assertEqual(str(it.exception), "init() gave 0 first, and then 5")

    def test_errors_of_models(self):
        class Wrong(models.Counter):
            def step(self, state, op):
                return ([], None) if op[0] == "read" else 1 // 0

        for op, error in (("read",), TypeError), (("add", 1), ZeroDivisionError):
            with self.assertRaises(error):
                sequential(Wrong(), [(op, 0)])


class Outputs(unittest.TestCase):
    """Models whose step sees the output."""

    class Loose:
        """A counter that may be read as one less."""

        def init(self):
            return 0

        def step(self, state, op, output):
            return (True, state + 1) if op == ("inc",) else (output is None or output in (state, state - 1), state)

    def test_loose_counter(self):
        model = selfcheck.WithOutput(self.Loose())
        for seen, is_legal in (2, True), (1, True), (0, False), (3, False):
            verdict = sequential(model, [(("inc",), None), (("inc",), None), (("read",), seen)])
            self.assertIs(verdict.legal, is_legal)
            self.assertEqual(verdict.order and verdict.order[2], (0, 2, ("read",), seen, 2) if is_legal else None)
        events = [("begin", 1, ("inc",)), ("begin", 0, ("read",)), ("end", 0, 1)]
        order = selfcheck.judge(model, events).order
        self.assertEqual([it[:4] for it in order], [(1, 0, ("inc",), None), (0, 0, ("read",), 1)])

    # A model that allows one output alone is the model that gives it.
    def test_same_verdicts(self):
        class Seeing:
            def __init__(self, model):
                self.model, self.init = model, model.init
                if hasattr(model, "key"):
                    self.key = model.key

            def step(self, state, op, output):
                after, reply = self.model.step(state, op)
                return output == reply or output == "?", after

        for name, (model, ops) in OPS.items():
            source = Random(name, Product(model) if hasattr(model, "key") else model, ops)
            for _ in range(100):
                events = source.events(8)
                seeing = selfcheck.judge(selfcheck.WithOutput(Seeing(model), unanswered="?"), events)
                self.assertIs(seeing.legal, selfcheck.judge(model, events).legal, events)


class Things:
    """Right objects behind a lock, apart from the models."""

    def __init__(self):
        self.guard, self.items, self.owner, self.total = threading.Lock(), collections.deque(), None, 0
        self.accounts, self.versions = collections.Counter(a=2), {}

    def ask(self, name, *values):
        with self.guard:
            return getattr(self, name)(*values)

    def push_front(self, value):
        self.items.appendleft(value)

    def push_back(self, value):
        self.items.append(value)

    def pop_front(self):
        return self.items.popleft() if self.items else None

    def pop_back(self):
        return self.items.pop() if self.items else None

    take = pop_front

    def put(self, *values):
        if len(values) == 2:
            self.versions[values[0]] = (self.get(values[0])[0] + 1, values[1])
            return self.get(values[0])[0]
        return len(self.items) < 2 and self.items.append(values[0]) is None

    def get(self, key):
        return self.versions.get(key, (0, None))

    def put_if(self, key, version, value):
        return self.put(key, value) if self.get(key)[0] == version else None

    def acquire(self, *owner):
        if owner:
            is_free, self.owner = self.owner is None, self.owner or owner[0]
            return is_free
        self.total += 1
        return self.total <= 1 or self.release()

    def release(self, *owner):
        if not owner:
            self.total -= 1
            return False
        if self.owner != owner[0]:
            return False
        self.owner = None
        return True

    def add(self, *key_and_number):
        *key, number = key_and_number
        self.accounts[tuple(key)] += number

    def read(self, *key):
        return self.accounts[key]

    def deposit(self, account, amount):
        self.accounts[account] += amount

    def transfer(self, one, other, amount):
        if self.accounts[one] < amount:
            return False
        self.accounts[one] -= amount
        self.accounts[other] += amount
        return True

    def balance(self, account):
        return self.accounts[account]


class Recordings(unittest.TestCase):
    # Threads that call right objects; with a reply that no state has the history is illegal.
    def test_threads(self):
        for name, count in [*((name, 4) for name in OPS), ("lock", 16), ("store", 16), ("keyed", 16)]:
            model, ops = OPS[name]
            ops = ops[:1] if name == "semaphore" else ops
            recorder, things = selfcheck.Recorder(model), Things()

            def work(caller, draw):
                for op in draw.choices(ops, k=30):
                    caller.call(*op, lambda: things.ask(*op))

            run_threads(count, work, lambda _: recorder.caller(), random.Random)
            verdict = recorder.verify(recheck=True)
            self.assertIs(verdict.legal, True, name)
            self.assertEqual((verdict.kept, verdict.left_out), (30 * count, 0))
            self.assertEqual(verdict.order is None, hasattr(model, "key"))
            recorder.call(*ops[-1], lambda: "other")
            self.assertIs(recorder.verify().legal, False, name)

    # Sixteen callers with as many calls as a history has, and one more.
    def test_limits(self):
        recorder, things = selfcheck.Recorder(models.Counter()), Things()
        callers = [recorder.caller() for _ in range(16)]
        for at in range(256):
            op = ("read",) if at % 4 == 3 else ("add", 1)
            for ret in [caller.invoke(*op) for caller in callers]:
                ret(things.ask(*op))
        self.assertEqual(recorder.verify()[:4:2], (True, 4096))
        recorder.call("read", lambda: 0)
        with self.assertRaises(selfcheck.Incomplete) as it:
            recorder.verify()
        self.assertEqual((it.exception.kept, it.exception.left_out), (4096, 1))
        for words in "16 callers with 256 calls each", "the first 4096 calls", "verify(prefix=True)":
            self.assertIn(words, str(it.exception))
        self.assertEqual(recorder.verify(prefix=True)[2:4], (4096, 1))
        # seventeen at once: the history ends where the last one is invoked
        recorder = selfcheck.Recorder(models.Lock())
        for number, ret in enumerate([recorder.invoke("acquire", number) for number in range(17)]):
            ret(number == 3)
        verdict = recorder.verify(prefix=True)
        self.assertEqual((verdict.legal, verdict.order, verdict.kept, verdict.left_out), (True, [], 16, 1))

    # Calls that a recorder no longer keeps, in the history of a key or of all.
    def test_last_moment(self):
        for model, ops in (models.Counter(), [("add", 1)] * 4), (Keyed(), [("add", "x", 1), ("add", "y", 1)] * 2):
            recorder = selfcheck.Recorder(model)
            with unittest.mock.patch.object(selfcheck, "_LAST_MOMENT", 5):
                for op in ops:
                    recorder.call(*op, lambda: None)
                with self.assertRaises(selfcheck.Incomplete) as it:
                    recorder.verify()
                self.assertEqual((it.exception.kept, it.exception.left_out), (3, 1))
                self.assertEqual(recorder.verify(prefix=True)[2:4], (3, 1))

    # More calls than a history has, of 20 keys: those of each key fit.
    def test_limits_by_key(self):
        for forgotten in None, 3:
            recorder, things = selfcheck.Recorder(models.VersionedStore()), Things()

            def work(t):
                for i in range(220):
                    key = 2 * (i % 10) + t % 2
                    value = i if key != forgotten else None
                    recorder.call("put", key, i, lambda: things.ask("put", key, value))
                    if i % 11 == 10:
                        recorder.call("get", key, lambda: things.ask("get", key))

            run_threads(20, work, lambda t: t)
            verdict = recorder.verify()
            self.assertEqual((len(verdict.keys), verdict.kept, verdict.left_out), (20, 4800, 0))
            wrong = [key for key, part in verdict.keys.items() if not part.legal]
            self.assertEqual((verdict.legal, wrong), (forgotten is None, [] if forgotten is None else [3]))

    # A call that raises may have had its effect or not, at any time since.
    def test_lost_calls(self):
        for taken, is_legal in ("a", True), ("b", True), ("c", False):
            recorder = selfcheck.Recorder(models.Deque())
            with self.assertRaises(TimeoutError):
                recorder.call("push_front", "a", raise_timeout)
            recorder.call("push_back", "b", lambda: None)
            recorder.call("pop_front", lambda: taken)
            verdict = recorder.verify()
            self.assertEqual((verdict.legal, verdict.kept), (is_legal, 3))
            if taken == "b":
                self.assertEqual([it[2:4] for it in verdict.order], [(("push_back", "b"), None), (("pop_front",), "b")])
        for reply in [], {}:
            with self.assertRaises(TypeError):
                recorder.call("pop_front", lambda: reply)
        with self.assertRaises(TypeError):
            recorder.call("push_front", [], self.fail)
        self.assertEqual(recorder.verify().kept, 5)

    def test_tasks(self):
        for is_torn in False, True:
            recorder, things = selfcheck.Recorder(models.Counter()), [0]

            async def add():
                total = things[0]
                if is_torn:
                    await asyncio.sleep(0)
                things[0] = total + 1

            async def life():
                await recorder.call_async("add", 1, add())

            async def all_lives():
                await asyncio.gather(*(life() for _ in range(8)))

            asyncio.run(all_lives())
            recorder.call("read", lambda: things[0])
            self.assertIs(recorder.verify().legal, not is_torn)

    # A kind has books, and a model verdicts.
    def test_books(self):
        recorder = selfcheck.Recorder(models.Lock())
        queue = selfcheck.Recorder("queue")
        for text in recorder.book, recorder.prefix, recorder.by_key, queue.verify, queue.events:
            with self.assertRaises(TypeError):
                text()


class Bounded:
    """A queue with two places."""

    def init(self):
        return ()

    def step(self, state, op):
        name, *values = op
        if name == "put":
            return (state, False) if len(state) == 2 else ((*state, *values), True)
        return (state[1:], state[0]) if state else (state, None)

    def leaves(self, op, reply):
        return reply is False or reply is None


class Enforced(unittest.TestCase):
    """Calls that a model judges as they are made."""

    def test_right_objects(self):
        for threads, calls in (1, 32), (2, 32), (4, 16):
            store, values, lock = selfcheck.Enforced(models.VersionedStore(), threads, calls), {}, threading.Lock()
            queue, items = selfcheck.Enforced(Bounded(), threads, calls), []

            def put(key, value):
                with lock:
                    values[key] = version, _ = values.get(key, (0, None))[0] + 1, value
                    return version

            def add(item):
                with lock:
                    return len(items) < 2 and items.append(item) is None

            def take():
                with lock:
                    return items.pop(0) if items else None

            def work(number):
                for at in range(calls // 2):
                    key, value = at % 2, f"{at} of {number}"
                    store.call("put", key, value, lambda: put(key, value))
                    store.call("get", key, lambda: values[key])
                    queue.call("put", value, lambda: add(value))
                    queue.call("take", take)
                ended.append(number)

            ended = []
            run_threads(threads, work, lambda number: number)
            self.assertEqual(sorted(ended), list(range(threads)))

    # Worked by hand: put 5 is the operation 0, put 6 is 1, put 7 is 2, and take is 3; True is the reply 0, False is 1, and
    # 6 is 2. What the model says besides, that 5 is taken, is 3.
    def test_errors(self):
        queue = selfcheck.Enforced(Bounded(), callers=2, calls=8)
        first, second = queue.caller(), queue.caller()
        for value, reply in (5, True), (6, True), (7, False):
            self.assertIs(first.call("put", value, lambda: reply), reply)
        with self.assertRaises(selfcheck.Illegal) as raised:
            second.call("take", lambda: 6)
        error = raised.exception
        self.assertEqual(error.reply, 6)
        self.assertEqual(
            error.book,
            "book 2\nobject model\ncallers 2\ncalls 3 1\n0 0 op 0 =0 view 0:1\n0 1 op 1 =0 view 0:2\n"
            "0 2 op 2 =1 view 0:3\n1 0 op 3 =2 view 0:3 1:1\nend\n"
            "steps 2\n0 op 0 1 =0\n1 op 1 2 =0\n2 op 2 2 =1\n2 op 3 3 =3\nend\n",
        )
        calls = [("put", 5), True], [("put", 6), True], [("put", 7), False], [("take",), 6]
        who = [0, 0, 0, 1]
        events = [(what, at, it) for at, call in zip(who, calls) for what, it in zip(("begin", "end"), call)]
        self.assertEqual(error.events, events)
        self.assertFalse(selfcheck.judge(Bounded(), error.events, recheck=True).legal)
        with self.assertRaises(selfcheck.NoCallLeft):
            second.call("take", self.fail)
        # an error is final: whoever has seen these calls finds it too
        with self.assertRaises(selfcheck.Illegal):
            first.call("take", lambda: 5)

    def test_overlapping_calls(self):
        queue = selfcheck.Enforced(Bounded(), callers=2, calls=8)
        first, second = queue.caller(), queue.caller()

        def take():
            second.call("put", 5, lambda: True)
            return None

        self.assertIsNone(first.call("take", take))
        self.assertEqual(first.call("take", lambda: 5), 5)

    def test_lost_calls(self):
        queue = selfcheck.Enforced(Bounded(), callers=2, calls=3)
        with self.assertRaises(TimeoutError):
            queue.call("put", 7, raise_timeout)
        for taken in 7, None, None:
            self.assertEqual(queue.call("take", lambda: taken), taken)
        with self.assertRaises(selfcheck.NoCallLeft):
            queue.call("take", self.fail)

    def test_broken_promises(self):
        class Promising(Bounded):
            def leaves(self, op, reply):
                return True

        caller = selfcheck.Enforced(Promising(), callers=1, calls=2).caller()
        with self.assertRaises(selfcheck.BrokenPromise):
            caller.call("put", 1, lambda: True)
        with self.assertRaises(selfcheck.NoCallLeft):
            caller.call("put", 1, self.fail)

    def test_what_is_no_model(self):
        for wrong in object(), Bounded:
            with self.assertRaises(TypeError):
                selfcheck.Enforced(wrong)
        with self.assertRaises(TypeError):
            selfcheck.Enforced(Bounded()).call("put", [], self.fail)


def raise_timeout():
    raise TimeoutError


if __name__ == "__main__":
    unittest.main()

"""Hunts of objects that are wrong on purpose, and what hunts say where they can't hunt."""

import collections
import concurrent.futures
import dataclasses
import functools
import os
import queue
import re
import subprocess
import sys
import tempfile
import threading
import time
import unittest
from threading import Condition as ImportedCondition
from threading import Lock as ImportedLock

import hunted
import selfcheck
from selfcheck.hunts import NoRun, SettingError, Settings, Unwritten, chooser, hunt, replay
from selfcheck.hunts.draw import Draw
from selfcheck.hunts.script import Script
from selfcheck.hunts.trial import Hunter

_SEEDS = int(os.environ.get("SELFCHECK_SEEDS", "1"))
_module_lock = threading.Lock()


class Torn:
    """Adds by a load and a store."""

    def __init__(self):
        self.number = 0

    def inc(self):
        old = self.number
        self.number = old + 1
        return old


class Locked:
    """A counter behind the lock that it is given."""

    def __init__(self, lock):
        self.number, self.lock = 0, lock

    def inc(self):
        with self.lock:
            old = self.number
            self.number = old + 1
            return old


class Tired(Locked):
    """Right unless so many calls of others are made between the steps of one."""

    def __init__(self):
        super().__init__(threading.Lock())

    def inc(self):
        before = self.number
        old = super().inc()
        return old - (old - before > 5)


def settings_of(case, **more):
    return Settings(case.kind, **case.settings, **more)


class Objects(unittest.TestCase):
    def test_wrong_objects_are_found_and_come_again(self):
        for case in hunted.CASES:
            for seed in range(_SEEDS):
                with self.subTest(case.name, seed=seed):
                    settings = settings_of(case, seed=seed, seconds=60)
                    finding = hunt(settings, case.wrong).finding
                    self.assertIsNotNone(finding)
                    self.assertIn(finding.found, case.wanted)
                    self.assertTrue(finding.repeats)
                    again = replay(settings, finding.again, case.wrong)
                    self.assertTrue(again.is_same(finding.small))

    def test_right_objects_are_not_blamed(self):
        for case in hunted.CASES + hunted.RIGHT:
            with self.subTest(case.name):
                told = hunt(settings_of(case, seed=5, runs=100), case.right)
                self.assertIsNone(told.finding, told)

    def test_each_strategy_finds(self):
        for strategy in "walk", "priorities":
            for make in Torn, Tired:
                settings = Settings("counter", callers=2, calls=8, strategy=strategy, runs=2000)
                told = hunt(settings, make)
                self.assertEqual(told.finding.found, "illegal")

    def test_a_seed_has_one_hunt(self):
        script = (
            "import test_hunts as it\n"
            "print(it.hunt(it.Settings('counter', seed=7, calls=3), it.Torn))\n"
            "case = it.hunted.CASES[0]\n"
            "print(it.replay(it.settings_of(case), 40, case.wrong).steps_text())\n"
        )
        told = {
            subprocess.check_output(
                [sys.executable, "-c", script],
                cwd=os.path.dirname(os.path.abspath(__file__)),
                env={**os.environ, "PYTHONHASHSEED": seed},
            )
            for seed in ("1", "2")
        }
        self.assertEqual(len(told), 1)


class Schedules(unittest.TestCase):
    def test_each_turn_is_of_a_thread_in_a_call(self):
        for case in hunted.CASES:
            with self.subTest(case.name):
                trial = replay(settings_of(case, seed=2), 3, case.right)
                legs = [(it, call) for it, call, turns in trial.legs for _ in range(turns)]
                self.assertEqual([it[:2] for it in trial.steps], legs)
                self.assertEqual(trial.turns, len(legs))
                for caller, calls in enumerate(trial.script.callers):
                    thread = trial.threads.index(f"caller {caller}")
                    own = [it[1:3] for it in trial.steps if it[0] == thread]
                    begun = [call for call, does in own if does == ("call",)]
                    self.assertEqual(begun, [number for number, _ in calls])

    def test_a_thread_that_is_alone_goes_on_without_being_chosen(self):
        class Counts(chooser.Written):
            chosen = 0

            def choose(self, *state):
                self.chosen += 1
                return super().choose(*state)

        def long(number):
            for _ in range(1000):
                number = [number][0]
            return number

        settings = Settings("counter", callers=1, calls=2)
        hunter = Hunter(settings, lambda: None, lambda _, op: long(1))
        script = Script([[(0, ("inc",)), (1, ("inc",))]])
        counts = Counts([])
        trial = hunter.trial(script, counts)
        self.assertGreater(trial.turns, 4000)
        self.assertLess(counts.chosen, 20)

    def test_nobody_waits_for_a_thread_that_rests(self):
        for seed in range(100):
            walk = chooser.Walk(Draw(seed), 10)
            chosen = [walk.choose([1, 2], 1 + turn % 2, turn)[0] for turn in range(100)]
            self.assertEqual(set(chosen), {1, 2})
            self.assertEqual({walk.choose([2], 2, turn)[0] for turn in range(100)}, {2})


class Endings(unittest.TestCase):
    def test_a_deadlock_says_who_waits_for_what(self):
        case = next(it for it in hunted.CASES if it.name == "lock_order")
        told = str(hunt(settings_of(case, callers=2), case.wrong).finding)
        first, one, two, *_ = told.splitlines()
        self.assertEqual(first, "deadlock: each thread waits, and none can go on")
        for line, other in (one, "caller 1"), (two, "caller 0"):
            self.assertRegex(line, r"waits for Lock #[12], made at .*lock_order\.py:\d+,")
            self.assertRegex(line, rf"held by {other} since .*lock_order\.py:\d+$")

    def test_a_loop_without_an_end_is_no_livelock(self):
        class Endless:
            def inc(self):
                while True:
                    pass

        finding = hunt(Settings("counter", callers=1, calls=1), Endless).finding
        self.assertEqual(finding.found, "step-limit")

    def test_a_thread_that_waits_elsewhere_is_told(self):
        own, other = os.pipe()

        class Pipe:
            def read(self):
                return len(os.read(own, 1))

        settings = Settings("register", callers=1, weights={"write": 0}, patience=0.3)
        finding = hunt(settings, Pipe).finding
        self.assertEqual(finding.found, "stuck")
        self.assertFalse(finding.small_again)
        line = Pipe.read.__code__.co_firstlineno + 1
        self.assertRegex(str(finding), rf"caller 0, in its call 0, is at .*test_hunts\.py:{line}\n")
        os.write(other, b"1234")

    def test_an_exception_has_its_line(self):
        class Once:
            def __init__(self):
                self.number = 0

            def inc(self):
                assert self.number != 1, "never one"
                return Torn.inc(self)

        settings = Settings("counter", calls=1, runs=500)
        stops = hunt(settings, Once).finding
        self.assertEqual(stops.found, "exception")
        self.assertRegex(
            stops.trial.told,
            r"^exception\ncaller \d, in its call 0, raised at .*test_hunts\.py:\d+: "
            r"AssertionError: never one$",
        )
        goes_on = hunt(Settings("counter", calls=1, runs=500, after_exceptions=True), Once)
        self.assertEqual(len(goes_on.exceptions), 1)
        self.assertEqual(goes_on.finding.found, "illegal")

    def test_an_exception_of_what_makes_the_object_is_told(self):
        def make():
            raise LookupError("none today")

        told = str(hunt(Settings("counter"), make))
        said = r"^exception\nmain raised at .*test_hunts\.py:\d+: LookupError: none today\n"
        self.assertRegex(told, said)

    def test_a_reply_of_no_kind_is_told(self):
        told = str(hunt(Settings("counter"), lambda: None, lambda _, op: "seven"))
        self.assertIn("'seven' is no number below 2^32", told)

    def test_an_exception_of_a_thread_of_the_object_is_told(self):
        class Spawns:
            def inc(self):
                threading.Thread(target=lambda: 1 // 0).start()
                return 0

        finding = hunt(Settings("counter", callers=1, calls=1), Spawns).finding
        self.assertEqual(finding.found, "exception")
        said = r"thread \d+ 'Thread-\d+.*' raised at .*ZeroDivisionError"
        self.assertRegex(finding.trial.told, said)


@dataclasses.dataclass
class WithFactory:
    lock: object = dataclasses.field(default_factory=threading.Lock)
    number: int = 0
    inc = Locked.inc


class OfClass(Locked):
    shared = threading.Lock()

    def __init__(self):
        super().__init__(self.shared)


class WithCached(Locked):
    def __init__(self):
        super().__init__(threading.Lock())

    @functools.cached_property
    def step(self):
        return 1

    def inc(self):
        with self.lock:
            self.number += self.step
            return self.number - 1


class WithPool(Locked):
    def __init__(self):
        super().__init__(threading.Lock())
        self.pool = concurrent.futures.ThreadPoolExecutor(2)

    def inc(self):
        return self.pool.submit(super().inc).result()


class Names(unittest.TestCase):
    def right(self, make):
        told = hunt(Settings("counter", runs=60, patience=2), make)
        self.assertIsNone(told.finding, told)

    def test_locks_by_any_name(self):
        self.right(lambda: Locked(threading.Lock()))
        self.right(lambda: Locked(threading.RLock()))
        self.right(lambda: Locked(threading.Condition()))
        self.right(lambda: Locked(threading.Semaphore()))
        self.right(lambda: Locked(ImportedLock()))
        self.right(lambda: Locked(ImportedCondition(ImportedLock())))
        self.right(lambda: Locked(_module_lock))
        self.right(WithFactory)
        self.right(OfClass)
        self.right(WithCached)

    def test_pools(self):
        told = hunt(Settings("counter", callers=2, calls=2, runs=40), WithPool)
        self.assertIsNone(told.finding, told)

    def test_names_are_as_they_were(self):
        def names():
            start = threading.Thread.start
            return threading.Lock, threading.Condition, start, time.sleep, queue.SimpleQueue

        before = names()
        hunt(Settings("counter", runs=3), Torn)
        self.assertEqual(names(), before)
        self.assertIs(ImportedLock, threading.Lock)
        self.assertEqual(type(_module_lock), type(threading.Lock()))
        self.assertEqual(type(OfClass.shared), type(threading.Lock()))

    def test_a_lock_outlives_its_run(self):
        kept = []

        def make():
            kept.append(Locked(threading.Lock()))
            return kept[-1]

        hunt(Settings("counter", runs=1), make)
        before = kept[-1].number
        self.assertEqual(kept[-1].inc(), before)
        self.assertFalse(kept[-1].lock.locked())

    def test_events_barriers_and_threads(self):
        class Helped:
            """Each call is made by a thread, and told by an event."""

            def __init__(self):
                self.number, self.lock = 0, threading.Lock()

            def inc(self):
                done, both, given = threading.Event(), threading.Barrier(2), []

                def help():
                    both.wait()
                    given.append(Locked.inc(self))
                    done.set()

                helper = threading.Thread(target=help)
                helper.start()
                both.wait()
                done.wait()
                helper.join()
                assert not helper.is_alive()
                return given[0]

        told = hunt(Settings("counter", callers=2, calls=2, runs=60), Helped)
        self.assertIsNone(told.finding, told)

    def test_times_are_over_where_nothing_else_moves(self):
        class Waits:
            def __init__(self):
                self.queue = queue.Queue()

            def deq(self):
                began = time.monotonic()
                try:
                    self.queue.get(timeout=1000)
                except queue.Empty:
                    assert time.monotonic() - began >= 1000
                return None

        began = time.monotonic()
        told = hunt(Settings("queue", weights={"enq": 0}, calls=2, runs=20), Waits)
        self.assertIsNone(told.finding, told)
        self.assertLess(time.monotonic() - began, 100)

    def test_new_threads_have_new_locals(self):
        class Local(Locked):
            """Right only where the thread has made no calls before."""

            calls = threading.local()

            def inc(self):
                before = getattr(self.calls, "made", 0)
                self.calls.made = before + 1
                return super().inc() + before

        def found(**more):
            settings = Settings("counter", calls=1, runs=20, **more)
            return hunt(settings, lambda: Local(threading.Lock())).finding

        self.assertEqual(found().found, "illegal")
        self.assertIsNone(found(new_threads=True))


class Written(unittest.TestCase):
    def setUp(self):
        folder = tempfile.TemporaryDirectory()
        self.addCleanup(folder.cleanup)
        self.folder = folder.name

    def test_a_finding_has_a_folder(self):
        settings = Settings("counter", seed=3, folder=self.folder)
        finding = hunt(settings, Torn).finding
        own = os.path.join(self.folder, f"counter-3-{finding.run}")
        self.assertEqual(finding.folder, own)
        self.assertEqual(os.listdir(self.folder), [os.path.basename(own)])

        def read(name):
            with open(os.path.join(own, name), encoding="utf-8") as file:
                return file.read()

        self.assertFalse(selfcheck.verify(read("book.txt")))
        self.assertFalse(selfcheck.verify(read("small-book.txt")))
        self.assertRegex(read("small-steps.txt"), r"STORE_ATTR number at .*test_hunts\.py:\d+")
        self.assertIn(finding.line(), read("finding.txt"))
        self.assertEqual(read("explanation.txt"), finding.explanation)
        self.assertIn(" counted ", finding.explanation)
        self.assertIn(f"\n\n{finding.explanation}\nbook 2\n", read("finding.txt"))
        self.assertTrue(read("picture.svg").startswith("<svg"))
        self.assertEqual(read("settings.txt"), "Settings('counter', callers=4, calls=6, seed=3)\n")
        self.assertIn("caller 2: inc, inc, inc, inc, inc, inc\n", read("script.txt"))
        self.assertGreaterEqual(len(read("steps.txt")), len(read("small-steps.txt")))
        names = {"replay": replay, "Settings": Settings, "make": Torn}
        again = eval(finding.line(), names)
        self.assertEqual((again.found, again.book), ("illegal", finding.small.book))

    def test_what_is_lost_is_said(self):
        finding = hunt(Settings("counter", seed=3), Torn).finding
        own = os.path.join(self.folder, f"counter-3-{finding.run}")
        os.mkdir(own)
        for name in "steps.txt", "picture.svg":
            # a disk that is full
            os.symlink("/dev/full", os.path.join(own, name))
        with self.assertRaises(Unwritten) as it:
            hunt(Settings("counter", seed=3, folder=self.folder), Torn)
        self.assertEqual(it.exception.lost, ["steps.txt", "picture.svg"])
        self.assertEqual(
            str(it.exception),
            f"steps.txt, picture.svg of the finding in {own} couldn't be written: "
            "No space left on device",
        )
        self.assertEqual(it.exception.hunted.finding.found, "illegal")
        self.assertTrue(os.path.exists(os.path.join(own, "book.txt")))

    def test_a_run_that_ends_the_process_is_on_disk(self):
        script = (
            "import os, sys, test_hunts as it\n"
            "settings = it.Settings('counter', seed=4, folder=sys.argv[1])\n"
            "it.hunt(settings, it.Torn, lambda thing, op: os._exit(9) if thing.inc() == 9 else 0)\n"
        )
        status = subprocess.call(
            [sys.executable, "-c", script, self.folder],
            cwd=os.path.dirname(os.path.abspath(__file__)),
        )
        self.assertEqual(status, 9)
        with open(os.path.join(self.folder, "counter-4-begun.txt"), encoding="utf-8") as file:
            first, line, *script = file.read().splitlines()
        self.assertRegex(first, r"^run \d+ has begun, and hasn't ended:$")
        settings = "Settings('counter', callers=4, calls=6, seed=4)"
        self.assertRegex(line, rf'^    replay\({re.escape(settings)}, "\d+", make, call\)$')
        self.assertIn("caller 2: inc, inc, inc, inc, inc, inc", script)

    def test_a_run_that_cannot_be_named_on_disk_does_not_begin(self):
        os.symlink("/dev/full", os.path.join(self.folder, "counter-0-begun.txt"))
        made = []
        with self.assertRaises(Unwritten) as it:
            hunt(Settings("counter", folder=self.folder), lambda: made.append(1))
        self.assertEqual(
            str(it.exception),
            "counter-0-begun.txt of run 0 couldn't be written: No space left on device",
        )
        self.assertEqual(made, [])


class Scripts(unittest.TestCase):
    def script(self, settings, run):
        replies = {"enq": None, "deq": None}
        trial = replay(settings, run, lambda: None, lambda _, op, *arguments: replies[op])
        return [[op for _, op in calls] for calls in trial.script.callers]

    def test_values_are_different_where_nothing_is_said(self):
        calls = self.script(Settings("queue", callers=4, calls=20, weights={"deq": 0}), 3)
        self.assertEqual(sorted(op[1] for it in calls for op in it), list(range(1, 81)))

    def test_scripts_keep_their_rules(self):
        for run in range(30):
            for calls in self.script(Settings("queue", calls=9, at_most_more_puts=2), run):
                inside = 0
                for op in calls:
                    inside += 1 if op[0] == "enq" else -1
                    self.assertIn(inside, range(3))
            calls = self.script(Settings("queue", callers=5, producers_and_consumers=True), run)
            names = [[op[0] for op in it] for it in calls]
            self.assertEqual(collections.Counter(map(len, names)), {4: 3, 6: 2})
            self.assertEqual(names[3:], [["deq"] * 6] * 2)
            self.assertEqual(names[:3], [["enq"] * 4] * 3)

    def test_settings_out_of_bounds_are_refused_by_name(self):
        weights = "numbers for operations of enq, deq, not all 0"
        refused = {
            "callers is 0, and has to be 1 to 16": {"callers": 0},
            "callers is 17, and has to be 1 to 16": {"callers": 17},
            "calls is 257, and has to be 1 to 256": {"calls": 257},
            "calls is '6', and has to be 1 to 256": {"calls": "6"},
            "seed is -1, and has to be 0 to 18446744073709551615": {"seed": -1},
            f"weights is {{'pop': 1}}, and has to be {weights}": {"weights": {"pop": 1}},
            f"weights is {{'enq': 0, 'deq': 0}}, and has to be {weights}": {
                "weights": {"enq": 0, "deq": 0}
            },
            "values is 0, and has to be 1 to 4294967295": {"values": 0},
            "runs is 0, and has to be at least 1": {"runs": 0},
            "seconds is 0, and has to be more than 0": {"seconds": 0},
            "change_points is 0, and has to be 1 to 1000": {"change_points": 0},
            "at_most_more_puts is 0, and has to be at least 1": {"at_most_more_puts": 0},
            "weights is {'deq': 0}, and has to be more than 0 for puts and for takes": {
                "weights": {"deq": 0},
                "at_most_more_puts": 1,
            },
            "callers is 1, and has to be 2 to 16": {"callers": 1, "producers_and_consumers": True},
            "strategy is 'all', and has to be one of both, walk, priorities": {"strategy": "all"},
        }
        for text, words in refused.items():
            with self.assertRaises(SettingError) as it:
                Settings("queue", **words)
            self.assertEqual(str(it.exception), f"the setting {text}")
            self.assertEqual(it.exception.name, text.split()[0])
        with self.assertRaises(SettingError):
            Settings("register", at_most_more_puts=1)
        with self.assertRaises(SettingError):
            Settings("heap")
        for text in "", "x", "3 calls 0.x turns", "3 turns 1*1", "3 calls 0.1":
            with self.assertRaises(NoRun):
                replay(Settings("queue"), text, lambda: self.fail("nothing runs"))


if __name__ == "__main__":
    unittest.main()

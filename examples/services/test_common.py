"""What the scripts beside this one share, tried without a server."""

import contextlib
import io
import random
import tempfile
import unittest

from common import Case, Found, Judged, calls_of, drawn, drive, selfcheck, smaller_events, try_case
from selfcheck.models import BoundedQueue, VersionedStore

OPS = {
    "queue": (BoundedQueue(2), [("put", 5), ("put", 6), ("take",)], [True, False, 5, 6, None]),
    "store": (VersionedStore(), [("put", "k", "v"), ("put", "l", "w"), ("get", "k")], [1, 2, (1, "v"), (0, None)]),
}
HISTORY = [
    ("begin", 0, ("put", 1)),
    ("begin", 2, ("take",)),
    ("end", 0, True),
    ("begin", 0, ("put", 2)),
    ("end", 2, None),
]
DRAWN = """\
caller 0   caller 2
put 1
|          take
-> True    |
put 2      |
|          -> None
"""


def random_events(draw, ops, replies):
    events, begun = [], set()
    for _ in range(24):
        caller = draw.randrange(3)
        what, value = ("end", draw.choice(replies)) if caller in begun else ("begin", draw.choice(ops))
        begun ^= {caller}
        events.append((what, caller, value))
    return events


def judged(found):
    return Judged(1, 0, False, found and Found("whole\n", "small\n", "said", None))


class Tests(unittest.TestCase):
    def test_smaller_events(self):
        for name, (model, ops, replies) in OPS.items():
            draw, tried = random.Random(name), 0
            while tried < 40:
                events = random_events(draw, ops, replies)
                if selfcheck.judge(model, events).legal:
                    continue
                tried += 1
                small = smaller_events(model, events)
                self.assertIs(selfcheck.judge(model, small).legal, False)
                self.assertIsNot(selfcheck.judge(model, small[:-1]).legal, False)
                self.assertTrue(all(any(event is one for one in events) for event in small))
                if name == "queue":
                    self.check_left_out(model, events, small)

    # Before the last event only calls that change no state are left out.
    def check_left_out(self, model, events, small):
        last = next(at for at, event in enumerate(events) if event is small[-1])
        for begin, end in calls_of(events[: last + 1]):
            if not any(begin is event for event in small):
                self.assertTrue(model.leaves(begin[2], end[2]))

    def test_drawn(self):
        self.assertEqual(drawn(HISTORY), DRAWN)

    def test_drive(self):
        made = []

        def client(number):
            made.append(number)
            if number % 2:
                raise TimeoutError

        drive([client, client], 4, TimeoutError)
        self.assertEqual(sorted(made), [0, 0, 1, 1, 2, 2, 3, 3])
        with self.assertRaises(TimeoutError):
            drive([client], 4, ValueError)

    # A right one that is blamed, and a wrong one that isn't found, are not as they should be.
    def test_cases(self):
        for is_right, found, wanted in (True, False, True), (True, True, False), (False, False, False), (False, True, True):
            case = Case("a case", is_right, judged, lambda: found)
            with tempfile.TemporaryDirectory() as folder, contextlib.redirect_stdout(io.StringIO()):
                self.assertIs(try_case(case, 0.01, folder), wanted)
        case = Case("a case", True, lambda _: Judged(1, 0, True, None), lambda: None)
        with contextlib.redirect_stdout(io.StringIO()):
            self.assertIs(try_case(case, 0, ""), False)


if __name__ == "__main__":
    unittest.main()

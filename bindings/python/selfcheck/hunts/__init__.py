"""Hunts: random calls of an object under random schedules, until a run is wrong.

Then the run is made small.

    from selfcheck.hunts import Settings, hunt, replay

    class Counter:
        def __init__(self):
            self.number = 0

        def inc(self):
            old = self.number
            self.number = old + 1
            return old

    print(hunt(Settings("counter", seed=17), Counter))

Nobody changes the object's code. One thread runs at a time, and at each opcode of the interpreter
that may touch what others see the turn may go to another thread, as a seed says. So a run comes
again by its seed: `finding.line()` is the line of code that brings the small run again. Locks,
conditions, events, semaphores, barriers, threads and clocks of the standard library are the hunt's
own while it runs.

What is found is a book with no legal order, by the proved check, or an ending of its own: a
deadlock, a livelock, a run with no end, a thread that waits for something outside of the schedule,
or an exception. Each finding is run once more before it is told, and says whether it came again. A
hunt that finds nothing shows nothing of the object: random schedules aren't all schedules.

docs/SCHEDULES.md says what a schedule is, and what breaks repetition.
"""

import os
import time

from .. import explain
from .. import smaller as smaller_book
from . import endings, small
from .again import Again, NoRun
from .finding import Finding
from .folder import Begun, Unwritten, write
from .names import Names
from .points import take_part
from .settings import SettingError, Settings
from .trial import ILLEGAL, Hunter, Trial, by_name

__all__ = [
    "Finding",
    "Hunted",
    "NoRun",
    "SettingError",
    "Settings",
    "Trial",
    "Unwritten",
    "hunt",
    "replay",
    "take_part",
]

# As it is where no hunt has changed it.
_now = time.monotonic


class Hunted:
    """What became of a hunt.

    `runs` and `turns` are those that it made, without those that a finding was made small by.
    `finding` is what ended it, or None, and `exceptions` are the findings after which it went on.
    """

    def __init__(self):
        self.runs = self.turns = 0
        self.finding = None
        self.exceptions = []

    def __str__(self):
        told = "".join(f"{it}\n" for it in self.exceptions)
        return told + str(self.finding or f"nothing was found in {self.runs} runs\n")


def hunt(settings, make, call=by_name):
    """Hunts for a wrong run of the object that `make` makes.

    `call(object, op, *arguments)` makes an operation on it; where it isn't given that is by the
    method of the operation's name, and `del_` for `del`. Each run has an object of its own. Raises
    `Unwritten` where files of a finding, or the one that says which run has begun, can't be
    written, and what is lost.
    """
    hunted, hunter = Hunted(), Hunter(settings, make, call)
    begun = Begun(hunter)
    ends = None if settings.seconds is None else _now() + settings.seconds
    try:
        with Names():
            while hunted.runs != settings.most_runs and (ends is None or _now() < ends):
                trial = hunter.run(hunted.runs, begun.begins)
                run, hunted.runs = hunted.runs, hunted.runs + 1
                hunted.turns += trial.turns
                if trial.found is None:
                    continue
                goes_on = settings.after_exceptions and trial.found == endings.EXCEPTION
                if goes_on and any(it.trial.is_like(trial) for it in hunted.exceptions):
                    continue
                finding = _told(hunter, run, trial)
                if goes_on:
                    hunted.exceptions.append(finding)
                else:
                    hunted.finding = finding
                _written(settings, hunted, finding)
                if not goes_on:
                    break
    finally:
        begun.ends()
    return hunted


def replay(settings, again, make, call=by_name):
    """Runs a run of a hunt once more, by its number, or as `Finding.again` says it.

    It gives the `Trial`. The settings and what makes and calls the object have to be those of the
    hunt. Raises `NoRun`.
    """
    again = Again.read(again)
    with Names():
        return Hunter(settings, make, call).again(again)


# Runs it once more, and makes it small where it came again.
def _told(hunter, run, trial):
    finding = Finding(hunter, run, trial, hunter.run(run).is_same(trial))
    if finding.repeats and trial.is_left:
        finding.made_small(small.smaller(hunter, trial))
    if trial.found == ILLEGAL:
        finding.small_book = smaller_book(finding.small.book)
        finding.explanation = finding.small_book and explain(finding.small_book)
    return finding


def _written(settings, hunted, finding):
    if settings.folder is None:
        return
    name = f"{settings.kind}-{settings.seed}-{finding.run}"
    try:
        write(finding, os.path.join(settings.folder, name))
    except Unwritten as error:
        error.hunted = hunted
        raise

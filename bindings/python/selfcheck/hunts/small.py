"""Makes a finding small: fewer calls, and fewer switches from thread to thread."""

from .chooser import FAR, Priorities, Written, joined
from .draw import Draw

# How many runs, and how many turns in all, are spent on one finding.
_RUNS = 800
_TURNS = 200_000
# Further schedules for a script with fewer calls, and for one schedule with fewer switches.
_OTHERS = 4
_FEWER = 100
# How many lengths are tried at the most of a leg that is made of two.
_LENGTHS = 4


def smaller(hunter, found):
    """A run that is wrong in the same way, with the fewest calls and switches that are found."""
    shrinking = _Shrinking(hunter, found)
    before = None
    while before != (before := (shrinking.best.script.calls(), shrinking.best.size())):
        shrinking.remove_calls()
        shrinking.cut_legs()
        shrinking.join_legs()
        shrinking.try_fewer_switches()
    return shrinking.best


class _Shrinking:
    def __init__(self, hunter, found):
        self._hunter = hunter
        self._found = self.best = found
        self._runs, self._turns = _RUNS, _TURNS
        self._tried = set()

    def _may_run(self):
        return self._runs > 0 and self._turns > 0

    # A run with these legs, where it is wrong as wanted and they are tried for the first time.
    def _wrong_by(self, script, legs):
        if not self._may_run():
            return None
        tried = tuple(script.names()), tuple(legs)
        if tried in self._tried:
            return None
        self._tried.add(tried)
        return self._wrong(script, Written(legs))

    def _wrong(self, script, how):
        if not self._may_run():
            return None
        trial = self._hunter.trial(script, how)
        self._runs -= 1
        self._turns -= trial.turns
        return trial if trial.is_like(self._found) else None

    def remove_calls(self):
        for caller in range(len(self.best.script.callers) - 1, -1, -1):
            calls = self.best.script.callers[caller]
            if len(calls) > 1 and not self._hunter.settings.producers_and_consumers:
                # all at once, which costs fewer runs
                self._removes({(caller, number) for number, _ in calls})
            for place in range(len(self.best.script.callers[caller]) - 1, -1, -1):
                if place < len(self.best.script.callers[caller]):
                    ways = self.best.script.removed_with(self._hunter.settings, caller, place)
                    any(self._removes(set(it)) for it in ways)

    # Whether the script without these calls is wrong too, by what is left of the schedule, or by
    # others.
    def _removes(self, names):
        best = self.best
        script = best.script.part([it for it in best.script.names() if it not in names])
        gone = {(f"caller {caller}", call) for caller, call in names}
        left = [
            (thread, turns)
            for thread, call, turns in best.legs
            if (best.threads[thread], call) not in gone
        ]
        trial = self._wrong_by(script, joined(left))
        turns = best.turns
        for other in range(_OTHERS):
            if trial is None:
                trial = self._wrong(script, Priorities(Draw.of_run(other, turns), 2, turns))
        if trial is not None:
            self.best = trial
        return trial is not None

    def _takes(self, trial):
        is_less = trial is not None and trial.size() < self.best.size()
        if is_less:
            self.best = trial
        return is_less

    # A short beginning of the schedule, after which each thread goes as far as it can.
    def cut_legs(self):
        legs, length = self.best.written, 1
        while length < len(legs):
            if self._takes(self._wrong_by(self.best.script, legs[:length])):
                break
            length *= 2

    def join_legs(self):
        place = 0
        while place < len(self.best.written) and self._may_run():
            script = self.best.script
            ways = _shorter(self.best.written, place)
            if not any(self._takes(self._wrong_by(script, it)) for it in ways):
                place += 1

    # Some schedules with so few points that they have fewer switches.
    def try_fewer_switches(self):
        for number in range(_FEWER):
            switches = self.best.switches
            if switches <= 1:
                break
            points = 1 + min(number % 2, switches - 2)
            how = Priorities(Draw.of_run(number, 1), points, self.best.turns)
            self._takes(self._wrong(self.best.script, how))
        self.join_legs()


def _shorter(legs, place):
    """Schedules that have one leg fewer at this place.

    It is made with the thread's next one, or with its last one, for as many turns or fewer, since
    the steps may be others then; or it takes the thread as far as it goes; or nothing is said from
    it on.
    """
    thread, turns = legs[place]
    later = next((it for it in range(place + 1, len(legs)) if legs[it][0] == thread), None)
    sooner = next((it for it in range(place - 1, -1, -1) if legs[it][0] == thread), None)
    for other in later, sooner:
        if other is None:
            continue
        most = turns + legs[other][1]
        lengths = {most * it // _LENGTHS for it in range(1, _LENGTHS + 1)} - {0}
        for length in sorted(lengths, reverse=True):
            changed = [(thread, length) if at == other else it for at, it in enumerate(legs)]
            del changed[place]
            yield joined(changed)
    yield [*legs[:place], (thread, FAR), *legs[place + 1 :]]
    yield legs[:place]

"""A run of a hunt: its script, its schedule, its book, and what is wrong with it."""

import functools
import keyword

from .. import Recorder, verify
from . import chooser, endings, opcodes
from .run import START, WOKEN, Run, current
from .script import Script, text_of

ILLEGAL = "illegal"

# How many turns the first run is taken to have.
_TURNS = 200


class Trial:
    """`found` names what is wrong: None, "illegal", or the name of an ending. `told` tells it."""

    def __init__(self, script, run, book, written):
        self.script = script
        self.ending = run.ending
        self.turns = len(run.turns)
        self._run = run
        self._written = written
        self.switches = run.switches
        self.is_left = run.is_left
        self.book = book
        self.found = self._found()

    @functools.cached_property
    def steps(self):
        """The turns: number, call, what is done if it isn't by an opcode, code and place."""
        return self._run.steps()

    @functools.cached_property
    def legs(self):
        return self._run.legs()

    @functools.cached_property
    def written(self):
        """Legs by which it comes again."""
        return self._written or chooser.joined((it, turns) for it, _, turns in self.legs)

    @property
    def threads(self):
        return self._run.whos()

    def _found(self):
        if self.ending.name != endings.FINISHED:
            return self.ending.name
        return ILLEGAL if self.book is not None and not verify(self.book) else None

    @property
    def told(self):
        if self.found == ILLEGAL:
            return "illegal: the calls have no legal order"
        return str(self.ending)

    def is_like(self, other):
        """Whether the other is wrong in the same way."""
        return self.found == other.found and self.ending.place == other.ending.place

    def is_same(self, other):
        """Whether all that is told of a run is the same."""
        mine, its = ((it.steps, it.ending, it.book, it.found) for it in (self, other))
        return mine == its

    def size(self):
        """What is made less: switches first."""
        return self.switches, len(self.written), self.turns

    def steps_text(self, most=None):
        """The steps, or so many of them, with a blank line where another thread goes on."""
        lines, last = [], None
        steps = [it for it in self.steps if it[2] not in (START, WOKEN)]
        for number, call, operated, code, at in steps[:most]:
            if last not in (None, number):
                lines.append("")
            last, who = number, self.threads[number]
            if operated == ("call",):
                of_caller = dict(self.script.callers[int(who.split()[1])])
                lines.append(f"{who} calls {text_of(of_caller[call])}")
            else:
                does = " #".join(map(str, operated)) if operated else opcodes.operated(code, at)
                lines.append(f"{who}: {does} at {opcodes.place(code, at)}")
        if most is not None and len(steps) > most:
            lines += ["", f"and {len(steps) - most} more steps"]
        return "".join(f"{line}\n" for line in lines)


def _life(run, caller, calls, thing, call):
    me = current()
    traced = me.worker.traced
    for number, (op, *arguments) in calls:
        me.begins_call(number)
        caller.call(op, *arguments, lambda: traced(call, thing, op, *arguments))
        run.ended_call()


def by_name(thing, op, *arguments):
    """Makes an operation by the method of its name; of `del` it is `del_`."""
    return getattr(thing, f"{op}_" if keyword.iskeyword(op) else op)(*arguments)


class Hunter:
    """Makes the runs of a hunt."""

    def __init__(self, settings, make, call):
        self.settings = settings
        self._make = make
        self._call = call
        # how many turns the first run had
        self._turns = None

    def line(self, again):
        """The code that brings a run again, with what makes and calls the object."""
        closures = "make" if self._call is by_name else "make, call"
        return f'replay({self.settings!r}, "{again}", {closures})'

    def trial(self, script, how):
        settings = self.settings
        recorder = Recorder(settings.kind)
        callers = [recorder.caller() for _ in script.callers]
        run = Run(how, settings.step_limit, settings.patience, not settings.new_threads)

        def body():
            thing = self._make()
            numbers = [
                run.spawn(
                    lambda _, number=number: f"caller {number}",
                    lambda it=it: _life(run, *it, thing, self._call),
                )
                for number, it in enumerate(zip(callers, script.callers))
            ]
            for number in numbers:
                run.join(number)

        run.whole(body)
        return Trial(script, run, recorder.book(), getattr(how, "legs", None))

    # The schedule of a run. The first one is a walk, and tells how many turns the others may have.
    def _chooser(self, run, calls, draw):
        strategy = self.settings.strategy
        by_priorities = draw.below(2) == 0 if strategy == "both" else strategy == "priorities"
        if run == 0 or not by_priorities:
            return chooser.Walk(draw, (self._turns if run else _TURNS) // calls)
        points = 1 + draw.below(self.settings.change_points or calls)
        return chooser.Priorities(draw, points, self._turns)

    def run(self, run, begins=None):
        """A run of the hunt; `begins` is told its script before it begins."""
        if run and self._turns is None:
            self.run(0)
        script, draw = Script.drawn(self.settings, run)
        if begins:
            begins(run, script)
        trial = self.trial(script, self._chooser(run, script.calls(), draw))
        if run == 0:
            self._turns = trial.turns
        return trial

    def again(self, again):
        """A run that comes again."""
        if again.legs is None:
            return self.run(again.run)
        script, _ = Script.drawn(self.settings, again.run)
        return self.trial(script.part(again.calls), chooser.Written(again.legs))

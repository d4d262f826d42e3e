"""One run under a schedule: one thread has the turn, and gives it away at its steps."""

import _thread
import bisect
import functools
import gc
import os
import sys
import traceback

from . import endings, opcodes
from .endings import Ending

# Of the standard library, as it is where no hunt has changed it.
_allocate_lock, _get_ident, _start = (
    _thread.allocate_lock,
    _thread.get_ident,
    _thread.start_new_thread,
)

# A thread with so many turns in a row gives way, so that one that spins without saying so doesn't
# keep the others from going on.
_MOST_IN_A_ROW = 500
# How far the threads that are left may go once the main one has ended.
_TURNS_OF_DETACHED = 200
# How many seconds the threads of a run that is over have to unwind.
_UNWINDING = 2

_READY, _WAITS, _ENDED = "ready", "waits", "ended"
# Turns that are no steps: a thread's first one, and one with which a wait has ended.
START, WOKEN = "start", "woken"

_OWN_FOLDER = os.path.join(os.path.dirname(os.path.dirname(os.path.abspath(__file__))), "")
_LIBRARY = os.path.dirname(os.__file__)
_THREADING = os.path.join(_LIBRARY, "threading.py")
# Code with locks of its own that threads would wait for outside of the schedule: nothing in it is a
# step, nor in what it calls.
_QUIET = (
    "<frozen importlib",
    _THREADING,
    *(os.path.join(_LIBRARY, it) for it in ("weakref.py", "importlib", "logging")),
)


class Abandon(BaseException):
    """What a thread of a run that is over unwinds with."""


class Member:
    """A thread in its run."""

    def __init__(self, run, number, who, worker):
        self.run = run
        self.number = number
        self.who = who
        self.worker = worker
        self.parker = worker.parker
        self.call = None
        # how many steps it has until it is asked who goes on
        self.budget = 0
        self.add = run.turns.append
        self.status = _READY
        self.key = self.until = self.awaits = self.gives_way = None
        self.timed_out = False
        self.place = None
        self.points_after_end = 0
        self.ident = None

    def told(self, _run):
        return self.who

    def begins_call(self, call):
        self.call = call
        self.run.goes_on(self)
        self.step("call")

    def step(self, name, thing=None):
        """A step, at which the turn may go elsewhere: what is done, and to which object."""
        run = self.run
        code, at = self.place = place_of(sys._getframe(1))
        if run.over:
            raise Abandon
        operated = (name,)
        if thing is not None:
            of, number = thing.numbered
            operated = name, number if of is run else run.number_of(thing)
        if self.budget > 0:
            self.budget -= 1
        else:
            run.pass_turn(self)
        self.add((code, at, operated))

    def give_way(self, operated, nanoseconds=None):
        """A step before which another thread moves, where one can."""
        run = self.run
        if nanoseconds is None:
            nanoseconds = 1000 << min(run.idle, 40)
        self.gives_way = run.now + nanoseconds
        self.budget = 0
        run.chooser.lower(self.number)
        self.step(operated)

    def wait(self, key, awaits, nanoseconds=None):
        """Whether it was woken by this key before the time was over.

        What it awaits is a text, and the object that is to be told in it.
        """
        run = self.run
        if run.over:
            raise Abandon
        code, at = self.place = caller_place()
        self.status, self.key, self.awaits = _WAITS, key, awaits
        run.waiting += 1
        self.until = None if nanoseconds is None else run.now + nanoseconds
        run.pass_turn(self)
        self.add((code, at, WOKEN))
        self.awaits = None
        timed_out, self.timed_out = self.timed_out, False
        return not timed_out


def caller_place():
    """Where the code is that has called the hunt's own."""
    return place_of(sys._getframe(1))


def place_of(frame):
    """Where in a frame, or in those that it was called by, code is that isn't the hunt's own."""
    code = frame.f_code
    while _is_own(code.co_filename) and frame.f_back:
        frame = frame.f_back
        code = frame.f_code
    return code, frame.f_lasti


@functools.lru_cache(maxsize=4096)
def _is_own(file):
    return file.startswith((_OWN_FOLDER, _THREADING))


def current():
    """The member that the current thread is; None where it is in no run."""
    return _of_threads.get(_get_ident())


_of_threads = {}


class Worker:
    """A thread for the members of runs."""

    _free = []

    @classmethod
    def free(cls, keeps):
        worker = cls._free.pop() if keeps and cls._free else cls()
        worker.keeps = keeps
        return worker

    def __init__(self):
        self.parker = _allocate_lock()
        self.parker.acquire()
        self.job = self.member = None
        self._quiet = None
        self._tracers = {}
        _start(self._work, ())

    def _work(self):
        while True:
            self.parker.acquire()
            job, self.job = self.job, None
            if job is not None:
                job()
                if not self.keeps:
                    return

    def traced(self, call, *arguments):
        """Makes a call of what isn't the hunt's own, with its opcodes as steps."""
        self._quiet = None
        sys.settrace(self._calls)
        try:
            return call(*arguments)
        finally:
            sys.settrace(None)

    def hand_back(self):
        self.parker.acquire(False)
        if self.keeps:
            self._free.append(self)

    # What the interpreter calls where a frame begins; it gives what is called at its opcodes.
    def _calls(self, frame, _event, _argument):
        if self._quiet is not None:
            return None
        code = frame.f_code
        # by the code's address, since its hash is that of its constants
        of_code = self._tracers.get(id(code))
        if of_code is None:
            of_code = self._tracers[id(code)] = code, self._tracer(code, frame.f_globals)
        tracer = of_code[1]
        if tracer is _UNTRACED:
            return None
        frame.f_trace_lines = False
        if tracer is _SILENT:
            self._quiet = frame
            return self._silent
        frame.f_trace_opcodes = True
        return tracer

    def _silent(self, frame, event, _argument):
        if event == "return" and frame is self._quiet:
            self._quiet = None
        return self._silent

    def _tracer(self, code, names):
        file = code.co_filename
        if file.startswith(_OWN_FOLDER):
            return _UNTRACED
        if file.startswith(_QUIET):
            return _SILENT
        # by its place, for each instruction that is a step, the turn that is told of it
        steps = [None] * len(code.co_code)
        for it, is_step in enumerate(opcodes.steps_of(code, names)):
            if is_step:
                steps[2 * it] = code, 2 * it, None

        def tracer(frame, event, _argument):
            step = steps[frame.f_lasti]
            if step is not None and event == "opcode":
                member = self.member
                if member.budget > 0:
                    member.budget -= 1
                else:
                    member.place = code, step[1]
                    member.run.pass_turn(member)
                member.add(step)
            return tracer

        return tracer


_UNTRACED, _SILENT = object(), object()


def _permit(parker):
    """Lets the thread go on that is parked there, or parks there next."""
    if parker.locked():
        try:
            parker.release()
        except RuntimeError:
            # another thread has done so since
            pass


class Run:
    """A run of a body under the schedule of a chooser."""

    def __init__(self, chooser, most_steps, patience, keeps_threads):
        self.chooser = chooser
        self._most_steps = most_steps
        self._patience = patience
        self._keeps_threads = keeps_threads
        self._members = []
        # each turn's code and place, and what is done if it isn't by an opcode
        self.turns = []
        # whose they are: from which turn on a thread goes on, by its number, and in which call
        self.whose = []
        self.switches = 0
        self._last = 0
        self._since = 0
        # in nanoseconds; it goes on where all threads give way or wait
        self.now = 0
        self.idle = 0
        self._call_ended = 0
        self._objects = 0
        # how many members wait
        self.waiting = 0
        self.ending = None
        self.over = False
        self._main_ended = None
        self._inside = 0
        # whether all threads have left it
        self.is_left = True
        self._guard = _allocate_lock()
        self._left = _allocate_lock()

    def whole(self, body):
        """Runs the body, and comes back when its threads have ended."""
        self._left.acquire()
        collects = gc.isenabled()
        gc.disable()
        try:
            self.spawn(lambda _: "main", body)
            _permit(self._members[self._choose()].parker)
            self._watch()
        finally:
            self.end(Ending(endings.FINISHED))
            if collects:
                gc.enable()
        return self

    # Waits until all threads have left the run, and ends it where they stand still.
    def _watch(self):
        seen = -1
        while not self._left.acquire(timeout=_UNWINDING if self.over else self._patience):
            if self.over:
                self.is_left = False
                return
            if len(self.turns) == seen:
                stuck = self._members[self._last]
                frame = sys._current_frames().get(stuck.ident)
                if frame:
                    stuck.place = place_of(frame)
                self.end(Ending(endings.STUCK, [self._told(stuck)]))
            seen = len(self.turns)

    def whos(self):
        return [it.who for it in self._members]

    def goes_on(self, member):
        """The turns from here on are the member's, in its call."""
        self.whose.append((len(self.turns), member.number, member.call))

    def legs(self):
        """The turns as legs, each a thread, its call and how many turns."""
        legs = []
        ends = [begins for begins, *_ in self.whose[1:]] + [len(self.turns)]
        for (begins, number, call), end in zip(self.whose, ends):
            if legs and legs[-1][:2] == [number, call]:
                legs[-1][2] += end - begins
            elif end > begins:
                legs.append([number, call, end - begins])
        return legs

    def steps(self):
        """The turns, each with its thread's number and call before it."""
        whose = ((number, call) for number, call, turns in self.legs() for _ in range(turns))
        return [(*who, operated, code, at) for who, (code, at, operated) in zip(whose, self.turns)]

    def number_of(self, thing):
        """The number of an object, in the order in which the run has used them first."""
        run, number = thing.numbered
        if run is not self:
            self._objects = number = self._objects + 1
            thing.numbered = self, number
            thing.begins()
        return number

    # Threads and turns

    def spawn(self, who, body):
        """A further thread, which has its first turn when it is chosen."""
        worker = Worker.free(self._keeps_threads)
        number = len(self._members)
        member = Member(self, number, who(number), worker)
        self._members.append(member)
        self._inside += 1
        worker.job = lambda: self._live(member, body)
        self._members[self._last].budget = 0
        return number

    def _live(self, member, body):
        member.ident = _get_ident()
        _of_threads[member.ident] = member
        member.worker.member = member
        error = None
        try:
            if not self.over:
                self.goes_on(member)
                member.add((None, 0, START))
                body()
        except BaseException as it:
            error = it
        del _of_threads[_get_ident()]
        if error is not None and not self.over and not isinstance(error, SystemExit):
            self.end(self._raised(member, error))
        self._finish(member)

    def _raised(self, member, error):
        frames = [
            (frame.f_code, line)
            for frame, line in traceback.walk_tb(error.__traceback__)
            if not frame.f_code.co_filename.startswith(_OWN_FOLDER)
        ]
        place = "the hunt's own code"
        if frames:
            code, line = frames[-1]
            place = f"{opcodes.place(code, 0).rpartition(':')[0]}:{line}"
        said = "".join(traceback.format_exception_only(type(error), error)).strip()
        call = "" if member.call is None else f", in its call {member.call},"
        told = f"{member.who}{call} raised at {place}: {said}"
        return Ending(endings.EXCEPTION, [told], place, error)

    def _finish(self, member):
        member.status = _ENDED
        if member.number == 0:
            self._main_ended = len(self.turns)
        self.wake(("end", member.number))
        member.worker.hand_back()
        chosen = None if self.over else self._next()
        with self._guard:
            self._inside -= 1
            is_last = self._inside == 0
        if is_last:
            self._left.release()
        elif chosen is not None:
            _permit(chosen.parker)

    def pass_turn(self, member):
        """Gives the turn to whom the schedule chooses, and comes back once it is the member."""
        if self.over:
            raise Abandon
        if self._is_at_limit():
            raise Abandon
        chosen = self._next()
        if chosen is member:
            return
        if chosen is not None:
            # with nothing between them, so that whoever wakes finds the interpreter free
            acquire = member.parker.acquire
            chosen.parker.release()
            acquire()
            self.goes_on(member)
        if self.over:
            raise Abandon

    # Who has the next turn; where there is none the run is over.
    def _next(self):
        chosen = self._choose()
        if chosen is not None:
            return self._members[chosen]
        is_left = self._main_ended is not None
        told = [] if is_left else self._waiters()
        self.end(Ending(endings.FINISHED if is_left else endings.DEADLOCK, told))
        return None

    def _is_at_limit(self):
        turns = len(self.turns)
        if turns >= self._most_steps:
            half = turns // 2
            at = bisect.bisect(self.whose, (half + 1,))
            moved = {number for _, number, _ in self.whose[at - 1 :]}
            is_livelock = len(moved) > 1 and self._call_ended < half
            name = endings.LIVELOCK if is_livelock else endings.STEP_LIMIT
            self.end(Ending(name, self._waiters()))
        elif self._main_ended is not None and turns - self._main_ended > _TURNS_OF_DETACHED:
            self.end(Ending(endings.FINISHED))
        return self.over

    def _candidates(self):
        members = self._members
        ready = [it.number for it in members if it.status is _READY and it.gives_way is None]
        if ready:
            return ready
        dues = [
            (it.gives_way if it.status is _READY else it.until, it.number)
            for it in members
            if (it.status is _READY or it.status is _WAITS and it.until is not None)
        ]
        if not dues:
            return []
        time, number = min(dues)
        self.now = max(self.now, time)
        self.idle += 1
        member = members[number]
        if member.status is _WAITS:
            member.status, member.timed_out = _READY, True
            self.waiting -= 1
        return [number]

    # The number of who has the next turn; None where no thread can go on.
    def _choose(self):
        candidates, last, turn = self._candidates(), self._last, len(self.turns)
        if not candidates:
            return None
        if len(candidates) == 1:
            self._since = turn
        elif turn - self._since >= _MOST_IN_A_ROW and last in candidates:
            self.chooser.lower(last)
            candidates.remove(last)
        chosen, turns = self.chooser.choose(candidates, last, turn)
        if chosen != last:
            self._since = turn
            self.switches += last in candidates
            for member in self._members:
                member.gives_way = None
        member = self._members[chosen]
        member.gives_way = None
        self._last = chosen
        left = max(1, self._since + _MOST_IN_A_ROW - turn)
        member.budget = min(turns, left, max(1, self._most_steps - turn)) - 1
        return chosen

    # What waits for what

    def wake(self, key):
        """Wakes those that wait for this key."""
        if not self.waiting:
            return
        for member in self._members:
            if member.status is _WAITS and member.key == key:
                member.status, member.awaits = _READY, None
                self.waiting -= 1
                self._members[self._last].budget = self.idle = 0

    def has_ended(self, number):
        return self._members[number].status is _ENDED

    def join(self, number, nanoseconds=None):
        """The current member waits for the end of another one."""
        me = current()
        while not self.has_ended(number):
            if not me.wait(("end", number), ("the end of {}", self._members[number]), nanoseconds):
                return

    def ended_call(self):
        self._call_ended = len(self.turns)
        self.idle = 0

    def _told(self, member):
        call = "" if member.call is None else f", in its call {member.call},"
        if member.place is None:
            return f"{member.who}{call} hasn't begun"
        code, at = member.place
        doing = "is"
        if member.awaits:
            doing = "waits for " + member.awaits[0].format(member.awaits[1].told(self))
        held = ""
        holder = member.awaits and getattr(member.key, "owner", None)
        if holder:
            held = f", held by {holder.who} since {opcodes.place(*member.key.since)}"
        return f"{member.who}{call} {doing} at {opcodes.place(code, at)}{held}"

    # Those that haven't ended; the main one only where nobody else is left, since it waits for the
    # callers.
    def _waiters(self):
        alive = [it for it in self._members if it.status is not _ENDED]
        others = [it for it in alive if it.number != 0]
        return [self._told(it) for it in others or alive]

    # How it ends

    def end(self, ending):
        """The run is over; each thread that is left gets the turn, and unwinds."""
        if self.ending is None:
            self.ending = ending
            self.over = True
            for member in self._members:
                member.budget = 0
                if member.status is not _ENDED:
                    _permit(member.parker)

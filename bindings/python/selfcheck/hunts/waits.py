"""Locks and conditions of a hunt, which take the places of those of `threading` while it runs.

Events, semaphores and barriers stand on these in the standard library, so they are the hunt's too.
Made by a thread that is in no run they are the standard library's own.
"""

import functools
import sys
import threading
import time

from . import opcodes
from .run import Abandon, _of_threads, caller_place, current

_Lock, _RLock, _Condition = threading.Lock, threading.RLock, threading.Condition
_sleep, _now = time.sleep, time.monotonic
_get_ident, _gettrace, _settrace = threading.get_ident, sys.gettrace, sys.settrace


def operation(method):
    """What a thread does by the hunt's own code, no opcode of which is a step.

    The method is given the member that the thread is, or None where it is in no run.
    """

    @functools.wraps(method)
    def operates(thing, *arguments, **named):
        # no call of other Python code before tracing ends, since that would be traced
        me = _of_threads.get(_get_ident())
        trace = me and _gettrace()
        if not trace:
            return method(thing, me, *arguments, **named)
        _settrace(None)
        try:
            return method(thing, me, *arguments, **named)
        finally:
            if not me.run.over:
                _settrace(trace)

    return operates


def nanoseconds(seconds):
    return None if seconds is None else max(0, int(seconds * 1e9))


class _Waited:
    """An object that members of a run wait for, with its number there and where it was made."""

    def _is_made(self, place):
        self.numbered = None, 0
        self._made = place
        self.begins()

    def begins(self):
        """A run uses it for the first time."""

    def told(self, run):
        made = self._made if isinstance(self._made, str) else opcodes.place(*self._made)
        return f"{self._KIND} #{run.number_of(self)}, made at {made},"


class Lock(_Waited):
    _KIND, _ACQUIRE, _PLAIN = "Lock", "Lock.acquire", _Lock

    @operation
    def __new__(cls, me):
        return cls._made_at(caller_place()) if me else cls._PLAIN()

    @classmethod
    def _made_at(cls, place):
        lock = object.__new__(cls)
        lock._is_made(place)
        return lock

    @classmethod
    def of_module(cls, name):
        """In the place of a lock that a module has made."""
        return cls._made_at(name)

    def begins(self):
        # who has it, and since which place
        self._count, self.owner, self.since = 0, None, None

    def _is_free(self, _me):
        return self._count == 0

    @operation
    def acquire(self, me, blocking=True, timeout=-1):
        if me is None:
            return self._acquire_plainly(blocking, timeout)
        me.step(self._ACQUIRE, self)
        if self._count == 0:
            self._count, self.owner, self.since = 1, me, me.place
            return True
        return self._take(me, blocking, nanoseconds(None if timeout < 0 else timeout))

    __enter__ = acquire

    def _take(self, me, blocking=True, left=None):
        until = None if left is None else me.run.now + left
        while not self._is_free(me):
            left = None if until is None else until - me.run.now
            if not blocking or not me.wait(self, ("{}", self), left):
                return False
        if self._count == 0:
            self.owner, self.since = me, me.place
        self._count += 1
        return True

    # By a thread that is in no run, as where a test looks at an object once its run is over.
    def _acquire_plainly(self, blocking, timeout):
        until = _now() + timeout
        while not self._is_free(None):
            if not blocking or 0 <= timeout and _now() >= until:
                return False
            _sleep(0.001)
        self._count, self.owner = self._count + 1, None
        return True

    @operation
    def release(self, me):
        self._release(me)

    def _release(self, me):
        if self._count == 0:
            if me and me.run.over:
                return
            raise RuntimeError("release unlocked lock")
        self._count -= 1
        if self._count == 0:
            self._give_back(me)

    def _give_back(self, me):
        owner, self.owner = self.owner or me, None
        if owner and owner.run.waiting:
            owner.run.wake(self)

    @operation
    def __exit__(self, me, *_):
        self._release(me)

    @operation
    def locked(self, me):
        if me:
            me.step(f"{self._KIND}.locked", self)
        return self._count > 0

    def _at_fork_reinit(self):
        self.begins()

    # What conditions ask of a lock, the standard library's among them.

    def _is_owned(self):
        return self._count > 0

    @operation
    def _release_save(self, me):
        count, self._count = self._count, 0
        self._give_back(me)
        return count

    @operation
    def _acquire_restore(self, me, count):
        if me and not me.run.over:
            self._take(me)
        self._count = count


class RLock(Lock):
    _KIND, _ACQUIRE, _PLAIN = "RLock", "RLock.acquire", _RLock

    def _is_free(self, me):
        return self._count == 0 or self.owner is me

    def _release(self, me):
        if self._count > 0 and self.owner is not me and not (me and me.run.over):
            raise RuntimeError("cannot release un-acquired lock")
        super()._release(me)

    def _is_owned(self):
        return self._count > 0 and self.owner is current()


class Condition(_Waited):
    _KIND = "Condition"

    def __new__(cls, lock=None):
        return super().__new__(cls) if current() else _Condition(lock)

    def __init__(self, lock=None):
        self._is_made(caller_place())
        self._lock = RLock() if lock is None else lock
        self._waiters = []
        self.acquire, self.release = self._lock.acquire, self._lock.release

    def __enter__(self):
        return self._lock.__enter__()

    def __exit__(self, *error):
        return self._lock.__exit__(*error)

    @operation
    def wait(self, me, timeout=None):
        if not self._lock._is_owned():
            raise RuntimeError("cannot wait on un-acquired lock")
        me.step("Condition.wait", self)
        ticket = object()
        self._waiters.append(ticket)
        saved = self._lock._release_save()
        try:
            return me.wait(ticket, ("a notification of {}", self), nanoseconds(timeout))
        finally:
            if ticket in self._waiters:
                self._waiters.remove(ticket)
            self._lock._acquire_restore(saved)

    def wait_for(self, predicate, timeout=None):
        until = None if timeout is None else current().run.now + nanoseconds(timeout)
        result = predicate()
        while not result:
            left = None if until is None else (until - current().run.now) / 1e9
            if left is not None and left <= 0:
                break
            self.wait(left)
            result = predicate()
        return result

    @operation
    def notify(self, me, n=1):
        if not self._lock._is_owned():
            if me and me.run.over:
                raise Abandon
            raise RuntimeError("cannot notify on un-acquired lock")
        if me is None:
            return
        me.step("Condition.notify", self)
        woken, self._waiters = self._waiters[:n], self._waiters[n:]
        for ticket in woken:
            me.run.wake(ticket)

    def notify_all(self):
        self.notify(len(self._waiters))

    notifyAll = notify_all

"""The hunt's own locks, clocks and threads in the place of the standard library's, while it runs.

The names are changed where modules have them, so that `from threading import Lock` in the code
under test is no hindrance: in each module, and in the classes and functions of those that aren't
the standard library's. Outside of runs the hunt's own do as the standard library's do.
"""

import _thread
import functools
import logging
import os
import queue
import sys
import threading
import time
import types

from . import points, waits
from .run import current

_LIBRARY = os.path.join(os.path.dirname(os.__file__), "")
# This package, and what the interpreter imports modules by.
_LEFT_ALONE = {__name__.partition(".")[0], "_thread", "importlib", "_frozen_importlib"}
_HUNTING = threading.Lock()


def _sleep(seconds):
    me = current()
    if me is None:
        return waits._sleep(seconds)
    me.give_way("sleep", waits.nanoseconds(seconds))


def _clock(name, divisor):
    plain = getattr(time, name)

    def clock():
        me = current()
        if me is None:
            return plain()
        return me.run.now if divisor == 1 else me.run.now / divisor

    return plain, clock


_start = threading.Thread.start


def _start_thread(self):
    me = current()
    if me is None:
        return _start(self)
    if hasattr(self, "_selfcheck"):
        raise RuntimeError("threads can only be started once")
    me.step("Thread.start")
    number = me.run.spawn(
        lambda number: f"thread {number} '{self.name}'",
        lambda: current().worker.traced(self.run),
    )
    self._selfcheck = me.run, number
    # they outlive the hunt, since the interpreter joins threads of pools when it ends
    self.join = functools.partial(_join_thread, me.run, number)
    self.is_alive = functools.partial(_is_thread_alive, me.run, number)


def _join_thread(run, number, timeout=None):
    me = current()
    if me and me.run is run:
        me.step("Thread.join")
        run.join(number, waits.nanoseconds(timeout))


def _is_thread_alive(run, number):
    me = current()
    if not (me and me.run is run):
        return False
    me.step("Thread.is_alive")
    return not run.has_ended(number)


_NAMES = [
    (threading.Lock, waits.Lock),
    (threading.RLock, waits.RLock),
    (threading._RLock, waits.RLock),
    (threading.Condition, waits.Condition),
    (queue.SimpleQueue, queue._PySimpleQueue),
    (time.sleep, _sleep),
    *(_clock(name, 10**9) for name in ("monotonic", "perf_counter", "time")),
    *(_clock(f"{name}_ns", 1) for name in ("monotonic", "perf_counter", "time")),
]
_LOCKS = {_thread.LockType: waits.Lock, type(threading.RLock()): waits.RLock}


# It tells of each thread of a pool that unwinds.
_POOLS = logging.getLogger("concurrent.futures")


def _is_told(_record):
    me = current()
    return not (me and me.run.over)


class Names:
    """While it is entered names and points are the hunt's own. One hunt runs at a time."""

    def __enter__(self):
        _HUNTING.acquire()
        points.are_steps(True)
        self._undo = []
        self._owns = {id(plain): own for plain, own in _NAMES}
        self._classes = set()
        threading.Thread.start = _start_thread
        _POOLS.addFilter(_is_told)
        self._seen = set(sys.modules)
        for name, module in list(sys.modules.items()):
            if name.partition(".")[0] not in _LEFT_ALONE and isinstance(module, types.ModuleType):
                self._module(name, module)
        return self

    def __exit__(self, *_):
        for change, *to in reversed(self._undo):
            change(*to)
        plains = {id(own): plain for plain, own in _NAMES}
        for name in set(sys.modules) - self._seen:
            # a module that was imported meanwhile
            names = getattr(sys.modules[name], "__dict__", {})
            names.update({key: plains[id(it)] for key, it in names.items() if id(it) in plains})
        threading.Thread.start = _start
        _POOLS.removeFilter(_is_told)
        points.are_steps(False)
        _HUNTING.release()

    def _module(self, name, module):
        names = vars(module)
        is_under_test = not (getattr(module, "__file__", None) or _LIBRARY).startswith(_LIBRARY)
        for key, value in list(names.items()):
            own = self._owns.get(id(value))
            if own is None and is_under_test:
                own = self._lock(f"{name}.{key}", value)
            if own is not None:
                names[key] = own
                self._undo.append((names.__setitem__, key, value))
            elif is_under_test and getattr(value, "__module__", None) == name:
                self._inside(value)

    def _lock(self, name, value):
        own = _LOCKS.get(type(value))
        return own and own.of_module(name)

    def _inside(self, value):
        if isinstance(value, types.FunctionType):
            self._function(value)
        elif isinstance(value, type) and value not in self._classes:
            self._classes.add(value)
            for key, its in list(vars(value).items()):
                own = self._owns.get(id(its)) or self._lock(f"{value.__qualname__}.{key}", its)
                if isinstance(its, functools.cached_property) and hasattr(its, "lock"):
                    # some versions have a lock in it
                    self._undo.append((setattr, its, "lock", its.lock))
                    its.lock = waits.RLock.of_module(f"{value.__qualname__}.{key}")
                elif own is not None:
                    setattr(value, key, own)
                    self._undo.append((setattr, value, key, its))
                else:
                    self._inside(getattr(its, "__func__", its))

    def _function(self, function):
        defaults = function.__defaults__ or ()
        if any(id(it) in self._owns for it in defaults):
            function.__defaults__ = tuple(self._owns.get(id(it), it) for it in defaults)
            self._undo.append((setattr, function, "__defaults__", defaults))
        for cell in function.__closure__ or ():
            try:
                its = cell.cell_contents
            except ValueError:
                continue
            own = self._owns.get(id(its)) or self._lock(function.__qualname__, its)
            if own is not None:
                cell.cell_contents = own
                self._undo.append((setattr, cell, "cell_contents", its))

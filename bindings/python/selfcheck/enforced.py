"""Calls that check themselves: an object with a table of callers beside it, in which each call is announced and judged."""

import ctypes
import threading

from . import _ILLEGAL, _KINDS, _NO_MEMORY, _NO_ROOM, _library, _Operation


_DONE, _UNFIT = 0, 9


class Illegal(Exception):
    """The object is wrong: the published calls that the caller has seen, its own among them, have no legal order. They are
    the book, whose text is None for want of memory. `reply` is what the object's own call gave.

    Where a model judges, the book has operations and replies by numbers, and the steps that the model was asked for after
    it, so that it is judged again without the model (`scripts/judge-model` in the library's repository). `events` is the
    history with its values, which `judge` judges again; else None."""

    def __init__(self, book, reply, events=None):
        shown = book if events is None else "\n".join(f"{caller}: {what} {value!r}" for what, caller, value in events)
        super().__init__(f"these calls have no legal order:\n{shown}" if book else "the calls have no legal order")
        self.book = book
        self.reply = reply
        self.events = events


class NoCallLeft(Exception):
    """The caller, or each caller of the table, has made its calls, or is halted. The object wasn't asked."""


class _Slot(ctypes.Structure):
    _fields_ = [("in_use", ctypes.c_uint32), ("at", ctypes.c_void_p)]


_SLOT = ctypes.POINTER(_Slot)
for _name, _arguments in [
    ("selfcheck_open", [ctypes.c_char_p, ctypes.c_size_t, ctypes.c_uint32, ctypes.c_uint64, _SLOT]),
    ("selfcheck_caller", [_SLOT, _SLOT]),
    ("selfcheck_announce", [_SLOT, ctypes.c_uint64, ctypes.c_uint64]),
    ("selfcheck_answered", [_SLOT, ctypes.c_uint64]),
    ("selfcheck_witness", [_SLOT, ctypes.c_char_p, ctypes.c_size_t, ctypes.POINTER(ctypes.c_size_t)]),
    ("selfcheck_drop", [_SLOT]),
]:
    getattr(_library, _name).restype = ctypes.c_uint32
    getattr(_library, _name).argtypes = _arguments


class _Handle:
    """A table or one of its callers. It is dropped with this value."""

    def __init__(self):
        self.slot = _Slot()

    def __del__(self, drop=_library.selfcheck_drop):
        drop(self.slot)


def _filled(handle, status, lack):
    if status == _NO_MEMORY:
        raise MemoryError
    if status == _UNFIT:
        raise lack
    assert status == _DONE, status
    return handle


def _text_of(handle, export):
    """The text that an export writes of a slot; None for want of memory."""
    written, room = ctypes.c_size_t(), 1024
    while True:
        buffer = ctypes.create_string_buffer(room)
        status = export(handle.slot, buffer, room, written)
        if status != _NO_ROOM:
            return buffer.raw[: written.value].decode() if status == _DONE else None
        room = written.value


def _reply_word(text):
    if text.startswith("="):
        return (2 << 32) + int(text[1:])
    return {"done": 0, "none": 1 << 32, "no": 3 << 32, "yes": (3 << 32) + 1}[text]


class Enforced:
    """An object of a kind whose calls check themselves, with a table of so many callers with so many calls each.

        queue = selfcheck.Enforced("queue", callers=4, calls=64)
        queue.call("enq", 5, lambda: things.append(5))

    Each call is announced, makes the object's own, hands in what that gave, looks at what others have announced and
    published, and is judged: it gives back the reply, or raises `Illegal` with a book that has no legal order. The object is
    to be as its kind is at first, and to be called in such calls alone.

    A call is made by any thread: it takes a caller of the table that is in no call, and waits while all are in calls. So it
    isn't made amid another call of the same thread. Where no caller has a call left, it raises `NoCallLeft`. `caller` gives
    a caller that stays with one thread. Where the object's own call raises, the call stays unanswered, since it may have had
    its effect or not, and its caller makes no further call.

    In the place of a kind there may be a model, a sequential object of one's own (see `selfcheck.model`): then operations
    have any names and arguments, replies are any values, and each call's judgement asks the model for the steps that it
    lacks. Of a model with keys the calls of all keys are judged together. What the model raises, and `BrokenPromise`, halt
    the caller.

    Raises `ValueError` where there is no such table: it has 1 to 16 callers, with 1 to 256 calls each; and `MemoryError`.
    """

    def __init__(self, kind, callers=16, calls=256):
        if isinstance(kind, str) and kind not in _KINDS:
            raise ValueError(f"no kind {kind!r}: {', '.join(_KINDS)}")
        if not 1 <= callers <= 16 or not 1 <= calls <= 256:
            raise ValueError("a table has 1 to 16 callers, with 1 to 256 calls each")
        self._judge = _Kind(kind) if isinstance(kind, str) else _of_model(kind)
        self._table = _Handle()
        status = self._judge.open(callers, calls, self._table.slot)
        _filled(self._table, status, ValueError("there is no such table"))
        self._changed = threading.Condition()
        self._fence = threading.Lock()
        self._free = []
        self._calling = 0

    def caller(self):
        """The next caller, which stays with one thread. The calls of others don't take it. Raises `NoCallLeft` where the
        table has given all its callers."""
        with self._changed:
            return self._caller()

    def _caller(self):
        handle = _Handle()
        status = self._judge.caller(self._table.slot, handle.slot)
        lack = NoCallLeft("the table has given all its callers: open it for more, up to 16")
        return EnforcedCaller(self._judge, _filled(handle, status, lack), self._fence)

    def call(self, op, *arguments_and_call):
        """Makes a call: the operation's name, its arguments, and what makes the object's own call. Gives back what that
        returned. Raises `Illegal`, `NoCallLeft`, `MemoryError`, and what the object's own call raises."""
        *arguments, make = arguments_and_call
        operation = self._judge.operation(op, arguments)
        while True:
            caller, is_announced = self._borrow(), False
            try:
                is_announced = caller._announces(operation)
                if is_announced:
                    return caller._asks(operation, make)
            finally:
                self._hand_back(caller, is_announced)

    # A free caller, or the table's next one.
    def _borrow(self):
        with self._changed:
            while True:
                try:
                    caller = self._free.pop() if self._free else self._caller()
                    self._calling += 1
                    return caller
                except NoCallLeft:
                    if not self._calling:
                        raise NoCallLeft(
                            "the table has no further call: open it for more callers, up to 16, or for more calls, "
                            "up to 256 each"
                        ) from None
                    self._changed.wait()

    def _hand_back(self, caller, has_called):
        with self._changed:
            self._calling -= 1
            if has_called and caller._handle:
                self._free.append(caller)
            self._changed.notify_all()


class EnforcedCaller:
    """One caller of an object that checks itself, for one thread."""

    def __init__(self, judge, handle, fence):
        self._judge = judge
        # None where it makes no further call
        self._handle = handle
        self._told = judge.of_caller(handle)
        self._fence = fence

    def call(self, op, *arguments_and_call):
        """Makes a call, as that of `Enforced`. After an error, and where the object's own call raises, the caller makes no
        further call."""
        *arguments, make = arguments_and_call
        operation = self._judge.operation(op, arguments)
        if not self._announces(operation):
            raise NoCallLeft("the caller has made its calls, or is halted")
        return self._asks(operation, make)

    def _announces(self, operation):
        if not self._handle:
            return False
        return self._judge.announce(self._handle.slot, operation) == _DONE

    # The announced call. Between it and what comes before and after it the caller goes through a lock that all callers
    # share. So of two calls, of which the first one's view misses the second one, the first goes through it earlier, after
    # the object's own call, and the second one's own call sees what it did.
    def _asks(self, operation, make):
        handle, self._handle = self._handle, None
        with self._fence:
            pass
        value = make()
        with self._fence:
            pass
        status = self._judge.answered(handle.slot, operation, value, self._told)
        if status == _ILLEGAL:
            raise self._judge.illegal(_text_of(handle, _library.selfcheck_witness), value, self._told)
        _filled(handle, status, AssertionError)
        self._handle = handle
        return value


class _Kind:
    """What a table of a kind asks of the library. Nothing is told to its callers."""

    def __init__(self, name):
        self.name = name

    def open(self, callers, calls, slot):
        name = self.name.encode()
        return _library.selfcheck_open(name, len(name), callers, calls, slot)

    def caller(self, table, slot):
        return _library.selfcheck_caller(table, slot)

    def of_caller(self, _handle):
        return None

    def operation(self, op, arguments):
        return _Operation(self.name, op, arguments)

    def announce(self, slot, operation):
        return _library.selfcheck_announce(slot, *operation.words)

    def answered(self, slot, operation, value, _told):
        return _library.selfcheck_answered(slot, _reply_word(operation.reply(value)))

    def illegal(self, book, value, _told):
        return Illegal(book, value)


def _of_model(model):
    # not above, since the module of models stands on this one
    from .model import Judge

    return Judge(model)

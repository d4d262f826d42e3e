"""Records what threads do to a concurrent object, and judges by a proved check whether it is linearizable.

    queue, recorder = collections.deque(), selfcheck.Recorder("queue")

    def work():
        recorder.call("enq", 5, lambda: queue.append(5))
        recorder.call("deq", lambda: queue.popleft() if queue else None)

    threads = [threading.Thread(target=work) for _ in range(4)]
    ...
    print(selfcheck.verify(recorder.book()))

The verdict on a book is proved; the recorder is tested. docs/FORMATS.md has the kinds, their operations and the texts.
"""

import contextlib
import ctypes
import functools
import itertools
import os
import sys
import threading

from .history import MAX_CALLERS, MAX_CALLS, Known, Prefix, prefix_of

__all__ = [
    "BrokenPromise",
    "Caller",
    "ContradictoryModel",
    "Enforced",
    "EnforcedCaller",
    "Illegal",
    "Incomplete",
    "Judged",
    "NoCallLeft",
    "Placed",
    "Prefix",
    "Recorder",
    "Refused",
    "Verdict",
    "WithOutput",
    "certify",
    "explain",
    "judge",
    "order",
    "picture",
    "smaller",
    "verify",
    "verify_many",
]

__version__ = "0.1.0"

# A call isn't recorded from this moment on, so that a recorder takes some 200 MB at the most.
_LAST_MOMENT = 2**20

# What the library tells of a text that it refuses, by its numbers.
_WHATS = (
    "Long Cut Head Object Callers Calls Place Op Gap Reply View ViewOutside ViewLacksOwn ViewHasLater ViewsCross "
    "Mark Seen Last Stop Turns End Rest"
).split()
_LEGAL, _ILLEGAL, _REFUSED, _NO_MEMORY, _NO_ROOM, _UNKNOWN = 0, 1, 3, 6, 8, 11
_ALL_STEPS = 2**64 - 1


class Refused(ValueError):
    """The text isn't one of the wanted form: its first line that is wrong, and what is wrong there."""

    def __init__(self, line, what):
        super().__init__(line, what)
        self.line = line
        self.what = what

    def __str__(self):
        return f"refused {self.line} {self.what}"


_WAYS = "whose book `prefix` gives", "of a set or a map `by_key` gives a book for each key"
_WAYS_OF_MODEL = "which `verify(prefix=True)` judges", "for a model with `key` the limits hold for each key"


class Incomplete(Exception):
    """The calls of a recorder don't fit a book: how many of the first do, whose book `prefix` gives, and how many don't.
    Of a recorder with a model it is a history that they don't fit, and `verify(prefix=True)` judges the first calls."""

    def __init__(self, kept, left_out, of_model=False):
        ways = _WAYS_OF_MODEL if of_model else _WAYS
        super().__init__(
            f"a {'history' if of_model else 'book'} has {MAX_CALLERS} callers with {MAX_CALLS} calls each: the first {kept} "
            f"calls fit, {ways[0]}, and {left_out} don't; {ways[1]}"
        )
        self.kept = kept
        self.left_out = left_out


class _Refusal(ctypes.Structure):
    _fields_ = [("line", ctypes.c_uint64), ("what", ctypes.c_uint32)]


# The library's exports. `crates/selfcheck_c/src/lib.rt` has them.
_TEXT = [ctypes.c_char_p, ctypes.c_size_t]
_BUFFER = [ctypes.c_char_p, ctypes.c_size_t, ctypes.POINTER(ctypes.c_size_t)]
_HERE = os.path.join(os.path.dirname(os.path.abspath(__file__)), "libselfcheck.so")
try:
    _library = ctypes.CDLL(os.environ.get("SELFCHECK_SO", _HERE))
except OSError as error:
    raise ImportError(
        f"the library is missing: {error}\n"
        "three ways to it: pip install a release's wheel; bindings/try in a clone, with the Rattle kit, and then pip "
        "install, where SELFCHECK_LIB names the folder of another archive; or SELFCHECK_SO names a shared library"
    ) from error
_number = getattr(_library, "selfcheck_version", int)()
_found = f"{_number >> 16}.{_number >> 8 & 255}.{_number & 255}"
if _found != __version__:
    raise ImportError(f"the library {_library._name} has the version {_found}, and this module {__version__}")
for _name, _more in [
    ("selfcheck_verify", []),
    ("selfcheck_verify_within", [ctypes.c_uint64]),
    ("selfcheck_order", []),
    ("selfcheck_certify", _BUFFER),
    ("selfcheck_smaller", _BUFFER),
    ("selfcheck_explain", _BUFFER),
    ("selfcheck_picture", _BUFFER),
]:
    getattr(_library, _name).restype = ctypes.c_uint32
    getattr(_library, _name).argtypes = [*_TEXT, *_more, ctypes.POINTER(_Refusal)]


def _bytes(text):
    return text.encode() if isinstance(text, str) else bytes(text)


def _is_legal(status, refusal):
    if status == _REFUSED:
        raise Refused(refusal.line, _WHATS[refusal.what])
    if status == _NO_MEMORY:
        raise MemoryError
    assert status in (_LEGAL, _ILLEGAL), status
    return status == _LEGAL


def _limit(steps):
    if not 0 <= steps < _ALL_STEPS:
        raise ValueError(f"{steps} is no number of steps below 2^64 - 1")
    return steps


def verify(book, steps=None):
    """Whether the book with this text, a `str` or bytes, has a legal order. Raises `Refused`, `MemoryError`.

    With a number of `steps` a search for a legal order makes so many at the most, and None is given where they are used up
    before that is known. A step tries a call next or goes back by one. Only the search has this limit: reading the text,
    and deciding a queue's or a stack's book without a search, take what they take.
    """
    text, refusal = _bytes(book), _Refusal()
    if steps is None:
        return _is_legal(_library.selfcheck_verify(text, len(text), refusal), refusal)
    status = _library.selfcheck_verify_within(text, len(text), _limit(steps), refusal)
    return None if status == _UNKNOWN else _is_legal(status, refusal)


def order(certificate):
    """Whether the list of the certificate with this text is a legal order of its book. Raises as `verify` does."""
    text, refusal = _bytes(certificate), _Refusal()
    return _is_legal(_library.selfcheck_order(text, len(text), refusal), refusal)


def _written_by(export, text, room):
    """What an export writes of a text, and whether its status is that of what is legal."""
    refusal, written = _Refusal(), ctypes.c_size_t()
    while True:
        buffer = ctypes.create_string_buffer(room)
        status = export(text, len(text), buffer, room, written, refusal)
        if status != _NO_ROOM:
            return buffer.raw[: written.value].decode(), _is_legal(status, refusal)
        room = written.value


def certify(book):
    """The text of the book with a legal order of its calls, or None where it has none. Raises as `verify` does."""
    text = _bytes(book)
    certificate, is_legal = _written_by(_library.selfcheck_certify, text, 2 * len(text) + 64)
    return certificate if is_legal else None


def smaller(book):
    """The text of a smaller book that has no legal order and shows that the book has none; None where it has one.

    The text is that of a book, or what `run` or `monitor` have written with a witness. Raises as `verify` does, with a line
    that is counted from the title of the book.
    """
    text = _bytes(book)
    small, is_legal = _written_by(_library.selfcheck_smaller, text, len(text) + 64)
    return None if is_legal else small


def explain(book):
    """Why the book has no legal order that the text gives: which rule of its kind it breaks, and by which calls, in one line.

    Of a book that breaks no rule it is its longest legal prefixes, at most eight: of each a line for each of its calls, and
    the calls that may come next after it, with the reply that the object gives each. None where no rule is broken and the book has a legal order, or has too
    many legal prefixes to try. All pairs of calls are tried, so that this is made for what `smaller` gives. Reads and raises as
    `smaller` does.
    """
    line, breaks_none = _written_by(_library.selfcheck_explain, _bytes(book), 256)
    return None if breaks_none else line


def picture(book):
    """The picture, as SVG, of the book that the text gives, as `smaller` reads it. Raises as `smaller` does."""
    text = _bytes(book)
    return _written_by(_library.selfcheck_picture, text, 8 * len(text) + 4096)[0]


def _number(value):
    if not isinstance(value, int) or not 0 <= value < 2**32:
        raise ValueError(f"{value!r} is no number below 2^32")
    return value


def _done(_value):
    return "done"


def _value(value):
    return f"={_number(value)}"


def _maybe(value):
    return "none" if value is None else _value(value)


def _whether(value):
    return "yes" if value else "no"


# The kinds, and for each operation how many arguments it has and how its reply is written.
_REGISTER = {"write": (1, _done), "read": (0, _value)}
_KINDS = {
    "queue": {"enq": (1, _done), "deq": (0, _maybe)},
    "stack": {"push": (1, _done), "pop": (0, _maybe)},
    "register": _REGISTER,
    "counter": {"inc": (0, _value)},
    "set": {"add": (1, _whether), "remove": (1, _whether), "has": (1, _whether)},
    "pqueue": {"insert": (1, _done), "min": (0, _maybe)},
    "casreg": {**_REGISTER, "cas": (2, _whether)},
    "map": {"put": (2, _maybe), "get": (1, _maybe), "del": (1, _maybe)},
}


# Operations that change no object, whatever they reply.
_READ_ONLY = {"read", "has", "get"}


class _Operation:
    """An operation with its arguments. Raises `ValueError` and `TypeError` where it is none of the kind's."""

    def __init__(self, kind, op, arguments):
        operations = _KINDS[kind]
        if op not in operations:
            raise ValueError(f"no operation {op!r}: {', '.join(operations)}")
        count, self.reply = operations[op]
        if len(arguments) != count:
            raise TypeError(f"{op} has {count} arguments")
        numbers = [_number(value) for value in arguments]
        self.told = " ".join([op, *map(str, numbers)])
        self.is_read_only = op in _READ_ONLY
        first, second = [*numbers, 0, 0][:2]
        # as a table has them: the code of the operation and the first argument, and the second one
        self.words = ((list(operations).index(op) + 1 << 32) + first, second)


class _ModelOperation:
    """An operation of a model, as the tuple of its name and its arguments. Raises `TypeError` where it can't be hashed."""

    is_read_only = False

    def __init__(self, op, arguments):
        self.told = (op, *arguments)
        hash(self.told)

    def reply(self, value):
        hash(value)
        return value


def _clock():
    tick = itertools.count().__next__
    # one step of it is one step under the interpreter's lock, where there is one
    if getattr(sys, "_is_gil_enabled", lambda: True)():
        return tick
    lock = threading.Lock()

    def locked():
        with lock:
            return tick()

    return locked


class _Calls:
    """What makes calls and records them."""

    def call(self, op, *arguments_and_call):
        """Makes a call and records it: the operation's name, its arguments, and what makes the object's own call.

        Gives back what that returned. Where it raises, as after a timeout, the call never returns, and so may have had its
        effect or not.
        """
        *arguments, make = arguments_and_call
        ret = self.invoke(op, *arguments)
        value = make()
        ret(value)
        return value


class Recorder(_Calls):
    """Records the calls that threads make to one object of a kind, which is at first as its kind is.

    A call is made on the recorder itself, by any thread or task, or by a caller that stays with a thread. A book has 16
    callers, with 256 calls each. Which caller has which call is settled when the book is made, and changes no verdict:
    what counts is which calls ended before which others began. A caller of a thread is a caller of the book, in the order
    in which they were made, where there are no more than a book has and as long as it is free. Any other call has a caller
    that is in no call, and has had fewer calls than 256. A call that never returns keeps its caller; if it only reads, it
    is in no book. Where a call finds no free caller, the calls up to this one are what fits a book. A recorder keeps the
    calls of its first million moments, of which a call has two.

    With a number of `open_calls` the recorder's own calls wait, so that so many are open at once at the most. Where more
    threads call than a book has callers, their calls fit it only so. A call that never returns lets the next one in.

    A reply of a form that the kind never gives to the operation, such as a value to a put of a queue, is found before
    an order is looked for, and makes the book illegal, whatever the other calls are.

    In the place of a kind there may be a model, a sequential object of one's own (see `selfcheck.model`): then operations
    have any names and arguments, replies are any values, and `verify` judges the calls, of which there is no book.
    """

    def __init__(self, kind, open_calls=None):
        if isinstance(kind, str) and kind not in _KINDS:
            raise ValueError(f"no kind {kind!r}: {', '.join(_KINDS)}")
        if open_calls is not None and open_calls < 1:
            raise ValueError(f"{open_calls} calls can't be open at once")
        self._kind = kind
        self._model = None if isinstance(kind, str) else as_model(kind)
        self._operation = functools.partial(_Operation, kind) if self._model is None else _ModelOperation
        self._lock = threading.Lock()
        self._callers = 0
        self._calls = []
        self._beyond = 0
        self._tick = _clock()
        self._open = threading.Semaphore(open_calls) if open_calls else contextlib.nullcontext()

    def caller(self):
        """A further caller, which stays with a thread."""
        with self._lock:
            self._callers += 1
            return Caller(self, self._callers - 1)

    def call(self, op, *arguments_and_call):
        with self._open:
            return super().call(op, *arguments_and_call)

    def invoke(self, op, *arguments):
        """Invokes a call, right before the object's own. What it gives is to be called with what that returned, by any
        thread."""
        return self._invoke(None, op, arguments)

    async def call_async(self, op, *arguments_and_call):
        """Makes a call and records it, with what the awaitable gives as the reply, which stands last and is to do nothing
        before it is awaited. Where this is cancelled amid it, the call never returns."""
        *arguments, make = arguments_and_call
        ret = self.invoke(op, *arguments)
        value = await make
        ret(value)
        return value

    def book(self):
        """The text of the book of all calls. What is called meanwhile is in it as far as it has come. Raises `Incomplete`
        where they don't fit one."""
        book, kept, left_out = self.prefix()
        if left_out:
            raise Incomplete(kept, left_out)
        return book

    def verify(self, steps=None, prefix=False, recheck=False):
        """The `Verdict` on the calls by the recorder's model, as `judge` gives it. Where the model has `key`, there is one
        on the calls with each key, and the limits of a history hold for each key. What is called meanwhile is in it as far
        as it has come. Raises `Incomplete` where the calls don't fit a history; with `prefix` the first ones are judged,
        as `prefix` has them for a book: if these are illegal, all are, and else nothing is said of those left out."""
        if self._model is None:
            raise TypeError("the calls to a kind have a book: selfcheck.verify(recorder.book())")
        return verdict_of(self._model, self._known(), self._callers, self._beyond, steps, prefix, recheck)

    def events(self):
        """The history of the calls to a model, as `judge` takes it, of as many of the first calls as fit one. What is called
        meanwhile is in it as far as it has come."""
        if self._model is None:
            raise TypeError("the calls to a kind have a book: recorder.book()")
        return events_of(self._known(), self._callers)

    def prefix(self):
        """The book of all calls where they fit one, and else that of the first of them: those before the first that finds
        no caller. Of these it leaves out the last ones again where half of them at least come before a moment at which no
        call was open, but such as never return: so no call of the book lacks a reply for the cut alone."""
        self._owes_book()
        return prefix_of(self._kind, self._known(), self._callers, self._beyond)

    def _owes_book(self):
        if self._model is not None:
            raise TypeError("the calls that a model judges have no book: recorder.verify()")

    def by_key(self):
        """The prefix of the calls with each key of a set or a map: so the limits of a book hold for each key.

        All calls together have a legal order exactly where those of each key have one (Herlihy and Wing 1990, theorem 1).
        It is so of any book each of whose views holds at most one unanswered call of each caller, and in a recorder's book
        a caller has at most one, its last. Calls that the recorder no longer keeps are left out of each key.
        """
        self._owes_book()
        if self._kind not in ("set", "map"):
            raise TypeError(f"the calls of a {self._kind} have no keys")
        parts = {}
        for call in self._known():
            parts.setdefault(int(call.op.split()[1]), []).append(call)
        return {key: prefix_of(self._kind, calls, self._callers, self._beyond) for key, calls in parts.items()}

    def _known(self):
        moment = min(self._tick(), _LAST_MOMENT)
        return [call.at(moment) for call in self._calls if call.invoked < moment]

    def _invoke(self, own, op, arguments):
        operation = self._operation(op, arguments)
        invoked = self._tick()
        if invoked >= _LAST_MOMENT:
            with self._lock:
                self._beyond += 1
            return lambda value: None
        call = _Call(operation.told, operation.is_read_only, own, invoked)
        # one step of a list; a book that is made before it knows nothing that comes after it
        self._calls.append(call)

        def ret(value):
            returned = self._tick()
            call.reply = operation.reply(value)
            call.returned = returned

        return ret


class _Call:
    __slots__ = ("op", "is_read_only", "own", "invoked", "returned", "reply")

    def __init__(self, op, is_read_only, own, invoked):
        self.op = op
        self.is_read_only = is_read_only
        self.own = own
        self.invoked = invoked
        self.returned = self.reply = None

    def at(self, moment):
        """What is known of it at a moment."""
        returned = self.returned
        return Known(self.invoked, returned, self.op, self.reply, self.own, self.is_read_only).at(moment)


class Caller(_Calls):
    """One caller of the object, for one thread."""

    def __init__(self, recorder, number):
        self._recorder = recorder
        self._number = number

    def invoke(self, op, *arguments):
        """Invokes a call, right before the object's own. What it gives is to be called with what that returned."""
        return self._recorder._invoke(self._number, op, arguments)


# last, since it takes what stands above
from .enforced import Enforced, EnforcedCaller, Illegal, NoCallLeft  # noqa: E402
from .many import Judged, verify_many  # noqa: E402
from .model import BrokenPromise, ContradictoryModel, Placed, Verdict, WithOutput, judge  # noqa: E402
from .model import as_model, events_of, verdict_of  # noqa: E402

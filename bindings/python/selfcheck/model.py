"""Models: sequential objects of one's own, by which recorded calls and given histories are judged.

    class Bounded:
        def init(self):
            return ()

        def step(self, state, op):
            name, *values = op
            if name == "put":
                return (state, False) if len(state) == 2 else ((*state, *values), True)
            return (state[1:], state[0]) if state else (state, None)

        def leaves(self, op, reply):
            return reply is False or reply is None

    recorder = selfcheck.Recorder(Bounded())
    recorder.call("put", 5, lambda: queue.put(5))
    assert recorder.verify().legal

A model has `init()`, its initial state, and `step(state, op)`, the next state and the reply. An operation is the tuple of a
name and arguments. States, operations and replies are any values with a hash, and equal ones are the same. The methods
change nothing, and depend on nothing but what they are given; a state is a value that no step changes.

`leaves(op, reply)`, if there is such a method, says whether the operation changes no state at which it has this reply. It
makes a check faster, of reads and refusals above all, and is held against each step that is asked for.

`key(op)`, if there is such a method, makes the object one of many by its keys, of which each begins at `init()` and is
changed and seen by the operations of this key alone. The calls with each key are judged by themselves: all together have a
legal order exactly where those of each key have one (Herlihy and Wing 1990, theorem 1), since a history has at most one
unanswered call of each caller.

A verdict is proved for every object that agrees with what the library is told. This module asks the model and tells the
library, which is tested.
`selfcheck.models` has ready models.
"""

import ctypes
import threading
from typing import Any, NamedTuple, Optional

from . import _ALL_STEPS, _ILLEGAL, _LEGAL, _NO_MEMORY, Incomplete, _library, _limit, _ModelOperation
from .enforced import _DONE, _SLOT, _Handle, Illegal, _filled, _text_of
from .history import MAX_CALLERS, MAX_CALLS, pages_of

_ASK, _PAUSED, _CONTRADICTS, _LEAVES_NOT = 10, 11, 12, 13
# steps that are made between two looks at the limit
_PORTION = 16


class ContradictoryModel(Exception):
    """The model was asked twice for one step, and gave two next states or replies: it depends on more than it is given, or
    changes a state. `first` and `again` are the two steps, each a next state and a reply; or the two initial states, with
    None as the state and the operation."""

    def __init__(self, state, op, first, again):
        where = "init()" if op is None else f"step({state!r}, {op!r})"
        super().__init__(f"{where} gave {first!r} first, and then {again!r}")
        self.state, self.op, self.first, self.again = state, op, first, again


class BrokenPromise(Exception):
    """The model's `leaves` says that the operation changes no state at which it has this reply, yet it changes this one."""

    def __init__(self, state, op, reply, next):
        super().__init__(f"leaves({op!r}, {reply!r}) is true, yet step({state!r}, {op!r}) leads to {next!r}")
        self.state, self.op, self.reply, self.next = state, op, reply, next


class Placed(NamedTuple):
    """A call in a legal order: its caller and its number among the caller's calls, from 0; its operation; its reply, of an
    unanswered call the one that it would have; and the state after it."""

    caller: Any
    number: int
    op: Any
    reply: Any
    state: Any


class Verdict(NamedTuple):
    """What is said of a history by a model.

    `legal` is whether it has a legal order, or None where the steps were used up before that was known. `order` is one, as
    a list of `Placed`, in which an unanswered call needn't be; None where there is none, and where the history was judged
    by keys. Then `keys` has the verdict on the calls with each key, and else it is empty. `kept` calls were judged, and
    `left_out` further ones weren't. The model was asked for so many steps.
    """

    legal: Optional[bool]
    order: Optional[list]
    kept: int
    left_out: int
    asked: int
    keys: dict


class Evidence(NamedTuple):
    """The calls with one key, and what the model does at the steps that the verdict needs, as a text, which
    `selfcheck-judge-model` judges without the model. `legal` is the verdict on these calls. Operations, replies and states
    are numbers in the text; `names` says what they stand for, in lines of `op`, `reply` or `state`, a number, and its value.
    """

    key: Any
    legal: bool
    text: str
    names: str


class WithOutput:
    """A model of one whose step sees the output, as Porcupine's and Knossos': its `step(state, op, output)` gives whether
    the operation may have this output at this state, and the next state. Of an unanswered call the output is `unanswered`.
    Its `init` and `key` are those of a model."""

    def __init__(self, model, unanswered=None):
        self.init, self._step, self._unanswered = model.init, model.step, unanswered
        if hasattr(model, "key"):
            self.key = model.key

    def step(self, state, op):
        is_right, after = self._step(state, *op)
        return (after, True) if is_right else (state, False)

    def leaves(self, op, reply):
        return not reply

    def _seeing(self, events):
        """The events with the output of each call in its operation, and the reply True."""
        begun, seeing = {}, []
        for what, caller, value in events:
            if what == "begin":
                begun[caller] = len(seeing)
                seeing.append((what, caller, (value, self._unanswered)))
            else:
                seeing.append((what, caller, True))
                if caller in begun:
                    at = begun.pop(caller)
                    seeing[at] = "begin", caller, (seeing[at][2][0], value)
        return seeing


def as_model(model):
    if isinstance(model, type) or not callable(getattr(model, "init", None)) or not callable(getattr(model, "step", None)):
        raise TypeError(f"{model!r} is no model, which is an object with `init` and `step`")
    return model


def judge(model, events, steps=None, recheck=False):
    """The `Verdict` on a history by a model: of events `("begin", caller, op)` and `("end", caller, reply)`, in the order
    in which they happened. A caller has any name.

    With a number of `steps` the check makes so many at the most, for each key, and may end without a verdict. They are made
    in portions of 16, of which each step that is asked for uses up one. With `recheck` the model is asked once more for
    all that it was asked for.

    Raises `ContradictoryModel`, `BrokenPromise`, `MemoryError`, and what the model raises. Raises `ValueError` where a call
    begins while the caller's last one hasn't ended, where none has begun that ends, and where there are more than 16
    callers, or more than 256 calls of a caller with one key.
    """
    parts = _parts(as_model(model), events)
    verdicts = {key: _judged(model, part, 0, steps, recheck) for key, part in parts.items()}
    return _whole(verdicts, 0) if hasattr(model, "key") else verdicts[None]


def evidence(model, events, steps=None):
    """What shows the verdict on a history, as `judge` has it, to whoever doesn't have the model: the `Evidence` of the calls
    with a key that have no legal order, or of those with each key where all have one. Where the steps were used up before a
    verdict was known there is none. The list has one element where the model has no keys."""
    shown = []
    for key, part in _parts(as_model(model), events).items():
        check, legal = _decided(model, part, steps)
        if legal is None:
            return []
        found = Evidence(key, legal, check.evidence(), check.names())
        if not legal:
            return [found]
        shown.append(found)
    return shown


def _parts(model, events):
    """The events of the calls with each key."""
    key_of = getattr(model, "key", None)
    begun, parts = {}, {} if key_of else {None: []}
    for what, caller, value in events:
        if what not in ("begin", "end") or (what == "begin") == (caller in begun):
            raise ValueError(f"{caller!r} has {'a' if caller in begun else 'no'} call that hasn't ended, at {what!r}")
        if what == "begin":
            begun[caller] = key_of(value) if key_of else None
        key = begun[caller] if what == "begin" else begun.pop(caller)
        parts.setdefault(key, []).append((what, caller, value))
    return parts


def verdict_of(model, calls, own, beyond, steps, prefix, recheck):
    """The verdict on what a recorder knows, with so many callers that stay with threads, and so many calls that aren't
    recorded."""
    key_of = getattr(model, "key", None)
    parts = {} if key_of else {None: []}
    for call in calls:
        parts.setdefault(key_of(call.op) if key_of else None, []).append(call)
    pages = {key: pages_of(part, own) for key, part in parts.items()}
    left_out = sum(more for _, more in pages.values()) + beyond
    if left_out and not prefix:
        kept = sum(len(page) for part, _ in pages.values() for page in part)
        raise Incomplete(kept, left_out, of_model=True)
    verdicts = {
        key: _judged(model, _events(part), more + beyond, steps, recheck) for key, (part, more) in pages.items()
    }
    return _whole(verdicts, left_out) if key_of else verdicts[None]


def events_of(calls, own):
    """The history of as many of the first calls as fit one, of which so many callers stay with threads."""
    return _events(pages_of(calls, own)[0])


def _events(pages):
    moments = {}
    for caller, page in enumerate(pages):
        for call in page:
            moments[call.invoked] = "begin", caller, call.op
            if call.returned is not None:
                moments[call.returned] = "end", caller, call.reply
    return [moments[moment] for moment in sorted(moments)]


def _whole(verdicts, left_out):
    said = [verdict.legal for verdict in verdicts.values()]
    kept, asked = (sum(getattr(it, name) for it in verdicts.values()) for name in ("kept", "asked"))
    return Verdict(False if False in said else None if None in said else True, None, kept, left_out, asked, verdicts)


def _decided(model, events, steps):
    """A check of events, and whether they have a legal order."""
    steps = _ALL_STEPS if steps is None else _limit(steps)
    if isinstance(model, WithOutput):
        events = model._seeing(events)
    check = _Check(model)
    for what, caller, value in events:
        check.begin(caller, value) if what == "begin" else check.end(caller, value)
    return check, check.decide(steps)


def _judged(model, events, left_out, steps, recheck):
    check, legal = _decided(model, events, steps)
    if recheck:
        check.again()
    order = check.order() if legal else None
    if order and isinstance(model, WithOutput):
        order = [it._replace(op=it.op[0], reply=it.op[1]) for it in order]
    return Verdict(legal, order, sum(map(len, check.calls)), left_out, len(check.told), {})


class _Question(ctypes.Structure):
    _fields_ = [("state", ctypes.c_uint32), ("op", ctypes.c_uint32)]


class _PlacedCall(ctypes.Structure):
    _fields_ = [("caller", ctypes.c_uint32), ("number", ctypes.c_uint32)]


_NUMBER = ctypes.c_uint32
for _name, _arguments in [
    ("selfcheck_model_open", [_NUMBER, _SLOT]),
    ("selfcheck_model_begin", [_SLOT, _NUMBER, _NUMBER]),
    ("selfcheck_model_end", [_SLOT, _NUMBER, _NUMBER]),
    ("selfcheck_model_leaves", [_SLOT, _NUMBER, _NUMBER]),
    ("selfcheck_model_next", [_SLOT, ctypes.c_uint64, ctypes.POINTER(_Question)]),
    ("selfcheck_model_tell", [_SLOT, _NUMBER, _NUMBER, _NUMBER, _NUMBER]),
    ("selfcheck_model_evidence", [_SLOT, ctypes.c_char_p, ctypes.c_size_t, ctypes.POINTER(ctypes.c_size_t)]),
    ("selfcheck_model_table", [_NUMBER, ctypes.c_uint64, _SLOT]),
    ("selfcheck_model_caller", [_SLOT, _SLOT]),
    ("selfcheck_model_announce", [_SLOT, _NUMBER]),
    ("selfcheck_model_answered", [_SLOT, _NUMBER]),
    ("selfcheck_model_order", [_SLOT, ctypes.POINTER(_PlacedCall), ctypes.c_size_t, ctypes.POINTER(ctypes.c_size_t)]),
]:
    getattr(_library, _name).restype = ctypes.c_uint32
    getattr(_library, _name).argtypes = _arguments


class _Numbers(dict):
    """Numbers of values, from 0 in the order in which they come."""

    def __init__(self):
        super().__init__()
        self.all = []

    def __missing__(self, value):
        self[value] = len(self.all)
        self.all.append(value)
        return self[value]


class _SharedNumbers(_Numbers):
    """Numbers that many threads give."""

    def __init__(self):
        super().__init__()
        self.lock = threading.Lock()

    def __missing__(self, value):
        with self.lock:
            if value not in self:
                # whoever finds the number finds the value
                self.all.append(value)
                self[value] = len(self.all) - 1
            return self.get(value)


class _Told:
    """What was told of a model, to a check or to a caller whose calls it judges: its states have numbers of their own."""

    def __init__(self, model, handle, ops, replies):
        self.model, self.leaves = model, getattr(model, "leaves", None)
        self.handle, self.ops, self.replies, self.states = handle, ops, replies, _Numbers()
        self.states[model.init()]
        # the next state and the reply of each step, by the numbers of all, and what is promised
        self.told, self.promised = {}, set()

    def done(self, status, lack=AssertionError):
        _filled(self.handle, status, lack)

    def promise(self, op, said):
        if self.leaves and (op, said) not in self.promised and self.leaves(self.ops.all[op], self.replies.all[said]):
            self.done(_library.selfcheck_model_leaves(self.handle.slot, op, said))
            self.promised.add((op, said))

    def ask(self, state, op):
        here, operation = self.states.all[state], self.ops.all[op]
        after, reply = self.model.step(here, operation)
        step = self.states[after], self.replies[reply]
        is_broken = step[0] != state and self.leaves and self.leaves(operation, reply)
        status = _LEAVES_NOT if is_broken else _library.selfcheck_model_tell(self.handle.slot, state, op, *step)
        if status == _LEAVES_NOT:
            raise BrokenPromise(here, operation, reply, after)
        if status == _CONTRADICTS:
            next, said = self.told[state, op]
            raise ContradictoryModel(here, operation, (self.states.all[next], self.replies.all[said]), (after, reply))
        self.done(status)
        self.told[state, op] = step

    def decide(self, steps):
        question = _Question()
        portion = steps if steps == _ALL_STEPS else _PORTION
        while True:
            part = min(portion, steps)
            status = _library.selfcheck_model_next(self.handle.slot, part, question)
            if status in (_LEGAL, _ILLEGAL):
                return status == _LEGAL
            if status == _NO_MEMORY:
                raise MemoryError
            assert status in (_ASK, _PAUSED), status
            if status == _ASK:
                self.ask(question.state, question.op)
            if steps != _ALL_STEPS:
                steps -= part
                if not steps:
                    return None

    def steps(self):
        """The text of the steps, as that of a model has them after a book."""
        leaves = [f"leaves op {op} ={said}" for op, said in sorted(self.promised)]
        steps = [f"{state} op {op} {next} ={said}" for (state, op), (next, said) in sorted(self.told.items())]
        return "\n".join(["steps 2", *leaves, *steps, "end", ""])


class _Check(_Told):
    """The library's check of one history, and the numbers that it knows values by."""

    def __init__(self, model):
        super().__init__(model, _Handle(), _Numbers(), _Numbers())
        self.callers = _Numbers()
        self.done(_library.selfcheck_model_open(MAX_CALLERS, self.handle.slot))
        self.calls = [[] for _ in range(MAX_CALLERS)]

    def begin(self, caller, op):
        number, op = self.callers[caller], self.ops[op]
        status = _library.selfcheck_model_begin(self.handle.slot, number, op)
        self.done(status, ValueError(f"a history has {MAX_CALLERS} callers with {MAX_CALLS} calls each, of one key"))
        self.calls[number].append(op)

    def end(self, caller, reply):
        number, said = self.callers[caller], self.replies[reply]
        self.done(_library.selfcheck_model_end(self.handle.slot, number, said))
        self.promise(self.calls[number][-1], said)

    def again(self):
        first, again = self.states.all[0], self.model.init()
        if first != again:
            raise ContradictoryModel(None, None, first, again)
        for state, op in list(self.told):
            self.ask(state, op)

    def evidence(self):
        text = _text_of(self.handle, _library.selfcheck_model_evidence)
        if text is None:
            raise MemoryError
        return text

    def names(self):
        numbers = ("op", self.ops), ("reply", self.replies), ("state", self.states)
        return "".join(f"{what} {n} {it!r}\n" for what, values in numbers for n, it in enumerate(values.all))

    def order(self):
        count = sum(map(len, self.calls))
        buffer, written = (_PlacedCall * (count + 1))(), ctypes.c_size_t()
        self.done(_library.selfcheck_model_order(self.handle.slot, buffer, count + 1, written))
        order, state = [], 0
        for place in buffer[: written.value]:
            op = self.calls[place.caller][place.number]
            state, reply = self.told[state, op]
            caller = self.callers.all[place.caller]
            order.append(Placed(caller, place.number, self.ops.all[op], self.replies.all[reply], self.states.all[state]))
        return order


class _AllKeys:
    """The object of a model with keys: a state for each key whose state isn't the initial one."""

    def __init__(self, model):
        self.model = model
        if hasattr(model, "leaves"):
            self.leaves = model.leaves

    def init(self):
        return frozenset()

    def step(self, state, op):
        key, parts, initial = self.model.key(op), dict(state), self.model.init()
        after, reply = self.model.step(parts.pop(key, initial), op)
        if after != initial:
            parts[key] = after
        return frozenset(parts.items()), reply


class Judge:
    """What a table asks of the library whose calls a model judges. Operations and replies have one number each for all its
    callers, whoever gives it first."""

    def __init__(self, model):
        self.model = _AllKeys(model) if hasattr(as_model(model), "key") else model
        self.ops, self.replies = _SharedNumbers(), _SharedNumbers()

    def open(self, callers, calls, slot):
        return _library.selfcheck_model_table(callers, calls, slot)

    def caller(self, table, slot):
        return _library.selfcheck_model_caller(table, slot)

    def of_caller(self, handle):
        return _Told(self.model, handle, self.ops, self.replies)

    def operation(self, op, arguments):
        return self.ops[_ModelOperation(op, arguments).told]

    def announce(self, slot, operation):
        return _library.selfcheck_model_announce(slot, operation)

    def answered(self, slot, operation, value, told):
        said = self.replies[value]
        status = _library.selfcheck_model_answered(slot, said)
        if status != _DONE:
            return status
        told.promise(operation, said)
        return _DONE if told.decide(_ALL_STEPS) else _ILLEGAL

    def illegal(self, book, value, told):
        if book is None:
            return Illegal(None, value, [])
        return Illegal(book + told.steps(), value, self._events(book))

    def _events(self, book):
        """The history of a model's book. Views are a chain, and a call precedes another one where its view lacks it: so
        calls end in the order of their views, each after all calls of its view have begun."""
        calls, views = {}, []
        for line in book.splitlines()[4:-1]:
            caller, number, _, op, *answer = line.split()
            at = int(caller), int(number)
            calls[at] = self.ops.all[int(op)]
            if answer:
                view = [tuple(map(int, pair.split(":"))) for pair in answer[2:]]
                views.append((sum(count for _, count in view), at, int(answer[0][1:]), view))
        events, begun = [], {}
        for _, (caller, _number), said, view in sorted(views):
            for other, count in view:
                for number in range(begun.get(other, 0), count):
                    events.append(("begin", other, calls[other, number]))
                begun[other] = max(count, begun.get(other, 0))
            events.append(("end", caller, self.replies.all[said]))
        return events

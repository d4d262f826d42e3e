"""Histories: recorded calls with their moments, and the callers that they have in a book."""

import bisect
from typing import Any, NamedTuple, Optional

MAX_CALLERS = 16
MAX_CALLS = 256


class Prefix(NamedTuple):
    """The first calls of a history, as many as fit a book: its text, how many they are, and how many more were made.

    Where the book has no legal order, the whole history has none, since what was done before a moment is linearizable
    wherever the whole is (Herlihy and Wing 1990). Where it has one, nothing is said of the calls that were left out.
    """

    book: str
    kept: int
    left_out: int


class Known(NamedTuple):
    """What is known of a call: its moments, operation and reply, which caller that stays with a thread has made it, and
    whether its operation changes no object, whatever it replies."""

    invoked: int
    returned: Optional[int]
    op: Any
    reply: Any
    own: Optional[int]
    is_read_only: bool

    def at(self, moment):
        """What is known of it at a moment, after its invocation."""
        is_open = self.returned is None or self.returned >= moment
        return self._replace(returned=None, reply=None) if is_open else self

    def precedes(self, other):
        return self.returned is not None and self.returned < other.invoked

    def counts(self):
        """Whether it may change a verdict. A call that only reads and has no reply doesn't: an order that has it is one
        without it too."""
        return self.returned is not None or not self.is_read_only


def pages_of(calls, own):
    """The calls of each caller, for as many of the first calls as fit a book, and how many are left out. So many callers
    stay with threads."""
    calls = sorted(call for call in calls if call.counts())
    pages = _all_pages(calls, own) or _first_pages(calls)
    return pages, len(calls) - sum(map(len, pages))


def prefix_of(kind, calls, own, beyond):
    """The book of as many of the first calls as fit one. So many callers stay with threads, and so many further calls
    aren't recorded."""
    pages, left_out = pages_of(calls, own)
    return Prefix(_book(kind, pages), sum(map(len, pages)), left_out + beyond)


def _all_pages(calls, own):
    # the callers of threads have their own numbers if they can, and there are as few others as can be
    fewest = max(1, -(-len(calls) // MAX_CALLS))
    for first in own, 0:
        for callers in range(max(first, fewest), MAX_CALLERS + 1):
            pages, placed = _pages(calls, first, callers)
            if placed == len(calls):
                return pages
    return None


def _first_pages(calls):
    """The calls before the first one that finds no caller, or before the last moment at which no call was open, but such
    as never return, where that leaves half of these at least."""
    pages, placed = _pages(calls, 0, MAX_CALLERS)
    end, last_return = placed, -1
    for count, call in enumerate(calls[: placed + 1]):
        if last_return < call.invoked and 2 * count >= placed:
            end = count
        last_return = max(last_return, -1 if call.returned is None else call.returned)
    moment = calls[end].invoked
    known = [[call.at(moment) for call in page if call.invoked < moment] for page in pages]
    return [[call for call in page if call.counts()] for page in known]


def _pages(calls, own, callers):
    """So many callers with the calls up to the first one that finds none, and the number of these calls.

    The first callers are those of threads. Any other call has one that is in no call, and of these the one with the
    fewest calls; what never returns leaves its caller no further call, and so has the one with the most.
    """
    pages = [[] for _ in range(callers)]

    def is_free(at, call):
        return len(pages[at]) < MAX_CALLS and (not pages[at] or pages[at][-1].precedes(call))

    for placed, call in enumerate(calls):
        at = call.own
        if at is None or at >= own or not is_free(at, call):
            sign = 1 if call.returned is not None else -1
            others = (at for at in range(own, callers) if is_free(at, call))
            at = min(others, key=lambda at: sign * len(pages[at]), default=None)
        if at is None:
            return pages, placed
        pages[at].append(call)
    return pages, len(calls)


def _book(kind, pages):
    invoked = [[call.invoked for call in calls] for calls in pages]
    lines = [
        "book 2",
        f"object {kind}",
        f"callers {len(pages)}",
        " ".join(["calls", *(str(len(calls)) for calls in pages)]),
    ]
    for caller, calls in enumerate(pages):
        for number, call in enumerate(calls):
            words = [str(caller), str(number), call.op]
            if call.returned is not None:
                # the view: how many calls of each caller were invoked before this one returned
                counts = [bisect.bisect_left(moments, call.returned) for moments in invoked]
                words += [call.reply, "view", *(f"{j}:{c}" for j, c in enumerate(counts) if c)]
            lines.append(" ".join(words))
    return "\n".join([*lines, "end", ""])

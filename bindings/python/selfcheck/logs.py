"""Logs of other tools: Jepsen's histories, JSON lines, and CSV of calls with times become books, one for each key.

    from selfcheck import logs

    for part in logs.read(pathlib.Path("history.edn").read_bytes(), "jepsen", "queue"):
        small = selfcheck.smaller(part.book)
        if small:
            print(part.key, *part.in_words(small), sep="\\n")

`docs/FORMATS.md`, "Logs of other tools", has what is read: the fields of a line and their names, which calls are left out,
which are lost, and which operations of a log are which of a kind.
"""

import ctypes
from typing import NamedTuple, Optional

from . import _BUFFER, _NO_MEMORY, _NO_ROOM, _REFUSED, _TEXT, Refused, _bytes, _library, _Refusal

__all__ = ["KeyLog", "LoggedCall", "read"]

# What the library tells of a log that it refuses, by its numbers.
_WHATS = "Line Header Process Type Operation Time Pending Unasked Value Reply TooMany Long".split()
_UNFIT = 9

_library.selfcheck_import.restype = ctypes.c_uint32
_library.selfcheck_import.argtypes = [*_TEXT, *_TEXT, *_BUFFER, ctypes.POINTER(_Refusal)]


class LoggedCall(NamedTuple):
    """Where a call of a book stands in its log: its caller and number in the book, the line of its invocation, counted from
    1, and that of its answer, or None."""

    caller: int
    number: int
    line: int
    end: Optional[int]


class KeyLog(NamedTuple):
    """What a log has of one key, as it is written there: the key, or None where the log has none; the values, by their
    numbers in the book, none where the values of the kind are numbers; a `LoggedCall` for each call of the book; and the
    book's text. Where the calls don't fit a book, `book` is None, and `refused` has the line of the first that has no
    place, with `TooMany` or `Long`. Bytes that are no UTF-8 are replaced."""

    key: Optional[str]
    names: tuple
    calls: tuple
    book: Optional[str]
    refused: Optional[Refused]

    def in_words(self, book):
        """The calls of this book or of a smaller one, a line for each, with the log's own words for the values."""
        return [self._line_in_words(line) for line in book.split("\n")[4:] if line not in ("end", "")]

    def _line_in_words(self, line):
        said, view, _ = line.partition(" view ")
        caller, _number, op, *words = said.split(" ")
        words = [self._word(word) for word in words]
        return " ".join([f"caller {caller}:", op, *words, *([] if view else ["(no answer)"])])

    def _word(self, word):
        number = word.removeprefix("=")
        if not number.isdigit() or int(number) >= len(self.names):
            return word
        return ("= " if word != number else "") + self.names[int(number)]


def read(log, format, kind, *, keyed=False, error=None, initial=None, fields=None, operations=None):
    """A `KeyLog` for each key of a log, a `str` or bytes, in the order of their first calls; one where the log has no keys.

    The format is "jepsen", "jsonl" or "csv", and the kind that of the object by which the calls are judged. With `keyed`
    values are pairs of a key and the value proper. An `error` orders events by their times too, and takes each moment as
    wrong by up to so much. `initial` is what a register has at first, as the log writes it. `fields` are the names of the
    fields with a role, as {"start": "begin"}, and `operations` are those of the kind that the log's are, as
    {"offer": "enq"}.

    Raises `Refused` with the first line that is wrong, `ValueError` where the format, the kind, a role or an operation is
    none, and `MemoryError`.
    """
    words = ["--format", format, "--kind", kind]
    if keyed:
        words.append("--keyed")
    if error is not None:
        words += ["--error", str(error)]
    if initial is not None:
        words += ["--initial", initial]
    for role, name in (fields or {}).items():
        words += ["--field", f"{role}={name}"]
    for name, operation in (operations or {}).items():
        words += ["--op", f"{name}={operation}"]
    if any("\n" in word for word in words):
        raise ValueError("a line feed stands in no word of a log")
    lines = _imported("".join(f"{word}\n" for word in words).encode(), _bytes(log)).decode(errors="replace").split("\n")
    begun = [at for at, line in enumerate(lines) if line.startswith("key")]
    return [_part(lines[at:end]) for at, end in zip(begun, [*begun[1:], -1])]


def _imported(words, log):
    """What the library writes of a log."""
    refusal, written, room = _Refusal(), ctypes.c_size_t(), 2 * len(log) + 4096
    while True:
        buffer = ctypes.create_string_buffer(room)
        status = _library.selfcheck_import(words, len(words), log, len(log), buffer, room, written, refusal)
        if status == _REFUSED:
            raise Refused(refusal.line, _WHATS[refusal.what])
        if status == _UNFIT:
            raise ValueError("no such format, kind, role or operation")
        if status == _NO_MEMORY:
            raise MemoryError
        if status != _NO_ROOM:
            return buffer.raw[: written.value]
        room = written.value


def _part(lines):
    """What these lines tell of a key, which is in the first of them."""
    _, has_key, key = lines[0].partition(" ")
    names, calls, refused = [], [], None
    for at, line in enumerate(lines):
        word, _, rest = line.partition(" ")
        if word == "name":
            names.append(rest.partition(" ")[2])
        elif word == "call":
            calls.append(LoggedCall(*[*map(int, rest.split(" ")), None][:4]))
        elif word == "refused":
            line, what = rest.split(" ")
            refused = Refused(int(line), what)
        elif word == "book":
            break
    book = None if refused else "\n".join([*lines[at:], ""])
    return KeyLog(key if has_key else None, tuple(names), tuple(calls), book, refused)

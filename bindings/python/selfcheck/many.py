"""Many books at once, in threads of one process: the library is called without the interpreter's lock."""

import concurrent.futures
import itertools
import os
import pathlib
import threading
from typing import NamedTuple, Optional

from . import _limit, verify


class Judged(NamedTuple):
    """What is said of one of many books: its index, from 0, and whether it has a legal order, or why nothing is said.
    Where the steps were used up, both are None."""

    index: int
    legal: Optional[bool]
    error: Optional[Exception]


def verify_many(books, threads=None, steps=None):
    """A `Judged` for each book, in their order. A book is a `str` or bytes with its text, or a `Path` of the file that has
    it, which is read when its turn comes.

    Of each book `verify` makes so many `steps` at the most, where a number is given. What it raises of one book, and an
    `OSError` of its file, is the error of that book alone. There are so many threads, or one for each processor that the
    process may use. A book is taken from `books` once a thread is free for it; what `books` itself raises ends this without
    a verdict.
    """
    if steps is not None:
        _limit(steps)
    numbered, lock = enumerate(books), threading.Lock()

    def judge_on(_):
        judged = []
        while True:
            with lock:
                index, book = next(numbered, (None, None))
            if index is None:
                return judged
            judged.append(_judged(index, book, steps))

    threads = threads or len(os.sched_getaffinity(0))
    with concurrent.futures.ThreadPoolExecutor(threads) as pool:
        try:
            return sorted(itertools.chain.from_iterable(pool.map(judge_on, range(threads))))
        finally:
            # after an interrupt the threads end with the book that they have
            numbered = iter(())


def _judged(index, book, steps):
    try:
        text = book.read_bytes() if isinstance(book, pathlib.Path) else book
        return Judged(index, verify(text, steps), None)
    except Exception as error:
        # a traceback would keep the text
        return Judged(index, None, error.with_traceback(None))

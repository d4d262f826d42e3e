"""Judges many books in threads: `python3 many_books.py THREADS FILE ..`. There is a line for each file, with its verdict or why
it has none. Ends with 0 where all are legal, and else with 1."""

import pathlib
import sys

import selfcheck


def verdict(it):
    if it.error:
        return str(it.error) or repr(it.error)
    return "legal" if it.legal else "illegal"


threads, *names = sys.argv[1:]
judged = selfcheck.verify_many(map(pathlib.Path, names), int(threads))
for it in judged:
    print(names[it.index], verdict(it))
sys.exit(not all(it.legal for it in judged))

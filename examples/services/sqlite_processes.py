#!/usr/bin/env python3
"""A database of SQLite in one file, which several processes have open.

    python3 examples/services/sqlite_processes.py [--seconds 30] [--folder FOLDER]

An update in one statement is right, and so is what stands in a transaction that takes the lock at its beginning. A value that
is read by one statement and written back by another one, outside a transaction, loses what came between.
"""

import contextlib
import itertools
import multiprocessing
import os
import random
import sqlite3
import tempfile
import time

from common import START_SECONDS, Case, by_kind, by_model, drive, main, selfcheck, skip
from selfcheck.models import Accounts

if sqlite3.sqlite_version_info < (3, 35):
    skip(f"SQLite {sqlite3.sqlite_version} has no RETURNING, which came with 3.35")

CLIENTS, CALLS = 4, 8
ACCOUNTS, BALANCE = ("ann", "bob"), 20
# How long a statement waits for the lock, and what a program does between two statements.
SECONDS, BETWEEN = 5, 0.001
_names = map(str, itertools.count())


def add(base, name):
    return base.execute("UPDATE numbers SET number = number + 1 WHERE name = ? RETURNING number", [name]).fetchone()[0] - 1


def balance(base, name):
    return base.execute("SELECT number FROM numbers WHERE name = ?", [name]).fetchone()[0]


def read_and_write(base, name):
    number = balance(base, name)
    time.sleep(BETWEEN)
    base.execute("UPDATE numbers SET number = ? WHERE name = ?", [number + 1, name])
    return number


def move(base, one, other, amount):
    left = balance(base, one) - amount
    if left < 0:
        return False
    time.sleep(BETWEEN)
    base.execute("UPDATE numbers SET number = ? WHERE name = ?", [left, one])
    base.execute("UPDATE numbers SET number = number + ? WHERE name = ?", [amount, other])
    return True


def move_in_transaction(base, one, other, amount):
    base.execute("BEGIN IMMEDIATE")
    try:
        is_moved = move(base, one, other, amount)
        base.execute("COMMIT")
        return is_moved
    except BaseException:
        base.execute("ROLLBACK")
        raise


def new(base, numbers):
    base.executemany("INSERT INTO numbers VALUES (?, ?)", numbers)


def opened(path):
    base = sqlite3.connect(path, timeout=SECONDS, isolation_level=None)
    base.execute("PRAGMA journal_mode = WAL")
    base.execute("PRAGMA synchronous = OFF")
    base.execute("CREATE TABLE IF NOT EXISTS numbers (name TEXT PRIMARY KEY, number INTEGER)")
    return base


def serve(path, pipe):
    """What a process does: it makes the calls that come on the pipe, each a function and its arguments after the base."""
    base = opened(path)
    with contextlib.suppress(EOFError, KeyboardInterrupt):
        while True:
            call, *arguments = pipe.recv()
            try:
                pipe.send((call(base, *arguments), None))
            except sqlite3.Error as error:
                pipe.send((None, error))


class Process:
    """A process that has the file open, for one thread of this one."""

    def __init__(self, path):
        # a new interpreter, which has no pipe but its own, and so ends with this process
        spawn = multiprocessing.get_context("spawn")
        self._pipe, other = spawn.Pipe()
        self._process = spawn.Process(target=serve, args=(path, other), daemon=True)
        self._process.start()
        other.close()

    def call(self, *call):
        self._pipe.send(call)
        if not self._pipe.poll(START_SECONDS):
            raise RuntimeError("a process says nothing")
        value, error = self._pipe.recv()
        if error:
            raise error
        return value

    def stop(self):
        self._process.kill()
        self._process.join()


def counted(processes, step):
    recorder, name = selfcheck.Recorder("counter"), next(_names)
    processes[0].call(new, [(name, 0)])

    def client(process):
        me = recorder.caller()
        return lambda _: me.call("inc", lambda: process.call(step, name))

    drive([client(process) for process in processes], CALLS, sqlite3.Error)
    return recorder


def transferred(model, processes, step):
    recorder, here = selfcheck.Recorder(model), next(_names)
    processes[0].call(new, [(here + name, BALANCE) for name in ACCOUNTS])

    def ask(me, process, name):
        me.call("balance", name, lambda: process.call(balance, here + name))

    def client(process):
        me = recorder.caller()

        def call(_):
            one, other = random.sample(ACCOUNTS, 2)
            if random.random() < 0.25:
                return ask(me, process, one)
            amount = random.randrange(1, 10)
            me.call("transfer", one, other, amount, lambda: process.call(step, here + one, here + other, amount))

        return call

    drive([client(process) for process in processes], CALLS, sqlite3.Error)
    # what is there at the end is seen too
    for name in ACCOUNTS:
        ask(recorder, processes[0], name)
    return recorder


@contextlib.contextmanager
def cases():
    model = Accounts({name: BALANCE for name in ACCOUNTS})
    with tempfile.TemporaryDirectory() as folder, contextlib.ExitStack() as stack:
        path = os.path.join(folder, "base")
        opened(path).close()
        processes = []
        for _ in range(CLIENTS):
            processes.append(Process(path))
            stack.callback(processes[-1].stop)
        for process in processes:
            process.call(new, [])
        yield [
            Case("an update in one statement", True, by_kind, lambda: counted(processes, add)),
            Case(
                "transfers in transactions",
                True,
                by_model(model),
                lambda: transferred(model, processes, move_in_transaction),
            ),
            Case("a value read and written back", False, by_kind, lambda: counted(processes, read_and_write)),
            Case("transfers without a transaction", False, by_model(model), lambda: transferred(model, processes[:2], move)),
        ]


if __name__ == "__main__":
    main(__doc__, cases)

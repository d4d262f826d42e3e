#!/usr/bin/env python3
"""Judges many books on the workers of Dask's distributed scheduler, of this machine or of a cluster.

    dask_books.py [--workers 4] FILE ..                    starts so many workers here
    dask_books.py --scheduler tcp://HOST:8786 FILE ..      takes the workers that a scheduler has

There is a line for each file, with its verdict or why it has none. It ends with 0 where all are legal, and else with 1. The
texts go to the workers, so that they need none of the files; but each needs the module `selfcheck`. Where a task
ends each worker that takes it, as for want of memory, its books are judged one by one, which isn't tested.
"""
import argparse
import sys
import time

import distributed
import selfcheck

# A task has so many books at the most, and bytes of them, but for one book that is longer.
MOST_BOOKS, MOST_BYTES = 100, 2**18


def read(name):
    try:
        with open(name, "rb") as file:
            return file.read()
    except OSError as error:
        return error


def parts_of(texts):
    """The indexes of the texts that could be read, in parts for one task each."""
    part, size = [], 0
    for index, text in enumerate(texts):
        if isinstance(text, OSError):
            continue
        if part and (len(part) == MOST_BOOKS or size + len(text) > MOST_BYTES):
            yield part
            part, size = [], 0
        part.append(index)
        size += len(text)
    if part:
        yield part


def judge_all(client, texts):
    """A `selfcheck.Judged` for each text, in their order. The books of a task that ended its workers are judged one by one."""
    tasks, judged = {}, [selfcheck.Judged(index, None, text) for index, text in enumerate(texts)]

    def submit(part):
        task = client.submit(selfcheck.verify_many, [texts[index] for index in part], 1, pure=False)
        tasks[task] = part
        return task

    done = distributed.as_completed([submit(part) for part in parts_of(texts)])
    for task in done:
        part = tasks.pop(task)
        try:
            said = task.result()
        except Exception as error:
            if isinstance(error, distributed.KilledWorker) and len(part) > 1:
                for index in part:
                    done.add(submit([index]))
                continue
            said = [selfcheck.Judged(0, None, error)] * len(part)
        for index, it in zip(part, said):
            judged[index] = it._replace(index=index)
    return judged


def verdict(it):
    if it.error:
        return str(it.error) or repr(it.error)
    return "legal" if it.legal else "illegal"


def main():
    words = argparse.ArgumentParser(description=__doc__, formatter_class=argparse.RawDescriptionHelpFormatter)
    words.add_argument("--scheduler")
    words.add_argument("--workers", type=int, default=4)
    words.add_argument("files", nargs="+", metavar="FILE")
    given = words.parse_args()
    texts = [read(name) for name in given.files]
    here = {"n_workers": given.workers, "threads_per_worker": 1, "dashboard_address": None}
    with distributed.Client(given.scheduler) if given.scheduler else distributed.Client(**here) as client:
        client.wait_for_workers(1)
        begun = time.monotonic()
        judged = judge_all(client, texts)
        seconds, threads = time.monotonic() - begun, client.nthreads().values()
        print(f"{len(texts)} books in {seconds:.2f} s by {sum(threads)} threads of {len(threads)} workers", file=sys.stderr)
        for it in judged:
            print(given.files[it.index], verdict(it))
    sys.exit(not all(it.legal for it in judged))


if __name__ == "__main__":
    main()

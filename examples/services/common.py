"""What the scripts beside this one share: servers on the loopback that are stopped whatever happens, clients that call for a
limited time, verdicts on what they did, and how these are shown.

A case makes histories until its time is up, each of an object that is as new, and each is judged. A right one has to be legal
each time, and a wrong one has to be found. What is illegal is made small and drawn, into a folder.
"""

import argparse
import contextlib
import ctypes
import os
import re
import shutil
import signal
import socket
import subprocess
import sys
import tempfile
import threading
import time
from typing import Any, Callable, NamedTuple, Optional

TOP = os.path.dirname(os.path.dirname(os.path.dirname(os.path.abspath(__file__))))
# an installed module comes first
sys.path.append(os.path.join(TOP, "bindings", "python"))

import selfcheck  # noqa: E402

HOST = "127.0.0.1"
# What a loaded machine may take to start a server, or to bring several together.
START_SECONDS = 60
# The longest that the clients of one history may take.
_HISTORY_SECONDS = 10
# Steps of a check by a model, after which there is no verdict.
_STEPS = 200_000
# A wrong one that isn't found has so many histories, or so much more time, where a loaded machine makes few of them.
_CHANCES, _CHANCE_SECONDS = 50, 15
_PR_SET_PDEATHSIG = 1


def skip(sentence):
    print(f"skipped: {sentence}")
    sys.exit(0)


def need(package, *programs):
    """Ends the script where one of these programs isn't installed."""
    for program in programs:
        if not shutil.which(program):
            skip(f"{program} isn't installed: apt-get install {package}")


def free_ports(count):
    with contextlib.ExitStack() as stack:
        sockets = [stack.enter_context(socket.socket()) for _ in range(count)]
        for each in sockets:
            each.bind((HOST, 0))
        return [each.getsockname()[1] for each in sockets]


def _dies_with_parent():
    ctypes.CDLL(None).prctl(_PR_SET_PDEATHSIG, signal.SIGKILL)


def await_start(is_there, errors):
    """Waits until this is true, and counts one of these errors as not yet."""
    until = time.monotonic() + START_SECONDS
    while time.monotonic() < until:
        with contextlib.suppress(errors):
            if is_there():
                return
        time.sleep(0.1)
    raise TimeoutError(f"nothing is there after {START_SECONDS} s")


class Server:
    """A process that listens on a port of the loopback."""

    def __init__(self, command, port, folder):
        self.port, self._log = port, os.path.join(folder, f"log-{port}")
        with open(self._log, "wb") as log:
            self.process = subprocess.Popen(
                command, cwd=folder, stdin=subprocess.DEVNULL, stdout=log, stderr=log, preexec_fn=_dies_with_parent
            )

    def wait(self):
        """Waits until it listens."""

        def listens():
            if self.process.poll() is not None:
                raise RuntimeError(f"{self.process.args[0]} has ended: {self._said()}")
            with socket.create_connection((HOST, self.port), 1):
                return True

        try:
            await_start(listens, OSError)
        except TimeoutError:
            raise RuntimeError(f"{self.process.args[0]} doesn't listen on {self.port}: {self._said()}") from None

    def _said(self):
        with open(self._log, errors="replace") as log:
            return log.read()[-2000:]

    def pause(self, seconds, meanwhile=lambda: None):
        """Stops the process for so long, so that it takes no steps, and what is sent to it waits."""
        self.process.send_signal(signal.SIGSTOP)
        try:
            meanwhile()
            time.sleep(seconds)
        finally:
            self.process.send_signal(signal.SIGCONT)

    def stop(self):
        self.process.kill()
        self.process.wait()


@contextlib.contextmanager
def folder_of_servers():
    """A new folder, and what starts a server in it by a command and its port; at the end the servers are stopped, and the
    folder is removed."""
    with tempfile.TemporaryDirectory() as folder, contextlib.ExitStack() as stack:

        def start(command, port):
            server = Server(command, port, folder)
            stack.callback(server.stop)
            return server

        yield folder, start


def drive(clients, calls, lost=(), meanwhile=lambda: None):
    """Each client is a function that makes one call, of the number that it is given, and has a thread of its own, which
    makes so many calls, or fewer where they take too long. A call that ends with an error of `lost` is lost, and the client
    goes on. Any other error is raised here, at the end."""
    until, errors, start = time.monotonic() + _HISTORY_SECONDS, [], threading.Barrier(len(clients))

    def work(client):
        start.wait()
        for number in range(calls):
            if errors or time.monotonic() > until:
                return
            try:
                client(number)
            except lost:
                pass
            except Exception as error:
                errors.append(error)

    threads = [threading.Thread(target=work, args=(client,), daemon=True) for client in clients]
    for thread in threads:
        thread.start()
    try:
        meanwhile()
        for thread in threads:
            thread.join(3 * _HISTORY_SECONDS)
    except BaseException as error:
        # so that the clients end too
        errors.append(error)
        raise
    if errors:
        raise errors[0]


def write_here_and_read_there(clients, calls, lost=(), meanwhile=lambda: None):
    """The recorder of a register, 0 at first. Each client is a function that writes a value, and one that reads; it calls
    them in turn, and writes values of its own."""
    recorder = selfcheck.Recorder("register")

    def client(which, write, read):
        me = recorder.caller()

        def call(number):
            if number % 2:
                me.call("read", read)
            else:
                value = calls * which + number + 1
                me.call("write", value, lambda: write(value))

        return call

    drive([client(which, *each) for which, each in enumerate(clients)], calls, lost, meanwhile)
    return recorder


class Found(NamedTuple):
    """An illegal history: as a text, the small part of it, what is said of that, and a picture if there is one."""

    whole: str
    small: str
    said: str
    picture: Optional[str]


class Judged(NamedTuple):
    calls: int
    left_out: int
    is_unknown: bool
    found: Optional[Found]


def _found_in(book):
    small = selfcheck.smaller(book)
    said = selfcheck.explain(small) or "it breaks none of the rules of its kind, and has no legal order"
    return Found(book, small, said.strip(), selfcheck.picture(small))


def _judged_books(prefixes):
    illegal = next((prefix.book for prefix in prefixes if not selfcheck.verify(prefix.book)), None)
    kept, left_out = (sum(getattr(prefix, name) for prefix in prefixes) for name in ("kept", "left_out"))
    return Judged(kept, left_out, False, illegal and _found_in(illegal))


def by_kind(recorder):
    return _judged_books([recorder.prefix()])


def by_key(recorder):
    return _judged_books(list(recorder.by_key().values()))


def by_model(model):
    """What judges the recorders over this model."""

    def judged(recorder):
        verdict = recorder.verify(steps=_STEPS, prefix=True)
        found = None
        if verdict.legal is False:
            events = recorder.events()
            small = smaller_events(model, events)
            found = Found(drawn(events), drawn(small), f"the model is {type(model).__name__}", None)
        return Judged(verdict.kept, verdict.left_out, verdict.legal is None, found)

    return judged


def smaller_events(model, events):
    """The shortest illegal beginning of an illegal history, of one key, without such calls as change no state and aren't
    needed.

    It is illegal only if the whole is: what was done before a moment is linearizable wherever the whole is, as are the calls
    with one key (Herlihy and Wing 1990), and an order with a call that changes no state is one without it too. A call that
    may have changed the state can't be left out so.
    """

    def is_illegal(events):
        return selfcheck.judge(model, events, steps=_STEPS).legal is False

    if hasattr(model, "key"):
        events = _of_illegal_key(model, events)
    legal, illegal = 0, len(events)
    while illegal - legal > 1:
        middle = (legal + illegal) // 2
        legal, illegal = (legal, middle) if is_illegal(events[:middle]) else (middle, illegal)
    events, leaves = events[:illegal], getattr(model, "leaves", lambda op, reply: False)
    for begin, end in reversed([(begin, end) for begin, end in calls_of(events) if end]):
        others = [event for event in events if event is not begin and event is not end]
        if leaves(begin[2], end[2]) and is_illegal(others):
            events = others
    return events


def _of_illegal_key(model, events):
    verdicts = selfcheck.judge(model, events, steps=_STEPS).keys
    wanted = next(key for key, verdict in verdicts.items() if verdict.legal is False)
    kept = [call for call in calls_of(events) if model.key(call[0][2]) == wanted]
    return [event for event in events if any(event is one for call in kept for one in call)]


def calls_of(events):
    """The events of each call, of which the second one is None where it hasn't ended."""
    calls, begun = [], {}
    for event in events:
        if event[0] == "begin":
            begun[event[1]] = len(calls)
            calls.append((event, None))
        else:
            at = begun[event[1]]
            calls[at] = calls[at][0], event
    return calls


def drawn(events):
    """A picture in letters: one column for each caller, and one line for each event, in the order in which they happened."""
    callers = sorted({caller for _, caller, _ in events})
    texts = [" ".join(map(str, value)) if what == "begin" else f"-> {value}" for what, _, value in events]
    width = max(map(len, [*texts, "caller 00"])) + 2
    lines, within = ["".join(f"caller {caller}".ljust(width) for caller in callers)], set()
    for (_, caller, _), text in zip(events, texts):
        cells = {other: "|" for other in within}
        cells[caller] = text
        within.symmetric_difference_update({caller})
        lines.append("".join(cells.get(other, "").ljust(width) for other in callers))
    return "\n".join(line.rstrip() for line in lines) + "\n"


class Case(NamedTuple):
    """`history` makes a history and gives its recorder, and `judge` judges that."""

    name: str
    is_right: bool
    judge: Callable[[Any], Judged]
    history: Callable[[], Any]


def try_case(case, seconds, folder):
    """Whether the case is as it should be."""
    until, histories, calls, left_out, unknown = time.monotonic() + seconds, 0, 0, 0, 0
    word = "right" if case.is_right else "wrong"

    def goes_on():
        over = time.monotonic() - until
        has_chance = not case.is_right and histories < _CHANCES and over < _CHANCE_SECONDS
        return not histories or over < 0 or has_chance

    while goes_on():
        judged = case.judge(case.history())
        histories, calls, left_out = histories + 1, calls + judged.calls, left_out + judged.left_out
        unknown += judged.is_unknown
        if judged.found:
            print(f"{word}: {case.name}: history {histories}, of {judged.calls:,} calls, has this illegal part:")
            print(f"\n{judged.found.small}illegal\n{judged.found.said}\n", flush=True)
            _keep(case.name, judged.found, folder)
            return not case.is_right
    more = [f"{left_out:,} calls left out"] * bool(left_out) + [f"{unknown} without a verdict"] * bool(unknown)
    said = ", ".join([f"{histories:,} histories, {calls:,} calls, none illegal", *more])
    print(f"{word}: {case.name}: {said}", flush=True)
    return case.is_right and unknown < histories


def _keep(name, found, folder):
    os.makedirs(folder, exist_ok=True)
    path = os.path.join(folder, re.sub(r"\W+", "-", name).strip("-"))
    for ending, text in ("whole.txt", found.whole), ("small.txt", found.small), ("svg", found.picture):
        if text:
            with open(f"{path}.{ending}", "w") as file:
                file.write(text)


def main(text, make_cases):
    """Runs the script with this text at its head. `make_cases` is a context manager that gives its cases."""
    words = argparse.ArgumentParser(description=text, formatter_class=argparse.RawDescriptionHelpFormatter)
    words.add_argument("--seconds", type=float, default=30, help="how long in all, but for the last histories; 30 without it")
    words.add_argument("--folder", help="where what is found is kept, and drawn; a new one without it")
    given = words.parse_args()
    # so that a `timeout` too leaves no server behind
    signal.signal(signal.SIGTERM, lambda *_: sys.exit(143))
    folder = given.folder or os.path.join(tempfile.gettempdir(), f"selfcheck-services-{os.getpid()}")
    until = time.monotonic() + given.seconds
    with make_cases() as cases:
        # the wrong ones first, so that the right ones have the time that these leave
        cases.sort(key=lambda case: case.is_right)
        shares = range(len(cases), 0, -1)
        are_right = [try_case(case, (until - time.monotonic()) / share, folder) for case, share in zip(cases, shares)]
    if os.path.isdir(folder):
        print(f"kept in {folder}")
    sys.exit(0 if all(are_right) else 1)

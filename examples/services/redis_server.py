#!/usr/bin/env python3
"""A Redis server, and a replica of it.

    python3 examples/services/redis_server.py [--seconds 30] [--folder FOLDER]

What one server does is right: INCR as a counter, GET, SET and a script that compares and sets as a register, RPUSH and LPOP as
a queue, SET, GET and GETDEL as a map. So it is where the server is stopped for a while, and clients lose calls by their
timeouts. A client that sends INCR again after a timeout counts twice, and a read of a replica may be old.
"""

import contextlib
import itertools
import random

from common import HOST, Case, await_start, by_key, by_kind, drive, folder_of_servers, free_ports, main, need, selfcheck, skip
from common import write_here_and_read_there

need("redis-server python3-redis", "redis-server")
try:
    import redis
    from redis.backoff import NoBackoff
    from redis.retry import Retry
except ImportError:
    skip("the module redis isn't installed: apt-get install python3-redis, or pip install redis")

CLIENTS, CALLS, SHORT = 4, 32, 6
TIMEOUT, PAUSE = 0.2, 0.3
LOST = redis.exceptions.TimeoutError, redis.exceptions.ConnectionError
COMPARE_AND_SET = """
if tonumber(redis.call('get', KEYS[1]) or 0) ~= tonumber(ARGV[1]) then return 0 end
redis.call('set', KEYS[1], ARGV[2])
return 1
"""
_names = (f"object:{number}" for number in itertools.count())


def number(text):
    return None if text is None else int(text)


def connect(server, sends_again=False):
    again = {"retry": Retry(NoBackoff(), int(sends_again)), "retry_on_error": [redis.exceptions.TimeoutError] * sends_again}
    return redis.Redis(HOST, server.port, socket_timeout=TIMEOUT, **again)


def increment(me, connection, name, _):
    # the kind's reply is the value before
    me.call("inc", lambda: connection.incr(name) - 1)


def set_and_compare(me, connection, name, value):
    choice = random.randrange(3)
    if choice == 0:
        me.call("read", lambda: number(connection.get(name) or 0))
    elif choice == 1:
        me.call("write", value, lambda: connection.set(name, value))
    else:
        old = number(connection.get(name) or 0)
        me.call("cas", old, value, lambda: connection.eval(COMPARE_AND_SET, 1, name, old, value))


def put_and_take(me, connection, name, value):
    if random.random() < 0.5:
        me.call("enq", value, lambda: connection.rpush(name, value))
    else:
        me.call("deq", lambda: number(connection.lpop(name)))


def keys_and_values(me, connection, name, value):
    key, choice = random.randrange(3), random.randrange(3)
    where = f"{name}:{key}"
    if choice == 0:
        me.call("put", key, value, lambda: number(connection.set(where, value, get=True)))
    elif choice == 1:
        me.call("get", key, lambda: number(connection.get(where)))
    else:
        me.call("del", key, lambda: number(connection.getdel(where)))


def history(kind, act, connections, server=None):
    """Of an object with a new name. Where a server is given, that is stopped for a while."""
    recorder, name = selfcheck.Recorder(kind), next(_names)

    def client(which, connection):
        me = recorder.caller()
        return lambda number: act(me, connection, name, CALLS * which + number + 1)

    clients = [client(which, connection) for which, connection in enumerate(connections)]
    drive(clients, CALLS, LOST, (lambda: server.pause(PAUSE)) if server else lambda: None)
    return recorder


def replicated(writers, readers, replica):
    """Each client writes to the server, and reads from the replica, whose connection to the server breaks once."""
    name = next(_names)

    def client(writer, reader):
        return lambda value: writer.set(name, value), lambda: number(reader.get(name) or 0)

    def kill():
        with contextlib.suppress(*LOST):
            writers[0].execute_command("CLIENT KILL", "TYPE", "replica")

    return write_here_and_read_there([client(*each) for each in zip(writers, readers)], SHORT, LOST, lambda: replica.pause(TIMEOUT / 2, kill))


@contextlib.contextmanager
def cases():
    with folder_of_servers() as (_, start):
        port, replica_port = free_ports(2)
        command = ["redis-server", "--bind", HOST, "--save", "", "--appendonly", "no", "--port"]
        server = start([*command, str(port)], port)
        server.wait()
        replica = start([*command, str(replica_port), "--replicaof", HOST, str(port)], replica_port)
        replica.wait()
        plain = [connect(server) for _ in range(CLIENTS)]
        again = [connect(server, sends_again=True) for _ in range(CLIENTS)]
        readers = [connect(replica) for _ in range(2)]
        await_start(lambda: readers[0].info("replication")["master_link_status"] == "up", LOST)
        yield [
            Case("INCR as a counter", True, by_kind, lambda: history("counter", increment, plain)),
            Case("INCR as a counter, with lost calls", True, by_kind, lambda: history("counter", increment, plain, server)),
            Case("a register with compare-and-set", True, by_kind, lambda: history("casreg", set_and_compare, plain, server)),
            Case("a list as a queue", True, by_kind, lambda: history("queue", put_and_take, plain, server)),
            Case("keys as a map", True, by_key, lambda: history("map", keys_and_values, plain)),
            Case("INCR sent again after a timeout", False, by_kind, lambda: history("counter", increment, again, server)),
            Case("reads of a replica", False, by_kind, lambda: replicated(plain, readers, replica)),
        ]


if __name__ == "__main__":
    main(__doc__, cases)

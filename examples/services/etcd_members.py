#!/usr/bin/env python3
"""Three members of etcd, by their gateway of JSON over HTTP.

    python3 examples/services/etcd_members.py [--seconds 30] [--folder FOLDER]

Reads are linearizable as long as nothing else is said, by whichever member, and where a member, the leader too, is stopped for
a while. A serializable read is answered by the member alone, from what that knows, and so may be old.
"""

import base64
import contextlib
import http.client
import itertools
import json
import operator
import random

from common import HOST, Case, await_start, by_kind, by_model, drive, folder_of_servers, free_ports, main, need, selfcheck
from common import write_here_and_read_there
from selfcheck.models import VersionedStore

need("etcd-server", "etcd")

CLIENTS, CALLS, SHORT, KEYS = 4, 32, 6, 3
# A leader that is stopped for so long is one no more.
TIMEOUT, PAUSE = 2, 1.2
LOST = OSError, http.client.HTTPException
_names = (f"object:{number}" for number in itertools.count())
_turns = itertools.cycle(map(operator.itemgetter, range(3)))


def coded(text):
    return base64.b64encode(str(text).encode()).decode()


class Client:
    """A connection to a member. An answer that isn't of status 200 is an error, after which nothing is known."""

    def __init__(self, member):
        self._http = http.client.HTTPConnection(HOST, member.port, timeout=TIMEOUT)

    def post(self, path, body):
        try:
            self._http.request("POST", "/v3/" + path, json.dumps(body), {"Content-Type": "application/json"})
            answer = self._http.getresponse()
            text = answer.read()
        except BaseException:
            self._http.close()
            raise
        if answer.status != 200:
            raise OSError(text)
        return json.loads(text)

    def get(self, key, is_serializable=False):
        """The version and the value of the key."""
        found = self.post("kv/range", {"key": coded(key), "serializable": is_serializable}).get("kvs")
        return (int(found[0]["version"]), base64.b64decode(found[0]["value"]).decode()) if found else (0, None)

    def put(self, key, value):
        """The new version."""
        before = self.post("kv/put", {"key": coded(key), "value": coded(value), "prev_kv": True}).get("prev_kv")
        return (int(before["version"]) if before else 0) + 1

    def put_if(self, key, target, wanted, value):
        """Whether the key's target, its `version` or its `value`, was the wanted one, and has the new value."""
        compare = {"key": coded(key), "target": target.upper(), target: wanted}
        put = {"request_put": {"key": coded(key), "value": coded(value)}}
        return self.post("kv/txn", {"compare": [compare], "success": [put]}).get("succeeded", False)


def compare_and_set(me, client, name, value):
    choice = random.randrange(3)
    if choice == 0:
        me.call("read", lambda: int(client.get(name)[1]))
    elif choice == 1:
        me.call("write", value, lambda: client.put(name, value) and None)
    else:
        old = int(client.get(name)[1])
        me.call("cas", old, value, lambda: client.put_if(name, "value", coded(old), value))


def versions(me, client, name, value):
    key, text, choice = random.randrange(KEYS), f"text {value}", random.randrange(3)
    where = f"{name}:{key}"
    if choice == 0:
        me.call("get", key, lambda: client.get(where))
    elif choice == 1:
        me.call("put", key, text, lambda: client.put(where, text))
    else:
        version = client.get(where)[0]

        def put_if():
            return version + 1 if client.put_if(where, "version", version, text) else None

        me.call("put_if", key, version, text, put_if)


def begin(members, name):
    """Sets the value of the name to 0 once there is a leader. What is lost here does nothing later, when there is a value."""
    for client in map(Client, members):
        await_start(lambda: client.get(name)[1] is not None or client.put_if(name, "version", 0, 0), LOST)


def history(kind, act, members):
    """Clients call all members, while one is stopped, each in its turn."""
    recorder, name = selfcheck.Recorder(kind), next(_names)
    begin(members, name)

    def calls(which, client):
        me = recorder.caller()
        return lambda number: act(me, client, name, CALLS * which + number + 1)

    clients = [calls(which, Client(members[which % len(members)])) for which in range(CLIENTS)]
    drive(clients, CALLS, LOST, lambda: next(_turns)(members).pause(PAUSE))
    return recorder


def serializable(members):
    """Two clients write to two members, and read what the third one knows, which is stopped for a while."""
    name, stopped = next(_names), next(_turns)(members)
    begin(members, name)

    def client(writer, reader):
        return lambda value: writer.put(name, value), lambda: int(reader.get(name, is_serializable=True)[1])

    clients = [client(Client(member), Client(stopped)) for member in members if member is not stopped]
    return write_here_and_read_there(clients, SHORT, LOST, lambda: stopped.pause(PAUSE))


@contextlib.contextmanager
def cases():
    with folder_of_servers() as (folder, start):
        ports = free_ports(6)
        urls = [f"http://{HOST}:{port}" for port in ports]
        cluster = ",".join(f"member{which}={url}" for which, url in enumerate(urls[3:]))
        members = [
            start(
                [
                    *("etcd", "--name", f"member{which}", "--data-dir", f"{folder}/member{which}"),
                    *("--listen-client-urls", urls[which], "--advertise-client-urls", urls[which]),
                    *("--listen-peer-urls", urls[which + 3], "--initial-advertise-peer-urls", urls[which + 3]),
                    *("--initial-cluster", cluster, "--heartbeat-interval", "50", "--election-timeout", "500"),
                ],
                ports[which],
            )
            for which in range(3)
        ]
        for member in members:
            member.wait()
        model = VersionedStore()
        yield [
            Case("a register with compare-and-set", True, by_kind, lambda: history("casreg", compare_and_set, members)),
            Case("versions of keys", True, by_model(model), lambda: history(model, versions, members)),
            Case("serializable reads", False, by_kind, lambda: serializable(members)),
        ]


if __name__ == "__main__":
    main(__doc__, cases)

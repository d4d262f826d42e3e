"""Ready models (see `selfcheck.model`). Each names its operations, with the reply that the object gives. None is no value of a
deque, a queue or a store."""


class Deque:
    """A deque of any length: ("push_front", value) and ("push_back", value) with None, ("pop_front",) and ("pop_back",)
    with the value, or None where there is none."""

    def init(self):
        return ()

    def step(self, state, op):
        name, *values = op
        if name == "push_front":
            return (*values, *state), None
        if name == "push_back":
            return (*state, *values), None
        if not state:
            return state, None
        return (state[1:], state[0]) if name == "pop_front" else (state[:-1], state[-1])

    def leaves(self, op, reply):
        return reply is None and op[0].startswith("pop")


class BoundedQueue:
    """A queue of so many places: ("put", value) with True, or False where it is full; ("take",) with the first value, or None
    where there is none."""

    def __init__(self, places):
        self.places = places

    def init(self):
        return ()

    def step(self, state, op):
        if op[0] == "put":
            return (state, False) if len(state) == self.places else ((*state, op[1]), True)
        return (state[1:], state[0]) if state else (state, None)

    def leaves(self, op, reply):
        return reply is None or op[0] == "put" and reply is False


class Lock:
    """A lock with an owner: ("acquire", owner) with whether it was free, and ("release", owner) with whether this owner had
    it. An acquire that waits until it succeeds is one with True, or an unanswered call."""

    def init(self):
        return ()

    def step(self, state, op):
        name, owner = op
        wanted, after = ((), (owner,)) if name == "acquire" else ((owner,), ())
        return (after, True) if state == wanted else (state, False)

    def leaves(self, op, reply):
        return reply is False


class Semaphore:
    """A semaphore with so many permits at first: ("acquire",) with whether there was one, and ("release",) with None."""

    def __init__(self, permits):
        self.permits = permits

    def init(self):
        return self.permits

    def step(self, state, op):
        if op[0] == "release":
            return state + 1, None
        return (state - 1, True) if state else (state, False)

    def leaves(self, op, reply):
        return reply is False


class Counter:
    """A counter from 0: ("add", number) with None, and ("read",) with the sum."""

    def init(self):
        return 0

    def step(self, state, op):
        return (state + op[1], None) if op[0] == "add" else (state, state)

    def leaves(self, op, reply):
        return op[0] == "read"


class Accounts:
    """Bank accounts by any names, with 0 or what they have at first: ("deposit", account, amount) with None, ("transfer",
    one, other, amount) with whether there was as much, and ("balance", account) with what there is."""

    def __init__(self, balances=()):
        self.balances = dict(balances)

    def init(self):
        return frozenset((account, amount) for account, amount in self.balances.items() if amount)

    def step(self, state, op):
        name, *accounts = op
        balances = dict(state)
        if name == "balance":
            return state, balances.get(accounts[0], 0)
        *accounts, amount = accounts
        if name == "transfer":
            if balances.get(accounts[0], 0) < amount:
                return state, False
            balances[accounts[0]] = balances.get(accounts[0], 0) - amount
        balances[accounts[-1]] = balances.get(accounts[-1], 0) + amount
        after = frozenset((account, amount) for account, amount in balances.items() if amount)
        return after, True if name == "transfer" else None

    def leaves(self, op, reply):
        return op[0] == "balance" or reply is False


class VersionedStore:
    """A store of values, such as strings, by keys. Each key has a version, at first 0 with the value None: ("put", key, value)
    with the new version, ("put_if", key, version, value) with the new version, or None where the key has another one, and
    ("get", key) with the pair of the version and the value."""

    def init(self):
        return 0, None

    def step(self, state, op):
        name, _, *values = op
        if name == "get":
            return state, state
        if name == "put_if" and state[0] != values[0]:
            return state, None
        return (state[0] + 1, values[-1]), state[0] + 1

    def leaves(self, op, reply):
        return op[0] == "get" or reply is None

    def key(self, op):
        return op[1]

"""The operations of each kind, as scripts are made of them."""

import collections

PUTS, TAKES, OTHER = "puts", "takes", "other"

# Arguments have the names of the methods of `Values` that draw them.
Operation = collections.namedtuple("Operation", "name effect arguments")


def _operation(name, effect=OTHER, *arguments):
    return Operation(name, effect, arguments)


_REGISTER = [_operation("write", OTHER, "value"), _operation("read")]

OPERATIONS = {
    "queue": [_operation("enq", PUTS, "value"), _operation("deq", TAKES)],
    "stack": [_operation("push", PUTS, "value"), _operation("pop", TAKES)],
    "register": _REGISTER,
    "counter": [_operation("inc")],
    "set": [_operation(it, OTHER, "value") for it in ("add", "remove", "has")],
    "pqueue": [_operation("insert", PUTS, "value"), _operation("min", TAKES)],
    "casreg": [*_REGISTER, _operation("cas", OTHER, "old", "value")],
    "map": [
        _operation("put", OTHER, "key", "value"),
        _operation("get", OTHER, "key"),
        _operation("del", OTHER, "key"),
    ],
}

# How many different values scripts have where nothing else is said; None where all are different.
VALUES = {**dict.fromkeys(OPERATIONS), "set": 3, "casreg": 3}

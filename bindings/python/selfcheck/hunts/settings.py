"""What a hunt does: its scripts, its schedules, and when it ends."""

import operator

from .. import MAX_CALLERS, MAX_CALLS
from .kinds import OPERATIONS, PUTS, TAKES, VALUES

_STRATEGIES = ("both", "walk", "priorities")
# How many runs a hunt makes where neither runs nor seconds are said.
_RUNS = 10_000
# Of how many steps a run has at the most, where nothing else is said.
_STEPS, _STEPS_OF_CALL = 10_000, 400


class SettingError(ValueError):
    """A setting is out of its bounds: its name, what it is and what it has to be."""

    def __init__(self, name, given, wanted):
        super().__init__(f"the setting {name} is {given}, and has to be {wanted}")
        self.name = name


class Settings:
    """The kind of the object and, by their names, whichever settings aren't to be as usual.

    callers, calls         how many callers, and how many calls each of them makes: 4 and 6
    seed                   by which scripts and schedules are drawn: 0
    weights                how often each operation comes, by its name: {"enq": 2, "deq": 1}; one
                           that isn't named comes as often as 1 says
    values                 how many different values there are, from 1 on; queues, stacks, priority
                           queues, registers and maps have all values different where this isn't
                           said, and others three
    keys                   how many keys a map has, from 1 on: 3
    runs, seconds          how many runs there are at the most, and after which time none begins;
                           10,000 runs where neither is said
    at_most_more_puts      for objects of which a call waits where they are full: each caller takes
                           no more than it has put in, and at most so many fewer
    producers_and_consumers
                           for objects of which calls wait where they are full or empty: half of
                           the callers take, and the others put as many in all
    strategy               "both" in turn by the run's seed, "walk" or "priorities"
    change_points          at how many points at the most priorities change; as many as a script
                           has calls where this isn't said
    most_steps             how many steps a run has at the most: 10,000, or 400 for each call
    patience               for how many seconds a thread may make no step before it is told: 5
    after_exceptions       the hunt goes on after an exception, and tells one of each line
    new_threads            each run has new threads, for objects with thread-local values
    folder                 where each finding has a folder of its own
    """

    def __init__(
        self,
        kind,
        *,
        callers=4,
        calls=6,
        seed=0,
        weights=None,
        values=None,
        keys=3,
        runs=None,
        seconds=None,
        at_most_more_puts=None,
        producers_and_consumers=False,
        strategy="both",
        change_points=None,
        most_steps=None,
        patience=5,
        after_exceptions=False,
        new_threads=False,
        folder=None,
    ):
        given = dict(locals())
        del given["self"]
        self.__dict__.update(given)
        if kind not in OPERATIONS:
            raise SettingError("kind", repr(kind), f"one of {', '.join(OPERATIONS)}")
        self._check_numbers()
        self._check_weights()
        self._check_rule()
        named = weights or {}
        self.weighted = [(it, named.get(it.name, 1)) for it in OPERATIONS[kind]]
        self.different_values = VALUES[kind] if values is None else values
        self.most_runs = runs if runs is not None else None if seconds is not None else _RUNS
        self.step_limit = most_steps or max(_STEPS, _STEPS_OF_CALL * callers * calls)

    def _check_numbers(self):
        self._is_in("callers", 1, MAX_CALLERS)
        self._is_in("calls", 1, MAX_CALLS)
        self._is_in("seed", 0, 2**64 - 1)
        self._is_in("keys", 1, 2**32 - 1)
        for name, most in (
            ("values", 2**32 - 1),
            ("runs", None),
            ("change_points", 1000),
            ("most_steps", 2**30),
            ("at_most_more_puts", None),
        ):
            if getattr(self, name) is not None:
                self._is_in(name, 1, most)
        for name in "seconds", "patience":
            value = getattr(self, name)
            if value is not None and not (isinstance(value, (int, float)) and value > 0):
                raise SettingError(name, repr(value), "more than 0")
        if self.strategy not in _STRATEGIES:
            raise SettingError("strategy", repr(self.strategy), f"one of {', '.join(_STRATEGIES)}")

    def _is_in(self, name, least, most):
        value = getattr(self, name)
        wanted = f"at least {least}" if most is None else f"{least} to {most}"
        try:
            number = operator.index(value)
        except TypeError:
            raise SettingError(name, repr(value), wanted) from None
        if number < least or most is not None and number > most:
            raise SettingError(name, value, wanted)

    def _check_weights(self):
        names = [it.name for it in OPERATIONS[self.kind]]
        wanted = f"numbers for operations of {', '.join(names)}, not all 0"
        weights = self.weights
        if weights is None:
            return
        if not isinstance(weights, dict) or not set(weights) <= set(names):
            raise SettingError("weights", weights, wanted)
        if any(not isinstance(it, int) or it < 0 for it in weights.values()):
            raise SettingError("weights", weights, wanted)
        if all(weights.get(it, 1) == 0 for it in names):
            raise SettingError("weights", weights, wanted)

    def _check_rule(self):
        if self.producers_and_consumers:
            if self.at_most_more_puts is not None:
                raise SettingError("at_most_more_puts", "said", "unsaid beside another rule")
            self._is_in("callers", 2, MAX_CALLERS)
            name = "producers_and_consumers"
        elif self.at_most_more_puts is not None:
            name = "at_most_more_puts"
        else:
            return
        operations = OPERATIONS[self.kind]
        if not any(it.effect is PUTS for it in operations):
            raise SettingError(name, "said", "unsaid for a kind without puts and takes")
        weights = self.weights or {}
        for effect in PUTS, TAKES:
            if not any(it.effect is effect and weights.get(it.name, 1) for it in operations):
                raise SettingError("weights", weights, "more than 0 for puts and for takes")

    def __repr__(self):
        """As code, with what scripts and schedules are made by."""
        always = (f"{it}={getattr(self, it)!r}" for it in ("callers", "calls", "seed"))
        words = [repr(self.kind), *always]
        usual = Settings.__init__.__kwdefaults__
        for name in (
            "weights",
            "values",
            "keys",
            "at_most_more_puts",
            "producers_and_consumers",
            "strategy",
            "change_points",
            "most_steps",
            "new_threads",
        ):
            if getattr(self, name) != usual[name]:
                words.append(f"{name}={getattr(self, name)!r}")
        return f"Settings({', '.join(words)})"

"""What each caller of a run calls."""

from .draw import Draw
from .kinds import PUTS, TAKES


class Values:
    """Draws the arguments of operations."""

    def __init__(self, draw, settings):
        self.draw = draw
        self._different = settings.different_values
        self._keys = settings.keys
        # values that no operation has yet
        self._fresh = []
        if self._different is None:
            self._fresh = list(range(1, settings.callers * settings.calls + 1))
            for place in range(len(self._fresh) - 1, 0, -1):
                other = draw.below(place + 1)
                self._fresh[place], self._fresh[other] = self._fresh[other], self._fresh[place]

    def value(self):
        if self._different is None:
            return self._fresh.pop()
        return 1 + self.draw.below(self._different)

    def key(self):
        return 1 + self.draw.below(self._keys)

    def old(self):
        """What a compare-and-swap compares with: 0, or a value."""
        return self.draw.below((self._different or 3) + 1)


class Script:
    """The calls of each caller, with the numbers that they have in the script that was drawn."""

    def __init__(self, callers):
        self.callers = callers

    @classmethod
    def drawn(cls, settings, run):
        """The script of a run, and what is drawn after it."""
        values = Values(Draw.of_run(settings.seed, run), settings)
        return cls([_calls_of(settings, it, values) for it in range(settings.callers)]), values.draw

    def calls(self):
        return sum(map(len, self.callers))

    def names(self):
        """The caller and the number of each call, as they were drawn."""
        callers = enumerate(self.callers)
        return [(caller, number) for caller, calls in callers for number, _ in calls]

    def part(self, names):
        """The calls with these names."""
        names = set(names)
        return Script(
            [
                [call for call in calls if (caller, call[0]) in names]
                for caller, calls in enumerate(self.callers)
            ]
        )

    def removed_with(self, settings, caller, place):
        """The names of calls that go with this one, by each way in which the rule still holds."""
        calls = self.callers[caller]
        own = caller, calls[place][0]
        if settings.at_most_more_puts is not None and place + 1 < len(calls):
            # a put and the take after it
            return [[own, (caller, calls[place + 1][0])]]
        if settings.producers_and_consumers:
            producers = len(self.callers) - len(self.callers) // 2
            others = range(producers, len(self.callers)) if caller < producers else range(producers)
            return [[own, (it, self.callers[it][-1][0])] for it in others if self.callers[it]]
        return [[own]]

    def __str__(self):
        lines = (
            f"caller {caller}:{','.join(' ' + text_of(op) for _, op in calls)}\n"
            for caller, calls in enumerate(self.callers)
        )
        return "".join(lines)


def text_of(op):
    return " ".join(map(str, op))


def _calls_of(settings, caller, values):
    inside, calls = 0, []
    role, count = _role_of(settings, caller)
    for number in range(count):
        it = _operation(settings, role, inside, values.draw)
        inside += 1 if it.effect is PUTS else -1 if it.effect is TAKES and inside else 0
        calls.append((number, (it.name, *(getattr(values, name)() for name in it.arguments))))
    return calls


# What alone a caller does, where it does one thing alone, and how many calls it has.
def _role_of(settings, caller):
    if not settings.producers_and_consumers:
        return None, settings.calls
    consumers = settings.callers // 2
    producers = settings.callers - consumers
    if caller >= producers:
        return TAKES, settings.calls
    every, more = divmod(settings.calls * consumers, producers)
    return PUTS, every + (caller < more)


# An operation by its weight, of those that the rule allows to a caller that has so many values in.
def _operation(settings, role, inside, draw):
    most = settings.at_most_more_puts

    def is_allowed(effect):
        if most is not None and effect is PUTS:
            return inside < most
        if most is not None and effect is TAKES:
            return inside > 0
        return role is None or role is effect

    allowed = settings.weighted
    if role is not None or most is not None:
        allowed = [(it, weight) for it, weight in allowed if is_allowed(it.effect)]
    place = draw.below(sum(weight for _, weight in allowed))
    for it, weight in allowed:
        if place < weight:
            return it
        place -= weight

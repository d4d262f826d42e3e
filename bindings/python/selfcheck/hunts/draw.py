"""A generator of numbers (Steele, Lea and Flood 2014), so that a seed draws the same everywhere."""

_MASK = 2**64 - 1


class Draw:
    def __init__(self, state):
        self._state = state & _MASK

    @classmethod
    def of_run(cls, seed, run):
        """The generator of one of the runs under a seed."""
        start = cls(seed).number() ^ cls(~run).number()
        return cls(cls(start).number())

    def number(self):
        """A number of 64 bits."""
        self._state = mixed = (self._state + 0x9E3779B97F4A7C15) & _MASK
        mixed = ((mixed ^ (mixed >> 30)) * 0xBF58476D1CE4E5B9) & _MASK
        mixed = ((mixed ^ (mixed >> 27)) * 0x94D049BB133111EB) & _MASK
        return mixed ^ (mixed >> 31)

    def below(self, bound):
        """A number below another one, which isn't 0."""
        return (self.number() * bound) >> 64

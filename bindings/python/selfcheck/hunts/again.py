"""Which run of a hunt is to come again."""


class NoRun(ValueError):
    """The text doesn't say which run is to come again. Nothing was run."""

    def __init__(self, text):
        super().__init__(
            f"no run is named by '{text}', as '412' or '412 calls 0.1 2.0 turns 1*1 2*5' does"
        )


class Again:
    """A run by its number, or a small one, by what is left of its script and its schedule.

    It is written and read as text: `412`, or `412 calls 0.1 2.0 turns 1*1 2*5 1*9`.
    """

    def __init__(self, run, calls=None, legs=None):
        self.run = run
        self.calls = calls
        self.legs = legs

    @classmethod
    def read(cls, text):
        run, *words = str(text).split() or [""]
        try:
            if not words:
                return cls(_number(run))
            turns = words.index("turns")
            if words[0] != "calls":
                raise ValueError(text)
            calls, legs = words[1:turns], words[turns + 1 :]
            calls, legs = [_pair(it, ".") for it in calls], [_pair(it, "*") for it in legs]
            return cls(_number(run), calls, legs)
        except ValueError:
            raise NoRun(text) from None

    def __str__(self):
        if self.legs is None:
            return str(self.run)
        calls = (f" {caller}.{call}" for caller, call in self.calls)
        legs = (f" {thread}*{turns}" for thread, turns in self.legs)
        return f"{self.run} calls{''.join(calls)} turns{''.join(legs)}"


def _number(word):
    if not word.isdecimal():
        raise ValueError(word)
    return int(word)


def _pair(word, between):
    first, second = word.split(between)
    return _number(first), _number(second)

"""What a hunt has found."""

from .again import Again

# How many steps are told with a finding; its folder has all.
_STEPS = 300


class Finding:
    """A run that is wrong, and a small one that is wrong in the same way.

    `trial` is the run as it was found, and `small` the small one: where `repeats` denies that it
    came again by its seed, they are the same. `small_book` is the smallest part of the small run's
    book that is illegal too, and None where the run isn't illegal. `explanation` is the text that
    says which rule of its kind that book breaks, or, if it breaks none, how far a legal order could begin. `again` brings the small run
    again, by `replay`.
    """

    def __init__(self, hunter, run, trial, repeats):
        self._line = hunter.line
        self.settings = hunter.settings
        self.run = run
        self.trial = self.small = trial
        self.repeats = repeats
        self.small_book = self.explanation = self.small_again = self.folder = None

    @property
    def found(self):
        return self.trial.found

    @property
    def again(self):
        return str(self.small_again or self.run)

    def made_small(self, small):
        self.small = small
        self.small_again = Again(self.run, small.script.names(), small.written)

    def line(self):
        """The code that brings the small run again, with what makes and calls the object."""
        return self._line(self.again)

    def __str__(self):
        """What is wrong, how it comes again, and the small run's steps."""
        lines = [self.trial.told]
        if self.repeats:
            lines.append(f"found by run {self.run}, and again by its seed:")
            lines.append(f"    {self._line(self.run)}")
        else:
            lines.append(f"found by run {self.run}; it didn't come again by its seed")
        if self.small_again:
            calls, switches = self.small.script.calls(), self.small.switches
            lines += [f"small: {calls} calls, {switches} switches:", f"    {self.line()}"]
        if self.folder:
            lines.append(f"written to {self.folder}")
        lines += ["", f"{self.small.script}", self.small.steps_text(_STEPS)]
        lines += [text for text in (self.explanation, self.small_book) if text]
        return "\n".join(lines)

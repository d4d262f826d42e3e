"""How a run ends."""

FINISHED, DEADLOCK, LIVELOCK = "finished", "deadlock", "livelock"
STEP_LIMIT, STUCK, EXCEPTION = "step-limit", "stuck", "exception"

_SENTENCES = {
    DEADLOCK: "deadlock: each thread waits, and none can go on",
    LIVELOCK: "livelock: threads move, and no call of theirs ends",
    STEP_LIMIT: "step limit: the run has no end",
    STUCK: "stuck: a thread hasn't come to its next step in time; it waits for something outside "
    "of the schedule, or computes for long",
    EXCEPTION: "exception",
}


class Ending:
    """A name in one word, and a line for each thread of which it tells.

    Of an exception `error` is the exception itself, and `place` is the line that raised it.
    """

    def __init__(self, name, threads=(), place=None, error=None):
        self.name = name
        self.threads = tuple(threads)
        self.place = place
        self.error = error

    def __eq__(self, other):
        return (self.name, self.threads) == (other.name, other.threads)

    def __str__(self):
        return "\n".join([_SENTENCES.get(self.name, self.name), *self.threads])

"""Who goes on, and for how many turns at the most: by a random walk, by priorities, or as written.

A chooser is given the numbers of the threads that can go on in rising order, the last one that
moved, and how many turns there were.
"""

# More turns than any run has.
FAR = 2**32 - 1


# For how many legs of others a thread rests at the most.
_RESTS = 8


class Walk:
    """A thread by chance, for as many turns in the mean as a call has.

    After half of such legs their thread rests for some legs of the others, and then it goes on: it
    rests within a call, while they make whole calls and end within further ones.
    """

    def __init__(self, draw, turns_of_call):
        self._draw = draw
        self._mean = max(3, turns_of_call)
        # who rests, and for how many legs more
        self._resting, self._legs = None, 0

    def choose(self, candidates, last, _turn):
        draw, thread = self._draw, None
        if self._resting is None and last in candidates and draw.below(2):
            self._resting, self._legs = last, 1 + draw.below(_RESTS)
        if self._legs > 0:
            self._legs -= 1
            candidates = [it for it in candidates if it != self._resting] or candidates
        else:
            thread, self._resting = self._resting, None
        if thread not in candidates:
            thread = candidates[draw.below(len(candidates))]
        return thread, 1 + draw.below(2 * self._mean - 1)

    def lower(self, _thread):
        pass


# Below all priorities that threads begin with lie those that they are lowered to.
_FIRST_PRIORITIES = 1 << 40


class Priorities:
    """The highest priority first; at each of some points whoever runs gets the lowest.

    Burckhardt and others 2010. The points are drawn among so many turns.
    """

    def __init__(self, draw, points, turns):
        self._draw = draw
        self._of_threads = []
        self._points = sorted(draw.below(max(turns, 1)) for _ in range(points))
        self._lowest = _FIRST_PRIORITIES

    def choose(self, candidates, last, turn):
        of_threads = self._of_threads
        while len(of_threads) <= candidates[-1]:
            of_threads.append(_FIRST_PRIORITIES + self._draw.below(_FIRST_PRIORITIES))
        is_point = False
        while self._points and self._points[0] <= turn:
            is_point |= self._points.pop(0) == turn
        if is_point and last in candidates:
            self.lower(last)
        thread = max(candidates, key=lambda it: (of_threads[it], it))
        return thread, self._points[0] - turn if self._points else FAR

    def lower(self, thread):
        if thread < len(self._of_threads):
            self._lowest -= 1
            self._of_threads[thread] = self._lowest


class Written:
    """Legs, each a thread and its turns, and after them each thread until it waits or ends."""

    def __init__(self, legs):
        self.legs = legs
        self._at = 0
        self._began = None

    def choose(self, candidates, last, turn):
        while self._at < len(self.legs):
            thread, turns = self.legs[self._at]
            if self._began is None:
                self._began = turn
            left = turns - (turn - self._began)
            if left > 0 and thread in candidates:
                return thread, left
            self._at, self._began = self._at + 1, None
        if last in candidates:
            return last, FAR
        return next((it for it in candidates if it > last), candidates[0]), FAR

    def lower(self, _thread):
        pass


def joined(legs):
    """Neighbours of one thread as one leg."""
    all_legs = []
    for thread, turns in legs:
        if all_legs and all_legs[-1][0] == thread:
            turns += all_legs.pop()[1]
        all_legs.append((thread, turns))
    return all_legs

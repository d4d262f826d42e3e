"""Hunts of the counters of points.c, in the shared library that is named."""

import ctypes
import sys

from selfcheck.hunts import Settings, hunt, replay, take_part

library = ctypes.CDLL(sys.argv[1])
take_part(library)


class Counter(ctypes.Structure):
    _fields_ = [("number", ctypes.c_uint32), ("locked", ctypes.c_uint32)]


def caller_of(export):
    export.restype, export.argtypes = ctypes.c_uint32, [ctypes.POINTER(Counter)]
    return lambda counter, _: export(counter)


settings = Settings("counter", seed=5, runs=1000)
torn = caller_of(library.torn_inc)
finding = hunt(settings, Counter, torn).finding
assert finding and finding.found == "illegal" and finding.repeats, finding
assert replay(settings, finding.again, Counter, torn).is_same(finding.small)
told = str(finding)
assert "selfcheck_point of " in told and "points.c:" in told, told
assert finding.small.switches == 1, told
quiet = hunt(Settings("counter", seed=5, runs=200), Counter, caller_of(library.locked_inc))
assert quiet.finding is None, quiet
endless = hunt(Settings("counter", callers=2), Counter, caller_of(library.endless_inc)).finding
assert endless.found == "livelock", endless
assert torn(Counter(7), "inc") == 7
print(told)

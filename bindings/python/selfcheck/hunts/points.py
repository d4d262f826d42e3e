"""Steps of C code, by `selfcheck_point()` of `bindings/c/selfcheck.h`."""

import ctypes
import sys

from .run import Abandon, current

_libraries = []
# A thread that comes to more points once its run is over stays there.
_MOST_AFTER_END = 1000


def take_part(library):
    """The points in this library's C code are steps of hunts from now on."""
    pointer = ctypes.c_void_p.in_dll(library, "selfcheck_at_point")
    _libraries.append((library, pointer))


@ctypes.CFUNCTYPE(None, ctypes.c_char_p, ctypes.c_int)
def _at_point(file, line):
    me = current()
    if me is None:
        return
    trace = sys.gettrace()
    sys.settrace(None)
    try:
        me.step(f"selfcheck_point of {file.decode(errors='replace')}:{line}")
    except Abandon:
        # C code can't be unwound: it goes on, but for a loop that waits for others
        me.points_after_end += 1
        while me.points_after_end > _MOST_AFTER_END:
            me.parker.acquire()
    finally:
        sys.settrace(trace)


def are_steps(whether):
    """Whether points are steps, or do nothing."""
    for _, pointer in _libraries:
        pointer.value = ctypes.cast(_at_point, ctypes.c_void_p).value if whether else None

"""The shared library, and how its functions are called."""

from __future__ import annotations

import ctypes
import numbers
import operator
import os
import sys
from pathlib import Path
from typing import Any

# Numbers to a circle, circles that a store holds at most, the same by the entries for the cell, circles that wait in a refinement at most, and the largest limit: no limit is felt.
WIDTH = 9
SLOTS = 1024
CELL_SLOTS = 256
WAITING = 64
NO_LIMIT = 2**32 - 1

# The endings in words.
WORDS = {
    0: "a result",
    1: "odd count of numbers, fewer than 2 points, or too many",
    2: "a number isn't finite, lies beyond 1,000,000, or is a radius or a circle's length along below zero",
    3: "a tolerance is out of its range",
    4: "a stated count, a place or an output doesn't fit",
    5: "cleaning leaves fewer than two points",
    6: "neighbouring points are no farther apart than the section tolerance, or lengths don't rise",
    7: "fewer than two circles",
    8: "the line has not exactly two hits",
    9: "a length along below 0 or above the whole",
    10: "a line is too long to be halved down to the tolerance",
    11: "a direction has length zero, or, by curvature, the camber line's ends meet",
    12: "a value on the way isn't finite",
    13: "the advance finds no line",
    14: "spent: one more unit is wanted than the limit",
    15: "no slot is free",
    16: "a 65th circle would wait in a refinement",
    17: "the section is closed",
    18: "a gap end lies behind the camber line's end",
    19: "camber line and gap are parallel",
    20: "the camber line misses the gap",
    21: "the stretch is empty: its lengths are too near, its end lies before its start, or under two points remain",
    22: "the split is for the other kind of section, open or closed",
    23: "the general tolerance is smaller than the section tolerance",
    24: "the record ends early, or has bytes left over",
    25: "a map of the record has one of bits 9 to 15, or a bit over a field that is zero",
    26: "the bytes are no whole numbers of eight, or more than 9,216 of them",
    27: "the state has over 64 waiting circles or a bad one, none while refining, some while advancing, no circle in use, or, while advancing, a fraction above 3",
}


def _path() -> Path:
    named = os.environ.get("RUMMYTEAK_LIBRARY")
    if named:
        return Path(named)
    return Path(__file__).resolve().parents[2] / "target" / "lib" / "librummyteak.so"


class NoLibrary(OSError):
    """The library can't be loaded, or lacks a function; in words."""


_loaded: Any = None

d, n, b, u = ctypes.c_double, ctypes.c_size_t, ctypes.c_bool, ctypes.c_uint32
P, N, B, U = ctypes.POINTER(d), ctypes.POINTER(n), ctypes.POINTER(b), ctypes.POINTER(u)


class StateCells(ctypes.Structure):
    """The state of a spent march as C has it."""

    _fields_ = [("refining", ctypes.c_uint64), ("fraction", ctypes.c_uint64), ("count", ctypes.c_uint64), ("waiting", d * (WAITING * WIDTH))]


S = ctypes.POINTER(StateCells)
_slice = [P, n]
_bytes = [ctypes.c_void_p, n]
_line = [d, d, d, d]

_arguments = {
    "sqrt": [d, P],
    "from_points": [*_slice, d, b, *_slice, N, B],
    "reversed": [*_slice, d, *_slice, N, B],
    "is_closed": [*_slice, d, B],
    "length": [*_slice, d, P],
    "at_front": [*_slice, d, P, N],
    "at_back": [*_slice, d, P, N],
    "at_vertex": [*_slice, d, n, P, N],
    "at_length": [*_slice, d, d, P, N],
    "at_closest_to_point": [*_slice, d, d, d, P, N],
    "length_along": [*_slice, d, n, d, P],
    "between_lengths": [*_slice, d, d, d, *_slice, N, B, N],
    "split_open_at_length": [*_slice, d, d, *_slice, *_slice, N, B, N],
    "split_closed_at_lengths": [*_slice, d, d, d, *_slice, *_slice, N, B, N],
    "crossing_line": [*_slice, d, *_line, P, N],
    "joined_crossing": [*_slice, d, *_line, P, N],
    "inscribed_from_crossing": [*_slice, d, d, *_line, P],
    "try_inscribed": [*_slice, d, d, *_line, P, N],
    "inscribed_refined": [*_slice, d, d, P, P, P, B],
    "refine_and_push": [*_slice, d, d, *_slice, n, P, u, N, U],
    "refine_and_push_cell": [*_slice, d, d, *_slice, n, P, u, N, U],
    "refine_all": [*_slice, d, d, *_slice, n, *_slice, n, u, N, U],
    "refine_all_cell": [*_slice, d, d, *_slice, n, *_slice, n, u, N, U],
    "march": [*_slice, d, d, *_line, *_slice, u, N, U, N, B, S],
    "march_cell": [*_slice, d, d, *_line, *_slice, u, N, U, N, B, S],
    "go_on": [*_slice, d, d, *_slice, n, S, u, N, U],
    "go_on_cell": [*_slice, d, d, *_slice, n, S, u, N, U],
    "extract_circles": [*_slice, d, d, *_line, *_slice, u, N, U],
    "thin": [*_slice, d, d, *_slice, n, u, N, U],
    "front_and_back": [*_slice, n, P, P],
    "index_of_tmax": [*_slice, n, N],
    "average_spacing": [*_slice, n, P],
    "end_clip_line": [*_slice, n, P],
    "reverse_points": [*_slice, n],
    "reverse_order_only": [*_slice, n],
    "reverse_order": [*_slice, n],
    "circles_from": [*_slice, n, n, N, N],
    "camber_curve": [*_slice, n, d, *_slice, N, B],
    "make_camber_curve": [d, d, d, d, *_slice, n, d, *_slice, N, B],
    "orient_tmax_fwd": [*_slice, n, B],
    "orient_airflow": [d, d, *_slice, n, B],
    "orient_fwd": [d, d, *_slice, n, B],
    "orient_curvature": [*_slice, n, B],
    "orient_upper": [d, d, *_slice, n, B],
    "orient_lower": [d, d, *_slice, n, B],
    "is_open_at_end": [*_slice, d, d, *_slice, n, b, B],
    "fit_open_edge": [*_slice, d, d, *_slice, n, b, u, P, N, U],
    "write_record": [*_slice, n, *_bytes, N],
    "read_record": [*_bytes, *_slice, N],
    "shuffle": [*_bytes, *_bytes],
    "unshuffle": [*_bytes, *_bytes],
    "transpose_words": [ctypes.POINTER(ctypes.c_uint64)],
}


def load() -> Any:
    """The library, loaded once; NoLibrary, which is an OSError, where that can't be."""
    global _loaded
    if _loaded is None:
        path = str(_path())
        try:
            library = ctypes.CDLL(path)
        except OSError as error:
            raise NoLibrary(f"the library can't be loaded: {error}. include/build builds it.") from None
        for name, arguments in _arguments.items():
            try:
                function = getattr(library, "rummyteak_" + name)
            except AttributeError:
                raise NoLibrary(f"{path} lacks rummyteak_{name}: it is another library, or one of another version. include/build builds it.") from None
            function.argtypes = arguments
            function.restype = u
        _loaded = library
    return _loaded


def is_masked(data: Any) -> bool:
    """Whether something in an array is masked, as in numpy.ma; a mask that covers nothing is none."""
    mask = getattr(data, "mask", None)
    if mask is None or callable(mask):
        return False
    try:
        return any(memoryview(mask).tobytes())
    except TypeError:
        return bool(mask)


def _is_complex(value: Any) -> bool:
    if isinstance(value, numbers.Complex):
        return not isinstance(value, numbers.Real)
    return getattr(getattr(value, "dtype", None), "kind", "") == "c"


def real(name: str, value: Any) -> float:
    """A number as a float; ctypes would take less and say less."""
    if isinstance(value, float):
        return float(value)
    if not isinstance(value, int):
        if is_masked(value):
            raise ValueError(f"{name}: a number is masked")
        if _is_complex(value):
            raise TypeError(f"{name}: {value!r} is complex, and not a real number")
    try:
        if not isinstance(value, (str, bytes, bytearray)):
            return float(value)
    except TypeError:
        pass
    except OverflowError:
        raise ValueError(f"{name}: {value!r} is beyond a float64") from None
    raise TypeError(f"{name}: {value!r} is not a number")


def whole(name: str, value: Any, most: int) -> int:
    """A whole number from 0 to `most`; ctypes would cut off what is beyond."""
    try:
        number = operator.index(value)
    except TypeError:
        raise TypeError(f"{name}: {value!r} is not a whole number") from None
    if not 0 <= number <= most:
        raise ValueError(f"{name}: {value!r} is not within 0 to {most}")
    return number


def _handed(name: str, kind: Any, value: Any) -> Any:
    if kind is d:
        return real(name, value)
    if kind is b:
        return bool(value)
    if kind is n or kind is u:
        return whole(name, value, 2 ** (8 * ctypes.sizeof(kind)) - 1)
    return ctypes.byref(value) if isinstance(value, (d, n, b, u, StateCells)) else value


# Above 1 the next number is a step away. Only where sums round to nearest, 1 and a quarter of the step, and 1 and three quarters of it, are two numbers. Half of the least normal number is subnormal.
_ONE, _QUARTER, _THREE_QUARTERS, _LEAST, _HALF = 1.0, sys.float_info.epsilon / 4, sys.float_info.epsilon * 0.75, sys.float_info.min, 0.5


def _strange_arithmetic() -> FloatingPointError:
    """Why this thread's arithmetic is not the one that the results are proved for."""
    if _ONE + _QUARTER == _ONE + _THREE_QUARTERS:
        why, how = "it does not round to nearest", "fesetround(FE_TONEAREST) sets that"
    else:
        why, how = "it takes subnormal numbers for zero", "a library built with -ffast-math may have set that for the whole process when it was loaded"
    return FloatingPointError(f"the floating-point arithmetic of this thread has been changed: {why} ({how}). Rummyteak's results hold with rounding to nearest and with subnormal numbers")


def call(name: str, *args: Any) -> int:
    """Calls rummyteak_NAME and returns its number. A single number to be written, and a state, is handed in as a ctypes object. Other threads run meanwhile. FloatingPointError where this thread doesn't round to
    nearest, or takes subnormal numbers for zero."""
    function = getattr(load(), "rummyteak_" + name)
    handed = [_handed(name, kind, value) for kind, value in zip(_arguments[name], args)]
    if _ONE + _QUARTER == _ONE + _THREE_QUARTERS or not _LEAST * _HALF:
        raise _strange_arithmetic()
    return int(function(*handed))

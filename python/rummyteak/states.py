"""Writes and reads the file of a march's state: what the march was handed and what it left, so that another run of the command goes on with it.

It is JSON, and each number in it reads back to the same bits. It knows the section by a checksum of its points, as they were read from their file. Of a march that isn't spent it says how that ended, and has
no state."""

from __future__ import annotations

import hashlib
import json
import math
import os
import sys
from array import array
from typing import Any, Callable, Dict, List, Optional

from . import NO_LIMIT, SLOTS, WIDTH, WORDS, Inscribed, Line2, MarchState
from .blade import Blade, Options, Paused
from .files import Unreadable, _shown
from .lists import bytes_of

# What the file is, and in which version.
FORMAT = "rummyteak march state 1"


def checksum(points: Any) -> str:
    """The SHA-256 of points: of eight bytes for each number, the least significant first."""
    numbers = array("d", points)
    if sys.byteorder == "big":
        numbers.byteswap()
    return hashlib.sha256(numbers.tobytes()).hexdigest()


def _finite(value: Any) -> Any:
    """The same with null for each number that isn't finite: no march that was spent has one."""
    if isinstance(value, float):
        return value if math.isfinite(value) else None
    return [_finite(x) for x in value] if isinstance(value, (list, tuple)) else value


def as_state(name: str, blade: Blade, options: Options, points: Any) -> str:
    """The file of a march, spent or not."""
    number = blade.number if blade.step in ("cleaning", "stretch", "circles") else 0
    state = blade.state if number == 14 else None
    everything: Dict[str, Any] = {
        "file": FORMAT,
        "section": name,
        "points_sha256": checksum(points),
        "section_tol": options.section_tol,
        "tol": options.tol,
        "force_closed": options.force_closed,
        "between": options.between,
        "line": blade.line,
        "line_given": options.line is not None,
        "slots": options.slots,
        "cell": options.cell,
        "limit": options.limit,
        "number": number,
        "ending": WORDS[number],
        "edges": blade.crossing.edges if blade.crossing else None,
        "units": blade.units,
        "circle": Inscribed._fields,
        "circles": blade.circles if state else None,
        "refining": state.refining if state else None,
        "fraction": state.fraction if state else None,
        "waiting": state.waiting if state else None,
    }
    rows = (f" {json.dumps(key)}: {json.dumps(_finite(value), allow_nan=False)}" for key, value in everything.items())
    return "{\n" + ",\n".join(rows) + "\n}\n"


# ---- reading


def _yes(value: Any) -> bool:
    if not isinstance(value, bool):
        raise ValueError
    return value


def _whole(most: int) -> Callable[[Any], int]:
    def read(value: Any) -> int:
        if isinstance(value, bool) or not isinstance(value, int) or not 0 <= value <= most:
            raise ValueError
        return value

    return read


def _real(value: Any) -> float:
    if isinstance(value, bool) or not isinstance(value, (int, float)):
        raise ValueError
    return float(value)


def _several(count: Optional[int], item: Callable[[Any], Any]) -> Callable[[Any], List[Any]]:
    """So many in a list, or any number of them."""

    def read(value: Any) -> List[Any]:
        if not isinstance(value, list) or len(value) != (len(value) if count is None else count):
            raise ValueError
        return [item(x) for x in value]

    return read


def _or_none(item: Callable[[Any], Any]) -> Callable[[Any], Any]:
    return lambda value: None if value is None else item(value)


def _circle(value: Any) -> Inscribed:
    return Inscribed(*_several(WIDTH, _real)(value))


def _text(value: Any) -> str:
    if not isinstance(value, str):
        raise ValueError
    return value


def _constant(word: str) -> float:
    raise ValueError(f"{word} is no number")


def _told(shown: str, data: bytes) -> Dict[str, Any]:
    """What a file says that is one of a march's state."""
    try:
        told = json.loads(data.decode("utf-8-sig"), parse_constant=_constant)
    except (ValueError, RecursionError) as error:
        raise Unreadable(f"{shown}: it is no file of a march's state, as --state writes it: {error}") from error
    if not isinstance(told, dict) or told.get("file") != FORMAT:
        raise Unreadable(f'{shown}: it is no file of a march\'s state, as --state writes it, or of another version: its "file" is not "{FORMAT}"')
    return told


def read_state(name: str, section: str, points: Any) -> Paused:
    """The march of a file, which is one on the section of that name and with these points; `-` is standard input."""
    shown = "standard input" if name == "-" else os.fsdecode(name)
    try:
        data = bytes_of(name)
    except (OSError, ValueError) as error:
        raise Unreadable(f"{shown}: {getattr(error, 'strerror', None) or error}") from error
    told = _told(shown, data)

    def taken(key: str, read: Callable[[Any], Any]) -> Any:
        try:
            return read(told[key])
        except (KeyError, ValueError, OverflowError):
            raise Unreadable(f'{shown}: in the file of a march\'s state, "{key}" is not there, or is not what --state writes') from None

    number = taken("number", _whole(max(WORDS)))
    if taken("points_sha256", _text) != checksum(points):
        raise Unreadable(f"{shown}: the march in it is on another section, {_shown(str(told.get('section')))}: its checksum is not that of the points of {section}")
    if number != 14:
        raise Unreadable(f"{shown}: the march in it is not spent, so that there is nothing to go on from; it ended with {number}: {WORDS[number]}")
    line = Line2(*taken("line", _several(4, _real)))
    between = taken("between", _or_none(_several(2, _real)))
    edges = taken("edges", _or_none(_several(2, _whole(2**64 - 1))))
    options = Options(
        taken("section_tol", _real),
        taken("tol", _real),
        taken("force_closed", _yes),
        (between[0], between[1]) if between else None,
        tuple(line) if taken("line_given", _yes) else None,
        limit=taken("limit", _whole(NO_LIMIT)),
        slots=taken("slots", _whole(SLOTS)),
        march=True,
        cell=taken("cell", _yes),
    )
    state = MarchState(taken("refining", _yes), taken("fraction", _whole(2**64 - 1)), tuple(taken("waiting", _several(None, _circle))))
    circles = tuple(taken("circles", _several(None, _circle)))
    return Paused(options, line, circles, taken("units", _whole(NO_LIMIT)), (edges[0], edges[1]) if edges else None, state)

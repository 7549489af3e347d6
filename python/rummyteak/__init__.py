"""Rummyteak: a measured blade section into inscribed circles, a camber line and an open-edge point.

Each function calls the proved library. What it refuses is an exception, Refused, with the number and its words. A run (refine_and_push, refine_all,
march, go_on, extract_circles, fit_open_edge, thin) that began returns its circles whichever way it ended. A march that was spent also returns its state, from which it goes on.

Points, and a section, may be a list of pairs, a flat list of numbers, a Curve2, or anything with the buffer protocol, flat or of pairs. A buffer of
contiguous float64 numbers (an array.array('d'), a numpy array) is read where it stands, and copied only where it is read-only; another one is converted.
Circles are any sequence of Inscribed. Bytes are
anything contiguous with the buffer protocol, copied only where it is read-only. A number of a wrong type is a TypeError, and so is a complex one, whatever its imaginary part. A whole number out of its
range, points that are no pairs, and an array in which something is masked, are a ValueError; an array with a mask that covers nothing is read as any other.

Nothing is kept between two calls but in what they return, and other threads run while the library works. The results hold with rounding to nearest and with subnormal numbers, as arithmetic is when a program starts; where that of the
calling thread has been changed, a call raises FloatingPointError. Where the library can't be loaded, or lacks a function, a call raises an OSError that says so.
"""

from __future__ import annotations

import ctypes
import sys
from array import array
from dataclasses import dataclass, field, replace
from typing import Any, Iterable, List, NamedTuple, Optional, Sequence, Tuple, Union

from ._library import CELL_SLOTS, NO_LIMIT, SLOTS, WAITING, WIDTH, WORDS, StateCells, call, is_masked, real, whole

__all__ = [
    "Refused", "Curve2", "Piece", "CurveStation2", "Line2", "Crossing", "Inscribed", "CircleOnLine", "Run", "MarchState", "GoneOn", "March", "Fit",
    "CELL_SLOTS", "NO_LIMIT", "SLOTS", "WAITING", "WIDTH", "WORDS",
    "sqrt", "from_points", "reversed", "is_closed", "length", "at_front", "at_back", "at_vertex", "at_length", "at_closest_to_point",
    "length_along", "between_lengths", "split_open_at_length", "split_closed_at_lengths", "crossing_line", "joined_crossing", "inscribed_from_crossing", "try_inscribed", "inscribed_refined",
    "refine_and_push", "refine_all", "march", "go_on", "extract_circles", "thin", "front_and_back", "index_of_tmax", "average_spacing", "end_clip_line",
    "reverse_points", "reverse_order_only", "reverse_order", "circles_from", "camber_curve", "make_camber_curve",
    "orient_tmax_fwd", "orient_airflow", "orient_fwd", "orient_curvature", "orient_upper", "orient_lower", "is_open_at_end", "fit_open_edge",
    "write_record", "read_record", "shuffle", "unshuffle", "transpose_words",
]


class Refused(Exception):
    """What the library refused: `number` is the ending, `words` say it."""

    def __init__(self, number: int) -> None:
        super().__init__(number)
        self.number = number
        self.words = WORDS.get(number, "an ending without a name")

    def __str__(self) -> str:
        return f"{self.number}: {self.words}"


@dataclass(frozen=True)
class Curve2:
    """A cleaned curve: its numbers x, y, x, y and so on, and whether its ends meet."""

    numbers: "array[float]"
    is_closed: bool

    def points(self) -> List[Tuple[float, float]]:
        """The points as pairs."""
        return list(zip(self.numbers[::2], self.numbers[1::2]))


@dataclass(frozen=True)
class Piece(Curve2):
    """A stretch cut out of a section: a cleaned curve, and how many points the cleaning was given."""

    given: int


@dataclass(frozen=True)
class CurveStation2:
    """A place on a section: its point, its direction, its edge and the fraction of it."""

    x: float
    y: float
    dx: float
    dy: float
    index: int
    fraction: float


class Line2(NamedTuple):
    """An origin and a direction."""

    ox: float
    oy: float
    dx: float
    dy: float


@dataclass(frozen=True)
class Crossing:
    """Where a line crosses a section: the line from the first hit to the second, and the edges of both."""

    line: Line2
    edges: Tuple[int, int]


class Inscribed(NamedTuple):
    """An inscribed circle: centre, radius, both contacts, and the lengths along of the section's nearest points to them, in stored order."""

    cx: float
    cy: float
    r: float
    p0x: float
    p0y: float
    p1x: float
    p1y: float
    l0: float
    l1: float

    @property
    def center(self) -> Tuple[float, float]:
        """The centre."""
        return (self.cx, self.cy)

    @property
    def radius(self) -> float:
        """The radius."""
        return self.r

    @property
    def p0(self) -> Tuple[float, float]:
        """The first contact."""
        return (self.p0x, self.p0y)

    @property
    def p1(self) -> Tuple[float, float]:
        """The second contact."""
        return (self.p1x, self.p1y)


@dataclass(frozen=True)
class CircleOnLine:
    """The circle on a line, and the edges of the line's crossing."""

    circle: Inscribed
    edges: Tuple[int, int]


@dataclass(frozen=True)
class Run:
    """A run that began: how it ended (0 finished, 14 spent, else refused), its circles, and the units it took. Those of a thinning are the kept ones where it
    finished, else all."""

    number: int
    circles: Tuple[Inscribed, ...]
    units: int

    @property
    def ending(self) -> str:
        """The ending in words."""
        return WORDS[self.number]


@dataclass(frozen=True, eq=False)
class MarchState:
    """The state of a spent march: whether it was refining or advancing, the number of the fraction that is due (0 to 3 while advancing; 0 while refining, and not read then), and the waiting circles,
    the newest last. It is a value that does not change, and may be pickled. Two are equal where all their bits are.

    One that is made by hand may hold any numbers: `go_on` refuses with 27 a state with over 64 waiting circles or a bad one, none while refining, some while advancing, or, while advancing, a fraction above 3."""

    refining: bool
    fraction: int
    waiting: Tuple[Inscribed, ...]

    def __post_init__(self) -> None:
        waiting = tuple(self.waiting)
        if any(isinstance(c, (int, float)) for c in waiting):
            raise TypeError(f"waiting: circles, of {WIDTH} numbers each, and not their numbers")
        circles = [tuple(real("waiting", x) for x in c) for c in waiting]
        if any(len(c) != WIDTH for c in circles):
            raise ValueError(f"waiting: a circle is {WIDTH} numbers")
        object.__setattr__(self, "refining", bool(self.refining))
        object.__setattr__(self, "fraction", whole("fraction", self.fraction, 2**64 - 1))
        object.__setattr__(self, "waiting", tuple(Inscribed(*c) for c in circles))

    def _bits(self) -> Tuple[bool, int, bytes]:
        return self.refining, self.fraction, array("d", [x for c in self.waiting for x in c]).tobytes()

    def __eq__(self, other: object) -> bool:
        return self._bits() == other._bits() if isinstance(other, MarchState) else NotImplemented

    def __hash__(self) -> int:
        return hash(self._bits())

    def __str__(self) -> str:
        if not self.refining:
            return f"advancing, fraction {self.fraction} due" + (f", {len(self.waiting)} waiting" if self.waiting else "")
        return f"refining, {len(self.waiting)} waiting"


@dataclass(frozen=True)
class _Handed:
    """What a march was handed and its going on is handed again: the section's numbers, both tolerances, the slots of the store, and whether the entry is the cell's."""

    section: bytes
    section_tol: float
    tol: float
    slots: int
    cell: bool


def _goes_on(run: Any, limit: int) -> Any:
    """A run that is spent, gone on with within a second limit: a run of the same kind, with the units of all."""
    if run.state is None:
        raise ValueError(f"this run has no state to go on from; it ended with {run.number}: {run.ending}")
    if run._handed is None:
        raise ValueError("it isn't known what this run was handed; go_on, the function, is handed all of it")
    h = run._handed
    more = go_on((ctypes.c_double * (len(h.section) // 8)).from_buffer_copy(h.section), h.section_tol, h.tol, run.circles, run.state, limit, h.slots, h.cell)
    return replace(run, number=more.number, circles=more.circles, units=run.units + more.units, state=more.state, _handed=more._handed)


@dataclass(frozen=True)
class GoneOn(Run):
    """A going on that began: a run, and its state where it is spent, else None. `units` are those from where it went on."""

    state: Optional[MarchState]
    _handed: Optional[_Handed] = field(default=None, repr=False, compare=False)

    def go_on(self, limit: int = NO_LIMIT) -> GoneOn:
        """The going on gone on with, within a further limit; a ValueError where it isn't spent, for then there is no state. It equals the one going on whose limit is the sum of both, where that is no
        more than NO_LIMIT. Section, tolerances, `slots` and `cell` are those that were handed in."""
        gone: GoneOn = _goes_on(self, limit)
        return gone


@dataclass(frozen=True)
class March(Run):
    """A march that began: a run, the edges of its line's crossing, None where the line has none, and its state where it is spent, else None."""

    edges: Optional[Tuple[int, int]]
    state: Optional[MarchState] = None
    _handed: Optional[_Handed] = field(default=None, repr=False, compare=False)

    def go_on(self, limit: int = NO_LIMIT) -> March:
        """The march gone on with, within a second limit; a ValueError where it isn't spent, for then there is no state.

        It equals the one march whose limit is the sum of both, where that is no more than NO_LIMIT: `units` are those of the whole so far, and `edges` those of its start. Where the sum is above
        NO_LIMIT no march has such a limit; each piece keeps to its own one, and units add up all the same. A march may be taken in any number of pieces.

        Section, tolerances, `slots` and `cell` are those of the march. They were copied when it was spent, so that the section may have changed since, and are pickled with it."""
        gone: March = _goes_on(self, limit)
        return gone


@dataclass(frozen=True)
class Fit:
    """An edge fit that began: how it ended, its point where it has one, the circles, and the units."""

    number: int
    point: Optional[Tuple[float, float]]
    circles: Tuple[Inscribed, ...]
    units: int

    @property
    def ending(self) -> str:
        """The ending in words."""
        return WORDS[self.number]


Points = Union[Curve2, Sequence[float], Sequence[Sequence[float]], Any]
Circles = Sequence[Inscribed]
Line = Union[Line2, Sequence[float]]


# ---- numbers in and out

_OWN_ORDER = "<" if sys.byteorder == "little" else ">"
_Single = ctypes.c_double * WIDTH
_Two = ctypes.c_size_t * 2
_Both = ctypes.c_bool * 2


def _flat(points: Iterable[Any]) -> Any:
    """The numbers of a list of numbers or of pairs, as a ctypes array."""
    if isinstance(points, (str, bytes, bytearray)):
        raise TypeError("points are numbers or pairs of numbers, not text or bytes")
    flat: List[float] = []
    in_pairs = False
    for k, item in enumerate(points):
        if k == 0:
            in_pairs = hasattr(item, "__len__") and not isinstance(item, str)
        if not in_pairs:
            flat.append(real("points", item))
            continue
        try:
            x, y = item
        except (TypeError, ValueError):
            raise ValueError(f"points: place {k} is no pair of numbers: {item!r}") from None
        flat += (real("points", x), real("points", y))
    return (ctypes.c_double * len(flat))(*flat)


def _unmasked(name: str, data: Any) -> None:
    """A mask says what is no measurement; the numbers under it are not taken for one."""
    if is_masked(data):
        raise ValueError(f"{name}: something in the array is masked; take out what is masked first")


def _numbers(points: Points) -> Any:
    """The numbers of the points as a ctypes array, which keeps them alive. A writable buffer of float64 numbers is not copied."""
    data: Any = points.numbers if isinstance(points, Curve2) else points
    try:
        view = memoryview(data)
    except TypeError:
        return _flat(data)
    _unmasked("points", view.obj)
    shape = view.shape or ()
    kind = view.format.lstrip("@=" + _OWN_ORDER)
    if kind.startswith("Z"):
        raise TypeError(f"points are real numbers: a buffer of format {view.format!r} holds complex ones")
    if kind in ("B", "b", "c", "?"):
        raise TypeError(f"points are numbers: a buffer of format {view.format!r} holds bytes")
    if len(shape) not in (1, 2) or (len(shape) == 2 and shape[1] != 2):
        raise ValueError(f"points are x, y pairs: a buffer of shape {shape} holds none")
    if kind == "d" and view.c_contiguous and view.nbytes:
        array_type = ctypes.c_double * (view.nbytes // 8)
        return array_type.from_buffer_copy(view) if view.readonly else array_type.from_buffer(view)
    try:
        return _flat(view.tolist())
    except NotImplementedError:
        return _flat(data)


def _stored(circles: Circles, slots: int = 0) -> Any:
    """A store of at least so many slots that begins with the circles."""
    flat = [x for c in circles for x in c]
    if any(len(c) != WIDTH for c in circles):
        raise ValueError(f"a circle is {WIDTH} numbers")
    if any(type(x) is not float for x in flat):
        flat = [real("circles", x) for x in flat]
    store: Any = (ctypes.c_double * max(WIDTH * whole("slots", slots, 2**31), len(flat)))()
    store[: len(flat)] = flat
    return store


def _circles(store: Any, count: int) -> Tuple[Inscribed, ...]:
    flat = store[: WIDTH * count]
    return tuple(Inscribed(*flat[k : k + WIDTH]) for k in range(0, len(flat), WIDTH))


def _ask(name: str, *args: Any) -> None:
    number = call(name, *args)
    if number:
        raise Refused(number)


def _line(line: Line) -> Tuple[Any, Any, Any, Any]:
    try:
        ox, oy, dx, dy = line
    except (TypeError, ValueError):
        raise ValueError(f"a line is four numbers, an origin and a direction, not {line!r}") from None
    return ox, oy, dx, dy


# ---- the square root


def sqrt(x: float) -> float:
    """The correctly rounded square root."""
    root = ctypes.c_double()
    _ask("sqrt", x, root)
    return root.value


# ---- cleaning


def from_points(points: Points, tol: float, force_closed: bool = False) -> Curve2:
    """The cleaned curve of the points."""
    p = _numbers(points)
    out = (ctypes.c_double * (len(p) + 2))()
    count, closed = ctypes.c_size_t(), ctypes.c_bool()
    _ask("from_points", p, len(p), tol, force_closed, out, len(out), count, closed)
    return Curve2(array("d", out[: 2 * count.value]), closed.value)


def reversed(section: Points, tol: float) -> Curve2:
    """The section's points backwards."""
    p = _numbers(section)
    out = (ctypes.c_double * len(p))()
    count, closed = ctypes.c_size_t(), ctypes.c_bool()
    _ask("reversed", p, len(p), tol, out, len(out), count, closed)
    return Curve2(array("d", out[: 2 * count.value]), closed.value)


# ---- a section


def is_closed(section: Points, tol: float) -> bool:
    """Whether the ends meet within the tolerance."""
    p = _numbers(section)
    answer = ctypes.c_bool()
    _ask("is_closed", p, len(p), tol, answer)
    return answer.value


def length(section: Points, tol: float) -> float:
    """The length of the whole."""
    p = _numbers(section)
    answer = ctypes.c_double()
    _ask("length", p, len(p), tol, answer)
    return answer.value


def _station(name: str, section: Points, tol: float, *place: Any) -> CurveStation2:
    p = _numbers(section)
    numbers, index = (ctypes.c_double * 5)(), ctypes.c_size_t()
    _ask(name, p, len(p), tol, *place, numbers, index)
    x, y, dx, dy, fraction = numbers
    return CurveStation2(x, y, dx, dy, index.value, fraction)


def at_front(section: Points, tol: float) -> CurveStation2:
    """The station at the first point."""
    return _station("at_front", section, tol)


def at_back(section: Points, tol: float) -> CurveStation2:
    """The station at the last point."""
    return _station("at_back", section, tol)


def at_vertex(section: Points, tol: float, vertex: int) -> CurveStation2:
    """The station at a vertex."""
    return _station("at_vertex", section, tol, vertex)


def at_length(section: Points, tol: float, length: float) -> CurveStation2:
    """The station at a length along."""
    return _station("at_length", section, tol, length)


def at_closest_to_point(section: Points, tol: float, x: float, y: float) -> CurveStation2:
    """The nearest station to a point."""
    return _station("at_closest_to_point", section, tol, x, y)


def length_along(section: Points, tol: float, index: int, fraction: float) -> float:
    """The length along of a fraction of an edge."""
    p = _numbers(section)
    answer = ctypes.c_double()
    _ask("length_along", p, len(p), tol, index, fraction, answer)
    return answer.value


# ---- a stretch of a section


def between_lengths(section: Points, tol: float, l0: float, l1: float) -> Piece:
    """The part from one length along to another. Of a closed section it runs over the seam where the end's length along, as worked out from its edge and fraction, lies before the start's: so where `l1`
    is below `l0`, unless it is by so little that both come out the same; then there is no way round, but 21 or a piece of almost no length."""
    p = _numbers(section)
    out = (ctypes.c_double * (len(p) + 2))()
    count, closed, given = ctypes.c_size_t(), ctypes.c_bool(), ctypes.c_size_t()
    _ask("between_lengths", p, len(p), tol, l0, l1, out, len(out), count, closed, given)
    return Piece(array("d", out[: 2 * count.value]), closed.value, given.value)


def _split(name: str, section: Points, tol: float, *lengths: float) -> Tuple[Piece, Piece]:
    p = _numbers(section)
    first, second = (ctypes.c_double * (len(p) + 2))(), (ctypes.c_double * (len(p) + 2))()
    counts, closed, given = _Two(), _Both(), _Two()
    _ask(name, p, len(p), tol, *lengths, first, len(first), second, len(second), counts, closed, given)
    return (
        Piece(array("d", first[: 2 * counts[0]]), closed[0], given[0]),
        Piece(array("d", second[: 2 * counts[1]]), closed[1], given[1]),
    )


def split_open_at_length(section: Points, tol: float, at: float) -> Tuple[Piece, Piece]:
    """An open section split at a length along."""
    return _split("split_open_at_length", section, tol, at)


def split_closed_at_lengths(section: Points, tol: float, l0: float, l1: float) -> Tuple[Piece, Piece]:
    """A closed section split at two lengths along: from the first to the second, and from the second to the first."""
    return _split("split_closed_at_lengths", section, tol, l0, l1)


# ---- where a line crosses


def _crossing(name: str, section: Points, tol: float, line: Line) -> Crossing:
    p = _numbers(section)
    numbers, edges = (ctypes.c_double * 4)(), _Two()
    _ask(name, p, len(p), tol, *_line(line), numbers, edges)
    return Crossing(Line2(*numbers), (edges[0], edges[1]))


def crossing_line(section: Points, tol: float, line: Line) -> Crossing:
    """The crossing of a line that has exactly two hits: from the first to the second, with their edges."""
    return _crossing("crossing_line", section, tol, line)


def joined_crossing(section: Points, tol: float, line: Line) -> Crossing:
    """The same with near hits on neighbouring edges counted as one."""
    return _crossing("joined_crossing", section, tol, line)


# ---- one circle or two


def inscribed_from_crossing(section: Points, section_tol: float, tol: float, line: Line) -> Inscribed:
    """The circle of a line that is a crossing."""
    p = _numbers(section)
    numbers = _Single()
    _ask("inscribed_from_crossing", p, len(p), section_tol, tol, *_line(line), numbers)
    return Inscribed(*numbers)


def try_inscribed(section: Points, section_tol: float, tol: float, line: Line) -> CircleOnLine:
    """The circle on a line, with the edges of the line's crossing."""
    p = _numbers(section)
    numbers, edges = _Single(), _Two()
    _ask("try_inscribed", p, len(p), section_tol, tol, *_line(line), numbers, edges)
    return CircleOnLine(Inscribed(*numbers), (edges[0], edges[1]))


def inscribed_refined(section: Points, section_tol: float, tol: float, a: Inscribed, b: Inscribed) -> Optional[Inscribed]:
    """The trial between two circles, a the earlier: the circle to add, or None."""
    p = _numbers(section)
    numbers, added = _Single(), ctypes.c_bool()
    _ask("inscribed_refined", p, len(p), section_tol, tol, _stored([a]), _stored([b]), numbers, added)
    return Inscribed(*numbers) if added.value else None


# ---- runs within a limit of units


# Stands in a count where a run that is refused on entry writes nothing.
_UNTOLD = 2**64 - 1
# The ending with which a march and a going on write their state.
_SPENT = 14


def _run(name: str, store: Any, *args: Any, more: Sequence[Any] = ()) -> Run:
    count, units = ctypes.c_size_t(_UNTOLD), ctypes.c_uint32()
    number = call(name, *args, count, units, *more)
    if count.value == _UNTOLD:
        raise Refused(number)
    return Run(number, _circles(store, count.value), units.value)


def _entry(name: str, cell: bool, slots: Optional[int]) -> Tuple[str, int]:
    """The entry that is called, and the slots of its store: as many as it holds at most, where nothing else is said."""
    most = CELL_SLOTS if cell else SLOTS
    return (name + "_cell" if cell else name, most if slots is None else slots)


def refine_and_push(
    section: Points, section_tol: float, tol: float, circles: Circles, circle: Inscribed, limit: int = NO_LIMIT, slots: Optional[int] = None, cell: bool = False
) -> Run:
    """A circle offered to a list, refined until none waits.

    The store has `slots` slots, and as many as there are circles where these are more. It holds at most SLOTS circles, or with `cell`, by the entry
    for the cell, CELL_SLOTS, and has as many slots where `slots` isn't given. Slots beyond that are lent and not used: with `cell` the 257th circle
    that would be accepted is 15, and a list of 257 is refused with 4, whatever `slots` is."""
    p = _numbers(section)
    name, size = _entry("refine_and_push", cell, slots)
    store = _stored(circles, size)
    return _run(name, store, p, len(p), section_tol, tol, store, len(store), len(circles), _stored([circle]), limit)


def refine_all(
    section: Points, section_tol: float, tol: float, circles: Circles, offered: Circles, limit: int = NO_LIMIT, slots: Optional[int] = None, cell: bool = False
) -> Run:
    """The circles of a list, `offered`, offered in order to another, `circles`, each refined until none waits before the next is offered, within one limit of
    units over all.

    Store, `slots` and `cell` are as in `refine_and_push`; the list that is offered may have up to SLOTS circles with `cell` too, and more are refused with 4.
    All of it is tested before its first circle is offered. The run has the circles of all refinements together, and their units. Where it is spent or refused
    it has those that were accepted before, and no circle behind is offered.

    The circles of one march, whichever way it ended, offered to an empty list with the march's section, tolerances, `slots` and `cell`, and a limit of at least
    one unit fewer than there are circles, are the same list, bit for bit, for one unit fewer than there are circles. An empty list takes no unit. Of the
    circles of an extraction that is not promised: some may be added where its halves meet, and in its first half, which was turned."""
    p = _numbers(section)
    name, size = _entry("refine_all", cell, slots)
    store, given = _stored(circles, size), _stored(offered)
    return _run(name, store, p, len(p), section_tol, tol, store, len(store), len(circles), given, len(given), len(offered), limit)


def _cells(state: MarchState) -> StateCells:
    """A state as C has it. Where more circles wait than it holds, the count says how many they are, and the first ones are handed in."""
    cells = StateCells(state.refining, state.fraction, len(state.waiting))
    flat = [x for c in state.waiting[:WAITING] for x in c]
    cells.waiting[: len(flat)] = flat
    return cells


def _paused(number: int, cells: StateCells, section: Any, section_tol: float, tol: float, store: Any, cell: bool) -> Tuple[Optional[MarchState], Optional[_Handed]]:
    """The state that a march or a going on wrote, and what its going on is handed, where it is spent."""
    if number != _SPENT:
        return None, None
    state = MarchState(bool(cells.refining), cells.fraction, _circles(cells.waiting, cells.count))
    return state, _Handed(bytes(section), real("section_tol", section_tol), real("tol", tol), len(store) // WIDTH, bool(cell))


def march(
    section: Points, section_tol: float, tol: float, line: Line, limit: int = NO_LIMIT, slots: Optional[int] = None, cell: bool = False
) -> March:
    """The circles on one side of a line, to the right as it points, and the edges of the line's crossing.

    The store has `slots` slots. It holds at most SLOTS circles, or with `cell`, by the entry for the cell, CELL_SLOTS, and has as many slots where
    `slots` isn't given. Slots beyond that are lent and not used: with `cell` the 257th circle that would be accepted is 15, whatever `slots` is."""
    p = _numbers(section)
    name, size = _entry("march", cell, slots)
    store = _stored((), size)
    edges, found, cells = _Two(), ctypes.c_bool(), StateCells()
    run = _run(name, store, p, len(p), section_tol, tol, *_line(line), store, len(store), limit, more=(edges, found, cells))
    state, handed = _paused(run.number, cells, p, section_tol, tol, store, cell)
    return March(run.number, run.circles, run.units, (edges[0], edges[1]) if found.value else None, state, handed)


def go_on(
    section: Points, section_tol: float, tol: float, circles: Circles, state: MarchState, limit: int = NO_LIMIT, slots: Optional[int] = None, cell: bool = False
) -> GoneOn:
    """A march that was spent gone on with, from its circles and its state, within a second limit: for a state that was kept elsewhere. A march that is at hand has `go_on` for this.

    With the march's section, tolerances, `slots` and `cell`, and the circles and the state that it returned, untouched: number and circles, and the state where this run is spent too, are those of one march
    whose limit is the sum of both, where that is no more than NO_LIMIT; the units of the march and of this call add up to its units. The edges come with the march alone. With limit 0 it is spent, and state
    and circles are what was handed in. With anything else this is a result or a refusal as any other is, and nothing is promised of a march.

    Store, `slots` and `cell` are as in `refine_and_push`. 27 is a state with over 64 waiting circles or a bad one, none while refining, some while advancing, no circle in use, or, while advancing, a fraction above 3; it is tested after 4 and before 6."""
    if not isinstance(state, MarchState):
        raise TypeError(f"state: a MarchState, not {state!r}")
    p = _numbers(section)
    name, size = _entry("go_on", cell, slots)
    store, cells = _stored(circles, size), _cells(state)
    run = _run(name, store, p, len(p), section_tol, tol, store, len(store), len(circles), cells, limit)
    return GoneOn(run.number, run.circles, run.units, *_paused(run.number, cells, p, section_tol, tol, store, cell))


def extract_circles(section: Points, section_tol: float, tol: float, line: Line, limit: int = NO_LIMIT, slots: int = SLOTS) -> Run:
    """The circles on both sides of a line."""
    p = _numbers(section)
    store = _stored((), slots)
    return _run("extract_circles", store, p, len(p), section_tol, tol, *_line(line), store, len(store), limit)


def thin(section: Points, section_tol: float, tol: float, circles: Circles, limit: int = NO_LIMIT) -> Run:
    """The circles of a finished march thinned, with the section and the tolerances of the march.

    It goes from the front: a circle between the first and the last is dropped where `inscribed_refined` of the last kept circle before it and the circle
    behind it is None, else it is kept; the first and the last are kept. Each such trial is one unit, so that a thinning that finishes takes as many units as
    there are circles between the first and the last. The run then has the kept circles, in their order and as they were. Where it is spent (14), or refused
    in a trial (10, 11, 12), it has all circles as they were. If no neighbouring pair would be refined before, none would be after. Circles that were thinned
    may become fewer still by a second thinning.

    A list of more than SLOTS circles is refused with 4. In the store that the library works on, the slots that are freed become zero. A list of circles has
    no slots, so nothing of that is to be seen here: what was dropped is what `circles` has and the run has not. A list that was thinned is handed to
    `refine_and_push` as any other, and the slots of its store behind the kept circles are free."""
    p = _numbers(section)
    store = _stored(circles)
    return _run("thin", store, p, len(p), section_tol, tol, store, len(store), len(circles), limit)


# ---- a list of circles


def front_and_back(circles: Circles) -> Tuple[Inscribed, Inscribed]:
    """The first and the last circle."""
    store = _stored(circles)
    front, back = _Single(), _Single()
    _ask("front_and_back", store, len(store), len(circles), front, back)
    return Inscribed(*front), Inscribed(*back)


def index_of_tmax(circles: Circles) -> int:
    """The place of the thickest circle, the last of equal ones."""
    store, place = _stored(circles), ctypes.c_size_t()
    _ask("index_of_tmax", store, len(store), len(circles), place)
    return place.value


def average_spacing(circles: Circles) -> float:
    """The average distance of neighbouring centres."""
    store, spacing = _stored(circles), ctypes.c_double()
    _ask("average_spacing", store, len(store), len(circles), spacing)
    return spacing.value


def end_clip_line(circles: Circles) -> Line2:
    """The clip line at the last circles."""
    store, numbers = _stored(circles), (ctypes.c_double * 4)()
    _ask("end_clip_line", store, len(store), len(circles), numbers)
    return Line2(*numbers)


def _turned(name: str, circles: Circles) -> Tuple[Inscribed, ...]:
    store = _stored(circles)
    _ask(name, store, len(store), len(circles))
    return _circles(store, len(circles))


def reverse_points(circles: Circles) -> Tuple[Inscribed, ...]:
    """Both contacts of each circle swapped."""
    return _turned("reverse_points", circles)


def reverse_order_only(circles: Circles) -> Tuple[Inscribed, ...]:
    """The order turned; each circle keeps its contacts."""
    return _turned("reverse_order_only", circles)


def reverse_order(circles: Circles) -> Tuple[Inscribed, ...]:
    """The order turned and the contacts swapped."""
    return _turned("reverse_order", circles)


def circles_from(circles: Circles, place: int) -> Tuple[Inscribed, ...]:
    """The circles from a place on."""
    store = _stored(circles)
    first, numbers = ctypes.c_size_t(), ctypes.c_size_t()
    _ask("circles_from", store, len(store), len(circles), place, first, numbers)
    return tuple(circles[first.value // WIDTH : (first.value + numbers.value) // WIDTH])


# ---- camber curves


def _curve(name: str, ends: Sequence[float], circles: Circles, tol: float) -> Curve2:
    store = _stored(circles)
    out = (ctypes.c_double * (2 * len(circles) + len(ends) + 2))()
    kept, closed = ctypes.c_size_t(), ctypes.c_bool()
    _ask(name, *ends, store, len(store), len(circles), tol, out, len(out), kept, closed)
    return Curve2(array("d", out[: 2 * kept.value]), closed.value)


def camber_curve(circles: Circles, tol: float) -> Curve2:
    """The curve through the centres."""
    return _curve("camber_curve", (), circles, tol)


def make_camber_curve(le_point: Tuple[float, float], te_point: Tuple[float, float], circles: Circles, tol: float) -> Curve2:
    """The same from the leading edge point to the trailing edge point."""
    (le_x, le_y), (te_x, te_y) = le_point, te_point
    return _curve("make_camber_curve", (le_x, le_y, te_x, te_y), circles, tol)


# ---- orientation


def _oriented(name: str, vector: Sequence[float], circles: Circles) -> Tuple[Tuple[Inscribed, ...], bool]:
    store, yes = _stored(circles), ctypes.c_bool()
    _ask(name, *vector, store, len(store), len(circles), yes)
    return _circles(store, len(circles)), yes.value


def orient_tmax_fwd(circles: Circles) -> Tuple[Tuple[Inscribed, ...], bool]:
    """Leading edge first, by the greatest radius; and whether the order was turned."""
    return _oriented("orient_tmax_fwd", (), circles)


def orient_airflow(circles: Circles, x: float, y: float) -> Tuple[Tuple[Inscribed, ...], bool]:
    """Leading edge first, by a vector along the airflow."""
    return _oriented("orient_airflow", (x, y), circles)


def orient_fwd(circles: Circles, x: float, y: float) -> Tuple[Tuple[Inscribed, ...], bool]:
    """Leading edge first, by a vector that points forward."""
    return _oriented("orient_fwd", (x, y), circles)


def orient_curvature(circles: Circles) -> Tuple[Tuple[Inscribed, ...], bool]:
    """Second contact on the upper side, by the side to which the camber bends; and whether the contacts were swapped. A camber line whose ends lie within its tolerance of each other is 11; it is the curve
    through the centres, and its tolerance a twentieth of the average distance of neighbouring ones."""
    return _oriented("orient_curvature", (), circles)


def orient_upper(circles: Circles, x: float, y: float) -> Tuple[Tuple[Inscribed, ...], bool]:
    """Second contact on the upper side, by a vector to it."""
    return _oriented("orient_upper", (x, y), circles)


def orient_lower(circles: Circles, x: float, y: float) -> Tuple[Tuple[Inscribed, ...], bool]:
    """Second contact on the upper side, by a vector to the lower."""
    return _oriented("orient_lower", (x, y), circles)


# ---- the open edge


def is_open_at_end(section: Points, section_tol: float, tol: float, circles: Circles, at_front: bool) -> bool:
    """Whether the section is open at one end of its circles."""
    p = _numbers(section)
    store, answer = _stored(circles), ctypes.c_bool()
    _ask("is_open_at_end", p, len(p), section_tol, tol, store, len(store), len(circles), at_front, answer)
    return answer.value


def fit_open_edge(
    section: Points, section_tol: float, tol: float, circles: Circles, at_front: bool, limit: int = NO_LIMIT, slots: int = SLOTS
) -> Fit:
    """The point where the camber line meets the gap, and the circles on the way to it."""
    p = _numbers(section)
    store = _stored(circles, slots)
    point = (ctypes.c_double * 2)()
    run = _run("fit_open_edge", store, p, len(p), section_tol, tol, store, len(store), len(circles), at_front, limit, point)
    return Fit(run.number, (point[0], point[1]) if run.number == 0 else None, run.circles, run.units)


# ---- the hand-over record


# The bytes of a record: of its count, and of one circle at most.
_COUNT_BYTES, _CIRCLE_BYTES = 2, 2 + 8 * WIDTH


def _bytes_of(name: str, data: Any) -> Any:
    """The bytes of a buffer as a ctypes array, which keeps them alive."""
    try:
        view = memoryview(data)
    except TypeError:
        raise TypeError(f"{name}: bytes, or a buffer of numbers, not {data!r}") from None
    _unmasked(name, view.obj)
    if not view.c_contiguous:
        raise ValueError(f"{name}: the buffer isn't contiguous")
    array_type = ctypes.c_uint8 * view.nbytes
    return array_type.from_buffer_copy(view) if view.readonly or not view.nbytes else array_type.from_buffer(view)


def write_record(circles: Circles) -> bytes:
    """The circles as a hand-over record: a count, then per circle a map of its numbers and those that aren't +0, each the least significant byte first."""
    store = _stored(circles)
    out = (ctypes.c_uint8 * (_COUNT_BYTES + _CIRCLE_BYTES * len(circles)))()
    written = ctypes.c_size_t()
    _ask("write_record", store, len(store), len(circles), out, len(out), written)
    return bytes(out[: written.value])


def read_record(data: Any, slots: int = SLOTS) -> Tuple[Inscribed, ...]:
    """The circles of a hand-over record, at most so many."""
    given = _bytes_of("read_record", data)
    store = _stored((), slots)
    count = ctypes.c_size_t()
    _ask("read_record", given, len(given), store, len(store), count)
    return _circles(store, count.value)


# ---- stored numbers as bytes


def _rearranged(name: str, data: Any) -> bytes:
    given = _bytes_of(name, data)
    out = type(given)()
    _ask(name, given, len(given), out, len(out))
    return bytes(out)


def shuffle(data: Any) -> bytes:
    """Numbers of eight bytes, sorted by byte place: byte i of number k of n goes to place i × n + k."""
    return _rearranged("shuffle", data)


def unshuffle(data: Any) -> bytes:
    """The inverse of shuffle: byte i of number k of n comes from place i × n + k."""
    return _rearranged("unshuffle", data)


def transpose_words(words: Iterable[int]) -> Tuple[int, ...]:
    """Eight 64-bit words turned: byte i of word k, counted from the least significant, becomes byte k of word i."""
    given = [whole("words", word, 2**64 - 1) for word in words]
    if len(given) != 8:
        raise ValueError(f"words: eight are turned, not {len(given)}")
    turned = (ctypes.c_uint64 * 8)(*given)
    _ask("transpose_words", turned)
    return tuple(turned)

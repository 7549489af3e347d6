"""One section through all steps: cleaned, cut where a stretch of it is wanted, its circles found, oriented, its open edge fitted, its circles thinned where that is wanted, its camber line drawn.
Where one march is wanted, its circles lie on one side of the reference line and stay as the march left them: no orientation, no open edge.
Where a march that was spent is gone on with, what comes is what one march with the sum of the limits gives.
Where circles come from a file, they are offered in its order to an empty list in place of finding any, and stay in that order: no reference line, no orientation, no open edge.

No rule stands here but which call follows which, and where the reference line is without one: across the middle of the longest chord."""

from __future__ import annotations

import math
from array import array
from contextlib import suppress
from dataclasses import dataclass, replace
from typing import Any, List, Optional, Sequence, Tuple

import rummyteak as rt

Pair = Tuple[float, float]


@dataclass(frozen=True)
class Options:
    """Every argument of the calls. Without a line it is across the middle of the longest chord; without `fwd` and `airflow` the greatest radius orients;
    `end` is auto, front, back or none. With `march` the circles are those of one march, to the right of the line as it points, and with `cell` too of one
    by the entry for the cell. What only an extraction has doesn't go with a march, nor `cell` without one: that is a ValueError. With `thin_circles` the
    circles are thinned behind all other runs, in the order that they have then. With `from_file` the circles are those of a file, the name of which it is; they
    are offered to an empty list, with `cell` by the entry for the cell. A line, and what a march doesn't go with, don't go with that: a ValueError too."""

    section_tol: float = 0.001
    tol: float = 0.01
    force_closed: bool = False
    between: Optional[Pair] = None
    line: Optional[Tuple[float, float, float, float]] = None
    fwd: Optional[Pair] = None
    airflow: Optional[Pair] = None
    curvature: bool = False
    upper: Optional[Pair] = None
    lower: Optional[Pair] = None
    end: str = "auto"
    limit: int = rt.NO_LIMIT
    slots: int = rt.SLOTS
    march: bool = False
    cell: bool = False
    thin_circles: bool = False
    from_file: Optional[str] = None

    def __post_init__(self) -> None:
        is_turned = bool(self.fwd or self.airflow or self.curvature or self.upper or self.lower or self.end in ("front", "back"))
        if self.cell and not self.keeps_order:
            raise ValueError("an extraction has no entry for the cell: cell goes with march or from")
        if self.march and is_turned:
            raise ValueError("one march gives one side, as it was marched: fwd, airflow, curvature, upper, lower, and an end that is fitted, don't go with march")
        if self.from_file is not None and (is_turned or self.march or self.line is not None):
            raise ValueError("circles from a file stay in its order, and none are sought: march, line, fwd, airflow, curvature, upper, lower, and an end that is fitted, don't go with from")

    @property
    def keeps_order(self) -> bool:
        """Whether the circles stay in the order in which they were marched or handed in."""
        return self.march or self.from_file is not None

    @property
    def held(self) -> int:
        """The slots that the circles have: no more than the entry's store holds."""
        return min(self.slots, rt.CELL_SLOTS if self.cell else rt.SLOTS)


@dataclass(frozen=True)
class Paused:
    """A march that was spent, and what going on with it takes: the options that it was taken with, `limit` being the sum of all its limits, its line, and what it left."""

    options: Options
    line: rt.Line2
    circles: Tuple[rt.Inscribed, ...]
    units: int
    edges: Optional[Tuple[int, int]]
    state: rt.MarchState


@dataclass
class Blade:
    """What came of a section. `number` is the first ending that isn't 0, and `step` the call that it came from; the steps behind it were not taken,
    but what its circles give is drawn. `circles` are the kept ones where they were thinned, and what is told of them is of these; `dropped` are the others,
    in their order, and None where no thinning finished. `unthinned` are greatest thickness and camber length of the circles before they were thinned. `state` is
    that of a spent march."""

    points: int = 0
    march: bool = False
    cell: bool = False
    slots: int = rt.SLOTS
    from_file: Optional[str] = None
    offered: Optional[int] = None
    curve: Optional[rt.Curve2] = None
    stretch: Optional[rt.Piece] = None
    line: Optional[rt.Line2] = None
    line_given: bool = False
    crossing: Optional[rt.Crossing] = None
    circles: Tuple[rt.Inscribed, ...] = ()
    units: int = 0
    state: Optional[rt.MarchState] = None
    dropped: Optional[Tuple[rt.Inscribed, ...]] = None
    thin_units: Optional[int] = None
    unthinned: Optional[Pair] = None
    turned: Optional[bool] = None
    swapped: Optional[bool] = None
    edge: Optional[Pair] = None
    edge_at: str = ""
    camber: Optional[rt.Curve2] = None
    camber_length: Optional[float] = None
    thickest: Optional[int] = None
    number: int = 0
    step: str = ""

    @property
    def run(self) -> str:
        """Which run, or which file, gave the circles, in words; empty where it is an extraction."""
        entry = f"{'the entry for the cell, ' if self.cell else ''}{self.slots} slots"
        if self.from_file is not None:
            return f"{self.from_file}, {self.offered} offered; {entry}"
        return f"one march, to the right of the line as it points; {entry}" if self.march else ""

    @property
    def found(self) -> int:
        """How many circles there were before they were thinned."""
        return len(self.circles) + len(self.dropped or ())

    @property
    def section(self) -> Optional[rt.Curve2]:
        """What the circles lie in: the stretch where one is wanted, or else the cleaned section."""
        return self.stretch or self.curve

    @property
    def ending(self) -> str:
        """The ending in words, with its number and the step that it came from."""
        return f"{self.number}: {rt.WORDS[self.number]}" + (f", at the {self.step}" if self.number else "")


def _hull(points: Sequence[Pair]) -> List[Pair]:
    """The corners of the convex hull."""
    ordered = sorted(set(points))
    if len(ordered) < 3:
        return ordered
    half: List[List[Pair]] = []
    for run in (ordered, ordered[::-1]):
        chain: List[Pair] = []
        for p in run:
            while len(chain) > 1:
                (ax, ay), (bx, by) = chain[-2], chain[-1]
                if (bx - ax) * (p[1] - ay) - (by - ay) * (p[0] - ax) > 0:
                    break
                chain.pop()
            chain.append(p)
        half.append(chain[:-1])
    return half[0] + half[1]


def middle_line(curve: rt.Curve2) -> rt.Line2:
    """A line across the middle of the longest chord."""
    corners = _hull(curve.points())
    best, a, b = -1.0, corners[0], corners[-1]
    for i, p in enumerate(corners):
        for q in corners[i + 1 :]:
            far = math.hypot(q[0] - p[0], q[1] - p[1])
            if far > best:
                best, a, b = far, p, q
    return rt.Line2((a[0] + b[0]) / 2, (a[1] + b[1]) / 2, -(b[1] - a[1]), b[0] - a[0])


def _without(circles: Sequence[rt.Inscribed], kept: Sequence[rt.Inscribed]) -> Tuple[rt.Inscribed, ...]:
    """The circles that are not kept, in their order; those that are kept stand in theirs, and are told from others by their bits."""
    def bits(c: rt.Inscribed) -> bytes:
        return array("d", c).tobytes()

    waiting, dropped = list(kept), []
    for c in circles:
        if waiting and bits(c) == bits(waiting[0]):
            del waiting[0]
        else:
            dropped.append(c)
    return tuple(dropped)


class _Steps:
    """The steps in order. Each raises Refused, or returns the number that its run ended with."""

    def __init__(self, points: Any, options: Options, offered: Optional[Sequence[rt.Inscribed]] = None, paused: Optional[Paused] = None) -> None:
        if (options.from_file is None) != (offered is None):
            raise ValueError("the circles that are offered are those of the file that the options name")
        if paused is not None and (replace(paused.options, limit=options.limit, thin_circles=options.thin_circles, end=options.end) != options or options.limit < paused.options.limit):
            raise ValueError("a march is gone on with by its own options, with the sum of the limits")
        self.points, self.options, self.offered, self.paused = rt._numbers(points), options, tuple(offered or ()), paused
        self.blade = Blade(points=len(self.points) // 2, march=options.march, cell=options.cell, slots=options.held, from_file=options.from_file)
        if options.from_file is not None:
            self.blade.offered = len(self.offered)

    def cleaning(self) -> int:
        self.blade.curve = rt.from_points(self.points, self.options.section_tol, self.options.force_closed)
        return 0

    def stretch(self) -> int:
        blade, o = self.blade, self.options
        if o.between is not None:
            blade.stretch = rt.between_lengths(blade.curve, o.section_tol, *o.between)
        return 0

    def circles(self) -> int:
        blade, o = self.blade, self.options
        section = blade.section
        assert section is not None
        if o.from_file is not None:
            again = rt.refine_all(section, o.section_tol, o.tol, (), self.offered, o.limit, o.held, o.cell)
            blade.circles, blade.units = again.circles, again.units
            return again.number
        blade.line_given = o.line is not None
        if self.paused is not None:
            return self.going_on(section, self.paused)
        blade.line = middle_line(section) if o.line is None else rt.Line2(*o.line)
        run: rt.Run
        if o.march:
            run = marched = rt.march(section, o.section_tol, o.tol, blade.line, o.limit, o.held, o.cell)
            crosses, blade.state = marched.edges is not None, marched.state
        else:
            run = rt.extract_circles(section, o.section_tol, o.tol, blade.line, o.limit, o.slots)
            crosses = bool(run.circles)
        blade.circles, blade.units = run.circles, run.units
        if crosses:
            blade.crossing = rt.crossing_line(section, o.section_tol, blade.line)
        return run.number

    def going_on(self, section: rt.Curve2, paused: Paused) -> int:
        blade, o = self.blade, self.options
        blade.line = paused.line
        run = rt.go_on(section, o.section_tol, o.tol, paused.circles, paused.state, o.limit - paused.options.limit, o.held, o.cell)
        blade.circles, blade.units, blade.state = run.circles, paused.units + run.units, run.state
        if paused.edges is not None:
            blade.crossing = rt.crossing_line(section, o.section_tol, blade.line)
        return run.number

    def orientation(self) -> int:
        blade, o = self.blade, self.options
        if o.fwd:
            blade.circles, blade.turned = rt.orient_fwd(blade.circles, *o.fwd)
        elif o.airflow:
            blade.circles, blade.turned = rt.orient_airflow(blade.circles, *o.airflow)
        else:
            blade.circles, blade.turned = rt.orient_tmax_fwd(blade.circles)
        if o.curvature:
            blade.circles, blade.swapped = rt.orient_curvature(blade.circles)
        elif o.upper:
            blade.circles, blade.swapped = rt.orient_upper(blade.circles, *o.upper)
        elif o.lower:
            blade.circles, blade.swapped = rt.orient_lower(blade.circles, *o.lower)
        return 0

    def open_edge(self) -> int:
        blade, o = self.blade, self.options
        end = o.end
        if end == "auto":
            front, back = (rt.is_open_at_end(blade.section, o.section_tol, o.tol, blade.circles, at_front) for at_front in (True, False))
            end = "back" if back else "front" if front else "none"
        if end == "none":
            return 0
        fit = rt.fit_open_edge(blade.section, o.section_tol, o.tol, blade.circles, end == "front", o.limit, o.slots)
        blade.circles, blade.edge, blade.edge_at = fit.circles, fit.point, end
        blade.units += fit.units
        return fit.number

    def thinning(self) -> int:
        blade, o = self.blade, self.options
        if not o.thin_circles:
            return 0
        run = rt.thin(blade.section, o.section_tol, o.tol, blade.circles, o.limit)
        blade.thin_units = run.units
        if not run.number:
            with suppress(rt.Refused):
                thickest = blade.circles[rt.index_of_tmax(blade.circles)]
                blade.unthinned = (2 * thickest.r, rt.length(self.drawn(), o.section_tol))
            blade.dropped = _without(blade.circles, run.circles)
            blade.circles = run.circles
        return run.number

    def drawn(self) -> rt.Curve2:
        """The camber line of the circles, to the open-edge point where there is one."""
        blade, o = self.blade, self.options
        if blade.edge is None:
            return rt.camber_curve(blade.circles, o.section_tol)
        le, te = blade.circles[0].center, blade.circles[-1].center
        ends = (blade.edge, te) if blade.edge_at == "front" else (le, blade.edge)
        return rt.make_camber_curve(*ends, blade.circles, o.section_tol)

    def camber_line(self) -> int:
        blade, o = self.blade, self.options
        if not blade.circles:
            return 0
        blade.thickest = rt.index_of_tmax(blade.circles)
        blade.camber = self.drawn()
        blade.camber_length = rt.length(blade.camber, o.section_tol)
        return 0

    def take(self, step: Any) -> None:
        try:
            number = step()
        except rt.Refused as refused:
            number = refused.number
        if number and not self.blade.number:
            self.blade.number, self.blade.step = number, step.__name__.replace("_", " ")


def worked_out(points: Any, options: Options, offered: Optional[Sequence[rt.Inscribed]] = None, paused: Optional[Paused] = None) -> Blade:
    """All that is to be had of a section; its points are whatever the module takes as points. `offered` are the circles of the file that the options name, where they name one. `paused` is a march on this
    section that was spent, where one is gone on with: the options are its own, and their limit is the sum of all limits."""
    steps = _Steps(points, options, offered, paused)
    whole = () if options.keeps_order else (steps.orientation, steps.open_edge)
    for step in (steps.cleaning, steps.stretch, steps.circles, *whole, steps.thinning):
        if not steps.blade.number:
            steps.take(step)
    steps.take(steps.camber_line)
    return steps.blade

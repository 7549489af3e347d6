"""What is told of a blade: a table for a person, a line where there are several files, CSV, JSON and the hand-over record."""

from __future__ import annotations

import csv
import io
import json
from dataclasses import asdict
from typing import Any, Dict, List, Tuple

from . import CELL_SLOTS, SLOTS, WORDS, Inscribed, write_record
from .blade import Blade, Options, worked_out
from .files import Reading, Unreadable, read

WRONG_CALL, NO_INPUT, FAULT, NO_OUTPUT = 64, 66, 70, 73

# What to try where the library refuses.
ADVICE = {
    1: "look at the file's columns, and at how many points it has",
    2: "look for wrong numbers; coordinates are millimetres",
    3: "hand in another --section-tol or --tol",
    4: "hand in more --slots",
    5: "hand in a smaller --section-tol",
    6: "hand in a smaller --section-tol",
    7: "hand in another --line, or a smaller --tol",
    8: "hand in another --line, one that crosses the section exactly twice and at no vertex",
    9: "hand in lengths from 0 to the whole",
    10: "hand in a larger --tol, or a --line nearer to the section",
    11: "look for doubled points, and hand in another --line, or, where it comes of --curvature, --upper or --lower in its place",
    12: "look for numbers of very different sizes, and hand in another --line",
    13: "hand in another --line, or another --tol",
    14: "hand in a larger --limit",
    15: "hand in more --slots, or a larger --tol",
    16: "hand in a larger --tol",
    17: "leave the edges alone with --end none",
    18: "name the other --end, or leave the edges alone with --end none",
    19: "name the other --end, or leave the edges alone with --end none",
    20: "name the other --end, or leave the edges alone with --end none",
    21: "hand in lengths farther apart, the smaller one first where the section is open",
    22: "ask for the split of the other kind of section",
    23: "hand in a --tol no smaller than --section-tol",
    24: "hand in all bytes of one record, and no others",
    25: "look for bytes that were changed or moved on the way",
    26: "hand in eight bytes for each number, and 9,216 numbers at most",
    27: "hand in the state that the spent march left, and its circles, as they were",
}


# The same of 14 where a march has left its state.
SPENT_MARCH = "hand in a larger --limit, or write the state with --state and go on from it with --go-on"


# The same of 15 by the entry for the cell: where its slots were fewer than it has, and where they were all of them.
CELL_FULL = (f"hand in more --slots, up to {CELL_SLOTS}, or a larger --tol", f"hand in a larger --tol, or leave out --cell, by which there are {CELL_SLOTS} slots and not {SLOTS}")


# What to try where the circles of a file are refused.
FROM_FILE = {
    2: "look for wrong numbers in the circles of the file",
    4: f"hand in a file of at most {SLOTS} circles",
    10: "hand in circles of this section, or a larger --tol",
    11: "look for a circle whose contacts are one point, and whether the circles are of this section",
    12: "look for numbers of very different sizes, and whether the circles are of this section",
    16: "hand in circles of this section, or a larger --tol",
}


def table(name: str, blade: Blade) -> str:
    """The table that a person reads."""
    rows: List[Tuple[str, str]] = [("section", name)]
    if blade.curve is not None:
        rows.append(("points", f"{len(blade.curve.numbers) // 2} of {blade.points} kept, {'closed' if blade.curve.is_closed else 'open'}"))
    if blade.stretch is not None:
        s = blade.stretch
        rows.append(("stretch", f"{len(s.numbers) // 2} of {s.given} points kept, {'closed' if s.is_closed else 'open'}"))
    if blade.line is not None:
        d = blade.line
        rows.append(("reference line", f"from ({d.ox:.6g}, {d.oy:.6g}) along ({d.dx:.6g}, {d.dy:.6g})" + ("" if blade.line_given else ", across the middle of the longest chord")))
    if blade.crossing is not None:
        rows.append(("crosses", "edges {} and {}".format(*blade.crossing.edges)))
    if blade.run:
        rows.append(("circles from" if blade.from_file is not None else "run", blade.run))
    rows.append(("circles", f"{blade.found}, {blade.units} units"))
    if blade.state is not None:
        rows.append(("state", str(blade.state)))
    if blade.thin_units is not None:
        kept = f"{len(blade.circles)} of {blade.found} kept" if blade.dropped is not None else f"not finished, all {blade.found} kept"
        more = "; of all: greatest thickness {:.6f}, camber length {:.6f}".format(*blade.unthinned) if blade.unthinned else ""
        rows.append(("thinned", f"{kept}, {blade.thin_units} units{more}"))
    if blade.thickest is not None:
        c = blade.circles[blade.thickest]
        rows.append(("greatest thickness", f"{2 * c.r:.6f} at ({c.cx:.6f}, {c.cy:.6f}), circle {blade.thickest}"))
    if blade.camber_length is not None:
        rows.append(("camber length", f"{blade.camber_length:.6f}"))
    if blade.edge is not None:
        rows.append(("open-edge point", f"({blade.edge[0]:.6f}, {blade.edge[1]:.6f}) at the {blade.edge_at}"))
    rows.append(("ending", blade.ending))
    wide = max(len(a) for a, _ in rows)
    return "".join(f"{a:<{wide}}  {b}\n" for a, b in rows)


def message(name: str, blade: Blade) -> str:
    """What was refused, in words, with the number and what to try; empty for a result."""
    if not blade.number:
        return ""
    advice = ADVICE[blade.number]
    if blade.number == 14 and blade.step == "circles" and blade.state is not None:
        advice = SPENT_MARCH
    elif blade.cell and blade.number == 15:
        advice = CELL_FULL[blade.slots == CELL_SLOTS]
    elif blade.from_file is not None and blade.step == "circles":
        advice = FROM_FILE.get(blade.number, advice)
    return f"{name}: {blade.ending}. {advice[0].upper()}{advice[1:]}."


def line(name: str, blade: Blade) -> str:
    """One line a file, where there are several."""
    thick = f", thickness {2 * blade.circles[blade.thickest].r:.6f}" if blade.thickest is not None else ""
    long = f", camber length {blade.camber_length:.6f}" if blade.camber_length is not None else ""
    edge = f", edge ({blade.edge[0]:.6f}, {blade.edge[1]:.6f})" if blade.edge is not None else ""
    thinned = f", {len(blade.circles)} kept by thinning in {blade.thin_units} units" if blade.dropped is not None else ""
    return f"{name}: {blade.found} circles, {blade.units} units{thinned}{thick}{long}{edge}; {blade.ending}\n"


def told(name: str, options: Options, reading: Reading = Reading()) -> Tuple[str, str, int]:
    """The line of a file, what is said of its reading, and its exit status, whatever is in the file."""
    notes: List[str] = []
    try:
        blade = worked_out(read(name, reading, notes.append), options)
    except Unreadable as error:
        return f"{error}\n", "", NO_INPUT
    return line(name, blade), said(notes), blade.number


def said(notes: List[str]) -> str:
    """What is said of the reading of a file, as standard error has it."""
    return "".join(f"rummyteak: {note}\n" for note in notes)


def as_points(blade: Blade) -> str:
    """The points of the section, a line each, each number so that it reads back to the same bits."""
    return "".join(f"{x!r} {y!r}\n" for x, y in blade.section.points()) if blade.section else ""


def as_csv(blade: Blade) -> str:
    """The circles, each number so that it reads back to the same bits."""
    text = io.StringIO()
    writer = csv.writer(text, lineterminator="\n")
    writer.writerow(Inscribed._fields)
    writer.writerows([repr(x) for x in c] for c in blade.circles)
    return text.getvalue()


def as_record(blade: Blade) -> bytes:
    """The circles as a hand-over record."""
    return write_record(blade.circles)


def as_json(name: str, blade: Blade, options: Options, reading: Reading) -> str:
    """Everything, each number so that it reads back to the same bits."""
    everything: Dict[str, Any] = {
        "section": name,
        "number": blade.number,
        "ending": WORDS[blade.number],
        "step": blade.step,
        "reading": asdict(reading),
        "options": asdict(options),
        "points": list(blade.curve.numbers) if blade.curve else [],
        "closed": blade.curve.is_closed if blade.curve else None,
        "stretch": list(blade.stretch.numbers) if blade.stretch else None,
        "stretch_closed": blade.stretch.is_closed if blade.stretch else None,
        "stretch_given": blade.stretch.given if blade.stretch else None,
        "line": blade.line,
        "crossing": blade.crossing.line if blade.crossing else None,
        "edges": blade.crossing.edges if blade.crossing else None,
        "circle": Inscribed._fields,
        "circles": blade.circles,
        "units": blade.units,
        "state": {"refining": blade.state.refining, "fraction": blade.state.fraction, "waiting": blade.state.waiting} if blade.state else None,
        "offered": blade.offered,
        "dropped": blade.dropped,
        "thin_units": blade.thin_units,
        "thickness_of_all": blade.unthinned[0] if blade.unthinned else None,
        "camber_length_of_all": blade.unthinned[1] if blade.unthinned else None,
        "turned": blade.turned,
        "swapped": blade.swapped,
        "thickest": blade.thickest,
        "camber": list(blade.camber.numbers) if blade.camber else None,
        "camber_length": blade.camber_length,
        "edge": blade.edge,
        "edge_at": blade.edge_at,
    }
    rows = (f" {json.dumps(key)}: {json.dumps(value)}" for key, value in everything.items())
    return "{\n" + ",\n".join(rows) + "\n}\n"

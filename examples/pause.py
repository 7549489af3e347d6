"""A march in slices: a cell marches for 50 units, reads its fixture, goes on for 50 more, and so on, until the march is over.

    python3 examples/pause.py [SECTION]

Between two slices it keeps the march as bytes, as a program does that keeps it on a disk. At the end it takes the whole march at once and says whether both are equal. The exit status is 0 where they
are, 70 where they aren't, the number of a refusal on entry, and 66 for a file that can't be read. Without a SECTION it is examples/thick.dat; examples/pause.txt is what it prints then."""

from __future__ import annotations

import pickle
import sys
from pathlib import Path
from typing import Iterator, List, Optional

HERE = Path(__file__).resolve().parent
PYTHON = str(HERE.parent / "python")
if PYTHON not in sys.path:
    sys.path.insert(0, PYTHON)

import rummyteak as rt  # noqa: E402
from rummyteak.__main__ import guarded  # noqa: E402
from rummyteak.blade import middle_line  # noqa: E402
from rummyteak.files import Unreadable, read  # noqa: E402
from rummyteak.outputs import say, tell  # noqa: E402
from rummyteak.report import FAULT, NO_INPUT  # noqa: E402

SECTION_TOL, TOL, SLICE = 0.001, 0.01, 50


def fixture() -> Iterator[int]:
    """The readings of a fixture, in degrees: this one has turned by 15 between each two."""
    degrees = 0
    while True:
        yield degrees
        degrees = (degrees + 15) % 360


def told(march: rt.March) -> str:
    """A march in words."""
    return f"{len(march.circles)} circles, {march.units} units, {march.state or march.ending}"


def compared(name: str) -> int:
    """Marches in slices and at once, and compares both."""
    section = rt.from_points(read(name), SECTION_TOL)
    line = middle_line(section)
    readings = fixture()
    march = rt.march(section, SECTION_TOL, TOL, line, SLICE, cell=True)
    while march.state is not None:
        tell(f"{told(march)}; the fixture stands at {next(readings)} degrees\n")
        kept = pickle.dumps(march)
        march = pickle.loads(kept).go_on(SLICE)
    whole = rt.march(section, SECTION_TOL, TOL, line, cell=True)
    tell(f"in slices: {told(march)}\nat once:   {told(whole)}\n")
    tell("both are equal\n" if march == whole else "they differ\n")
    return 0 if march == whole else FAULT


def main(arguments: Optional[List[str]] = None) -> int:
    """The same of the section that is named, or of the example."""
    names = sys.argv[1:] if arguments is None else arguments
    try:
        return compared(names[0] if names else str(HERE / "thick.dat"))
    except Unreadable as error:
        say(f"pause.py: {error}\n")
        return NO_INPUT
    except rt.Refused as refused:
        say(f"pause.py: {refused}\n")
        return refused.number


if __name__ == "__main__":
    sys.exit(guarded(main))

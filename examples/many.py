"""The command's lines for a folder of sections, worked out on a dask.distributed cluster: for an archive that outgrows one machine.

    python3 examples/many.py FOLDER [--scheduler ADDRESS] [the command's options]

Without an address it starts a cluster of its own on this machine. Each worker calls the same function as the command, so it needs this folder tree with the library
built (include/build), and the files under the same names. What is printed, what is said on standard error, and the exit status, are the command's for the folder's files in the order of their names."""

from __future__ import annotations

import sys
from dataclasses import asdict
from pathlib import Path
from typing import Any, Dict, List, Optional, Tuple

PYTHON = str(Path(__file__).resolve().parents[1] / "python")
if PYTHON not in sys.path:
    sys.path.insert(0, PYTHON)

from rummyteak.__main__ import Parser, guarded, options_of, parser, reading_of  # noqa: E402
from rummyteak.outputs import say, tell  # noqa: E402


def told_there(name: str, python: str, options: Dict[str, Any], reading: Dict[str, Any]) -> Tuple[str, str, int]:
    """Runs on a worker: the line of a file, what is said of its reading, and its exit status."""
    if python not in sys.path:
        sys.path.insert(0, python)
    from rummyteak.blade import Options
    from rummyteak.files import Reading
    from rummyteak.report import told

    return told(name, Options(**options), Reading(**reading))


def main(arguments: Optional[List[str]] = None) -> int:
    """Maps the function over the folder, and prints the lines in order as they come."""
    words = Parser(description=__doc__.splitlines()[0] if __doc__ else "", add_help=False)
    words.add_argument("folder", type=Path)
    words.add_argument("--scheduler", help="the address of a running cluster")
    words.add_argument("--workers", type=int, default=2, help="workers of a cluster of its own (2)")
    mine, rest = words.parse_known_args(arguments)
    names = sorted(str(path) for path in mine.folder.glob("*") if path.is_file())
    if not names:
        say(f"many.py: no file in {mine.folder}\n")
        return 66
    args = parser().parse_args([*rest, "--", *names])
    for option, name in (("--from", args.from_file), ("--go-on", args.go_on)):
        if name is not None:
            parser().error(f"{option} does not go with a folder")

    from distributed import Client, LocalCluster

    cluster = None if mine.scheduler else LocalCluster(n_workers=mine.workers, threads_per_worker=1, dashboard_address=None)
    status = 0
    with Client(mine.scheduler or cluster) as client:
        for future in client.map(told_there, names, python=PYTHON, options=asdict(options_of(args)), reading=asdict(reading_of(args)), pure=False):
            text, notes, number = future.result()
            say(notes)
            tell(text)
            status = status or number
    if cluster is not None:
        cluster.close()
    return status


if __name__ == "__main__":
    sys.exit(guarded(main))

"""The command: rummyteak FILE... prints what came of each section."""

from __future__ import annotations

import argparse
import io
import os
import re
import sys
import traceback
from concurrent.futures import ThreadPoolExecutor
from dataclasses import replace
from threading import Lock
from typing import Any, Callable, List, Optional, Tuple

from . import CELL_SLOTS, NO_LIMIT, SLOTS, WORDS
from ._library import NoLibrary, load
from .blade import Options, Paused, worked_out
from .files import FORMATS, Reading, Unreadable, read
from .lists import read_circles
from .outputs import is_standard_input, is_standard_output, put, same_file, say, tell
from .picture import svg
from .report import FAULT, NO_INPUT, NO_OUTPUT, WRONG_CALL, as_csv, as_json, as_points, as_record, message, said, table, told
from .states import as_state, read_state


class Parser(argparse.ArgumentParser):
    """A wrong call has the command's own status, and not 2, which is a refusal's number."""

    def error(self, message: str) -> Any:
        say(f"{self.format_usage()}{self.prog}: {message}\n")
        sys.exit(WRONG_CALL)

    def print_help(self, file: Any = None) -> None:
        tell(self.format_help())


def _whole(most: int) -> Any:
    def number(word: str) -> int:
        value = int(word)
        if not 0 <= value <= most:
            raise argparse.ArgumentTypeError(f"{word} is not within 0 to {most}")
        return value

    return number


def _columns(word: str) -> Tuple[int, int]:
    found = re.fullmatch(r"([1-9]\d{0,5}),([1-9]\d{0,5})", word, re.ASCII)
    if not found or found.group(1) == found.group(2):
        raise argparse.ArgumentTypeError(f"{word} is no two columns, counted from 1, as 1,2")
    return int(found.group(1)), int(found.group(2))


def parser() -> argparse.ArgumentParser:
    """The options, one for every argument of the calls."""
    default = Options()
    words = Parser(
        prog="rummyteak",
        description="A measured blade section into inscribed circles, a camber line and an open-edge point.",
        epilog=f"Exit status: 0 a result, 1 to {max(WORDS)} the number of a refusal or a spent run, {WRONG_CALL} a wrong call, {NO_INPUT} a file that can't be read, "
        f"{FAULT} no library that can be used, or a fault of the command, {NO_OUTPUT} a file that can't be written. Of several files it is the first that isn't 0.",
    )
    words.add_argument("files", nargs="+", metavar="FILE", help="x y pairs in lines; - is standard input. Several files: one line each")
    words.add_argument("--columns", type=_columns, metavar="X,Y", help="the columns of x and of y, counted from 1, in lines that have more than two; the others are passed over")
    words.add_argument("--decimal-comma", action="store_true", help="numbers are written as 60,5, and columns separated by semicolons or blanks")
    words.add_argument("--skip", type=_whole(2**31), default=0, metavar="LINES", help="pass over so many lines at the start, whatever they say")
    words.add_argument("--format", choices=FORMATS, default="auto", help="whether the first pair is a point, or counts the points of two surfaces that follow, each from the leading edge; auto goes by the file (%(default)s)")
    words.add_argument("--section-tol", type=float, help=f"section tolerance in mm ({default.section_tol})")
    words.add_argument("--tol", type=float, help=f"general tolerance in mm, no smaller than the section tolerance ({default.tol})")
    words.add_argument("--force-closed", action="store_true", help="close the section by force")
    words.add_argument("--between", type=float, nargs=2, metavar=("L0", "L1"), help="only the stretch between two lengths along the section, over the seam of a closed one where the end, as worked out, lies before the start")
    words.add_argument("--line", type=float, nargs=4, metavar=("OX", "OY", "DX", "DY"), help="reference line (without: across the middle of the longest chord)")
    forward = words.add_mutually_exclusive_group()
    forward.add_argument("--fwd", type=float, nargs=2, metavar=("X", "Y"), help="a vector that points forward")
    forward.add_argument("--airflow", type=float, nargs=2, metavar=("X", "Y"), help="a vector along the airflow (without both: by the greatest radius)")
    side = words.add_mutually_exclusive_group()
    side.add_argument("--curvature", action="store_true", help="upper side by the side to which the camber bends; a camber line whose ends meet within its tolerance is 11")
    side.add_argument("--upper", type=float, nargs=2, metavar=("X", "Y"), help="a vector to the upper side")
    side.add_argument("--lower", type=float, nargs=2, metavar=("X", "Y"), help="a vector to the lower side")
    words.add_argument("--end", choices=("auto", "front", "back", "none"), default=default.end, help="which end's open edge is fitted (%(default)s)")
    words.add_argument("--limit", type=_whole(NO_LIMIT), default=default.limit, help="units at most in each run: the circles, the open edge, and thinning (no limit); with --go-on, of this piece, and thinning has the sum")
    words.add_argument("--slots", type=_whole(SLOTS), help=f"circles at most, up to {SLOTS}, with --cell up to {CELL_SLOTS} (as many as that)")
    words.add_argument("--march", action="store_true", help="one march: only the circles to the right of the reference line as it points, as they were marched, with no orientation and no open edge")
    words.add_argument("--cell", action="store_true", help=f"with --march or --from: by the entry for the cell, whose store holds {CELL_SLOTS} circles")
    words.add_argument("--from", dest="from_file", metavar="CIRCLES", help="circles of a file, a CSV or a hand-over record as this command writes them, in place of finding any: they are offered in order to an empty list, each refined until none waits, and stay in their order, with no orientation and no open edge; - is standard input")
    words.add_argument("--go-on", metavar="FILE", help="go on with the spent march that a file of --state has, on the same section and within a further --limit; the march keeps its tolerances, forced closing, stretch, line, slots and entry, and what comes is what one march with the sum of the limits gives; - is standard input")
    words.add_argument("--thin-circles", action="store_true", help="thin the circles, behind all other runs: from the front, drop each one between the first and the last where the trial between the last kept one and the one behind adds none")
    words.add_argument("--points", metavar="FILE", help="write the points of the section, cleaned and cut, as x y lines; - is standard output")
    words.add_argument("--csv", metavar="FILE", help="write the circles as CSV; - is standard output")
    words.add_argument("--record", metavar="FILE", help="write the circles as a hand-over record, which is bytes: to a file, not to standard output")
    words.add_argument("--json", metavar="FILE", help="write everything as JSON; - is standard output")
    words.add_argument("--svg", metavar="FILE", help="write the picture; - is standard output")
    words.add_argument("--state", metavar="FILE", help="with --march or --go-on: write what --go-on takes, as JSON; of a march that isn't spent the file says how it ended, and there is nothing to go on from; it may be the file of --go-on; - is standard output")
    return words


def options_of(args: argparse.Namespace) -> Options:
    """The options of a parsed command line."""

    def pair(v: Optional[List[float]]) -> Optional[Tuple[float, float]]:
        return None if v is None else (v[0], v[1])

    line = None if args.line is None else (args.line[0], args.line[1], args.line[2], args.line[3])
    most, default = CELL_SLOTS if args.cell else SLOTS, Options()
    slots = most if args.slots is None else args.slots
    if slots > most:
        parser().error(f"argument --slots: {slots} is not within 0 to {most}, which is what the entry for the cell holds")
    try:
        return Options(
            default.section_tol if args.section_tol is None else args.section_tol, default.tol if args.tol is None else args.tol, args.force_closed, pair(args.between), line, pair(args.fwd), pair(args.airflow),
            args.curvature, pair(args.upper), pair(args.lower), args.end, args.limit, slots, args.march or args.go_on is not None, args.cell, args.thin_circles, args.from_file
        )
    except ValueError as error:
        return parser().error(str(error))


def gone_on_with(args: argparse.Namespace, options: Options, paused: Paused) -> Options:
    """The options of a march that is gone on with: its own, with the sum of the limits. Where a call has one of them too, it has to be the same."""
    own = paused.options
    for name in ("section_tol", "tol", "force_closed", "between", "line", "slots", "cell"):
        given, was = getattr(args, name), getattr(own, name)
        if given is not None and given is not False and getattr(options, name) != was:
            where = "standard input" if args.go_on == "-" else args.go_on
            how = "without it" if was is None or was is False else "with " + " ".join(map(repr, was if isinstance(was, tuple) else (was,)))
            parser().error(f"argument --{name.replace('_', '-')}: the march in {where} was taken {how}, and goes on so; leave it out, or take the march anew without --go-on")
    return replace(own, limit=min(own.limit + options.limit, NO_LIMIT), thin_circles=options.thin_circles, end=options.end)


def reading_of(args: argparse.Namespace) -> Reading:
    """How the files of a parsed command line are read."""
    return Reading(args.columns, args.decimal_comma, args.skip, args.format)


class _Count:
    """A count of those done, on a terminal: one line of standard error, taken back before anything else is written."""

    def __init__(self, of: int) -> None:
        self.of, self.done, self.live, self.lock = of, 0, sys.stderr is not None and sys.stderr.isatty(), Lock()

    def more(self, _: Any = None) -> None:
        with self.lock:
            self.done += 1
            if self.live:
                say(f"\r{self.done} of {self.of} done")

    def write(self, text: str, notes: str) -> None:
        with self.lock:
            say(("\r\x1b[K" if self.live else "") + notes)
            tell(text)


def _many(names: List[str], options: Options, reading: Reading) -> int:
    status, count = 0, _Count(len(names))
    cores = len(os.sched_getaffinity(0)) if hasattr(os, "sched_getaffinity") else os.cpu_count() or 1
    with ThreadPoolExecutor(max_workers=cores) as pool:

        def one(name: str) -> Tuple[str, str, int]:
            answer = told(name, options, reading)
            count.more()
            return answer

        for text, notes, number in pool.map(one, names):
            count.write(text, notes)
            status = status or number
    return status


def _one(name: str, options: Options, reading: Reading, args: argparse.Namespace) -> int:
    notes: List[str] = []
    try:
        points = read(name, reading, notes.append)
        offered = None if options.from_file is None else read_circles(options.from_file)
        paused = None if args.go_on is None else read_state(args.go_on, name, points)
    except Unreadable as error:
        say(f"rummyteak: {error}\n")
        return NO_INPUT
    if paused is not None:
        options = gone_on_with(args, options, paused)
    say(said(notes))
    blade = worked_out(points, options, offered, paused)
    wanted: List[Tuple[Optional[str], Callable[[], str]]] = [
        (args.points, lambda: as_points(blade)),
        (args.csv, lambda: as_csv(blade)),
        (args.json, lambda: as_json(name, blade, options, reading)),
        (args.svg, lambda: svg(blade, name)),
        (args.state, lambda: as_state(name, blade, options, points)),
    ]
    here = [text() for where, text in wanted if where is not None and is_standard_output(where)]
    files = [(where, text().encode("utf-8", "replace")) for where, text in wanted if where is not None and not is_standard_output(where)]
    if args.record is not None:
        files.append((args.record, as_record(blade)))
    failed = None
    try:
        put(files)
    except OSError as error:
        failed = error
    # what was worked out is told where a file can't be written, too
    tell(here[0] if here else table(name, blade))
    trouble = message(name, blade)
    say(f"rummyteak: {trouble}\n" if trouble else "")
    if failed is not None:
        raise failed
    return blade.number


def _wrong(args: argparse.Namespace) -> str:
    """What is wrong with a call before anything is read, in words; empty where nothing is."""
    outputs = [(f"--{name}", getattr(args, name)) for name in ("points", "csv", "record", "json", "svg", "state") if getattr(args, name) is not None]
    names = ["-" if is_standard_output(name) else name for _, name in outputs]
    if outputs and len(args.files) > 1:
        return "--points, --csv, --record, --json, --svg and --state go with one file"
    more = [(option, name) for option, name in (("--from", args.from_file), ("--go-on", args.go_on)) if name is not None]
    for option, name in more:
        if len(args.files) > 1:
            return f"{option} goes with one file"
        if not name:
            return f"{option} has no name"
        if is_standard_input(name) and is_standard_input(args.files[0]):
            return f"standard input can't be the section and the file of {option}"
    if len(more) > 1:
        return "--from and --go-on don't go together: circles are offered, or a march is gone on with"
    if args.state is not None and not (args.march or args.go_on is not None):
        return "--state goes with --march or --go-on"
    if args.record is not None and is_standard_output(args.record):
        return "--record goes to a file, not to standard output"
    if "" in names:
        return "an output has no name"
    if len(set(names)) < len(names):
        return "two outputs have the same name"
    circles = [] if args.from_file is None else [args.from_file]
    # the state that is gone on from may be replaced by the next, and by no other output
    paused = [] if args.go_on is None else [args.go_on]
    return same_file([*args.files, *circles], outputs) or same_file(paused, [output for output in outputs if output[0] != "--state"])


def _run(arguments: Optional[List[str]]) -> int:
    if isinstance(sys.stdout, io.TextIOWrapper):
        # a file's name may hold what is no text
        sys.stdout.reconfigure(errors="backslashreplace")
    words = parser()
    args = words.parse_args(arguments)
    wrong = _wrong(args)
    if wrong:
        words.error(wrong)
    load()
    if len(args.files) > 1:
        return _many(args.files, options_of(args), reading_of(args))
    return _one(args.files[0], options_of(args), reading_of(args), args)


def main(arguments: Optional[List[str]] = None) -> int:
    """Runs the command and returns its exit status."""
    return guarded(lambda: _run(arguments))


def guarded(command: Callable[[], int]) -> int:
    """The exit status of a command. Where it breaks that is never 1, which is a refusal's number."""
    try:
        return command()
    except KeyboardInterrupt:
        return 130
    except (NoLibrary, FloatingPointError) as error:
        say(f"rummyteak: {error}\n")
    except Exception as error:
        if isinstance(error, BrokenPipeError) and error.filename in (None, "standard output"):
            # nothing reads the output any more
            return NO_OUTPUT
        if isinstance(error, OSError) and error.filename is not None:
            say(f"rummyteak: {error.filename}: {error.strerror}\n")
            return NO_OUTPUT
        say(f"{traceback.format_exc()}rummyteak: a fault of the command itself: {type(error).__name__}: {error}\n")
    return FAULT


if __name__ == "__main__":
    sys.exit(main())

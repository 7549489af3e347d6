"""Reads circles from a file: a CSV as the command writes it, or a hand-over record.

A CSV begins with the names of a circle's numbers, which no record of 1,024 circles or fewer does. Each of its lines behind is one circle, or the file is not read."""

from __future__ import annotations

import os
import sys
from typing import List, Tuple

from . import WIDTH, Inscribed, Refused, read_record
from .files import Unreadable, _number, _shown

HEADER = ",".join(Inscribed._fields)


def _circle(name: str, at: int, line: str) -> Inscribed:
    numbers = [_number(field, False) for field in line.split(",")]
    if len(numbers) != WIDTH or None in numbers:
        raise Unreadable(f"{name}: line {at} is not a circle's {WIDTH} numbers, separated by commas: {_shown(line)}")
    return Inscribed(*(x for x in numbers if x is not None))


def bytes_of(name: str) -> bytes:
    """The bytes of a file; `-` is standard input."""
    if name != "-":
        with open(name, "rb") as file:
            return file.read()
    if sys.stdin is None:
        raise OSError("it is closed")
    with open(sys.stdin.fileno(), "rb", closefd=False) as file:
        return file.read()


def read_circles(name: str) -> Tuple[Inscribed, ...]:
    """The circles of a file; `-` is standard input."""
    shown = "standard input" if name == "-" else os.fsdecode(name)
    try:
        data = bytes_of(name)
    except (OSError, ValueError) as error:
        raise Unreadable(f"{shown}: {getattr(error, 'strerror', None) or error}") from error
    lines: List[str] = [line.rstrip("\r") for line in data.decode("utf-8-sig", "replace").split("\n")]
    if lines[0] != HEADER:
        try:
            return read_record(data)
        except Refused as refused:
            raise Unreadable(f"{shown}: line 1 is not {HEADER}, as that of a CSV of circles is: {_shown(lines[0])}; as a hand-over record the file is refused with {refused}") from refused
    while not lines[-1]:
        del lines[-1]
    return tuple(_circle(shown, at, line) for at, line in enumerate(lines[1:], 2))

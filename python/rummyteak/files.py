"""Reads a section from a file: x y pairs in lines, separated by blanks, commas or semicolons.

No point is lost on the way. A line that begins with a number is a point, or the file is not read; the lines before the first point that don't begin with a number are a header. What is passed over is
told, with its line."""

from __future__ import annotations

import math
import re
import sys
from array import array
from dataclasses import dataclass, replace
from typing import Callable, List, Optional, Tuple
from unicodedata import category

FORMATS = ("auto", "points", "lednicer")

COLUMNS = "--columns X,Y picks two columns, counted from 1, as --columns 1,2"
# Header lines that are told one by one; the rest are told by their numbers.
TOLD_SINGLY = 10


class Unreadable(Exception):
    """A file that can't be opened or read, in words."""


@dataclass(frozen=True)
class Reading:
    """How a file is read: which columns are x and y, counted from 1 (without them a line has two columns), whether numbers have decimal commas, how many lines at the start are passed over whatever they
    say, and whether the first pair is a point (`points`), counts the points of two surfaces (`lednicer`), or is told by the file (`auto`)."""

    columns: Optional[Tuple[int, int]] = None
    decimal_comma: bool = False
    skip: int = 0
    format: str = "auto"


# ---- one line


def _written(point: str) -> "re.Pattern[str]":
    """A whole word that is a number, with this decimal point."""
    return re.compile(rf"[+-]?(?:\d+{point}?\d*|{point}\d+)(?:e[+-]?\d+)?|[+-]?(?:nan|inf|infinity)", re.ASCII | re.IGNORECASE)


_POINT, _COMMA = _written(r"\."), _written(",")
# A number as a count is written, and one with decimals.
_WHOLE, _DECIMALS = re.compile(r"\+?\d+[.,]?", re.ASCII), re.compile(r"[.,]\d")
# A number as a line may begin with it, however it goes on. What may stand in front are separators, signs, quotes, brackets, what isn't printed, and what an encoding left: these characters, and those of
# these categories, which are dashes, brackets and quotes as a text program writes them.
_BEGUN = re.compile(r"[.,]?\d|(?:nan|inf|infinity)\b", re.IGNORECASE)
_IN_FRONT = " ,;\"'`+<>\u2212\u00b1\ufffd\u00ef\u00bb\u00bf"
_KINDS_IN_FRONT = ("Pd", "Ps", "Pe", "Pi", "Pf")
# A comment begins with # at the start of a line, or behind a separator; what is quoted is passed by.
_COMMENT = re.compile(r'"[^"]*"|(?<![^\s,;])#')
_SEPARATORS = " \t,;"
_QUOTED = re.compile(r'"[^"]*"')
_BY_BLANKS = re.compile(r'(?:"[^"]*"|[^\s"])+')
_QUOTED_OR = {sign: re.compile(rf'"[^"]*"|{sign}') for sign in ";,\t"}


def _begins_with_number(text: str) -> bool:
    front = 0
    while front < len(text) and (text[front] in _IN_FRONT or not text[front].isprintable() or category(text[front]) in _KINDS_IN_FRONT):
        front += 1
    return bool(_BEGUN.match(text, front))


def _without_comment(text: str) -> Tuple[str, str]:
    """A line without its comment, and the comment."""
    for found in _COMMENT.finditer(text):
        if found.group() == "#":
            return text[: found.start()], text[found.start() :]
    return text, ""


def _between(sign: str, text: str) -> List[str]:
    """What stands between the signs; those that are quoted are passed by."""
    parts, start = [], 0
    for found in _QUOTED_OR[sign].finditer(text):
        if found.group() == sign:
            parts.append(text[start : found.start()])
            start = found.end()
    return [*parts, text[start:]]


def _fields(text: str, reading: Reading) -> List[str]:
    """The columns of a line. Semicolons separate where there are any, else commas, else blanks; tabs by themselves where columns are picked. One that is empty counts, but not at the end of the line."""
    text = text.rstrip(_SEPARATORS)
    if text.count('"') % 2:
        return [text]
    unquoted = _QUOTED.sub("", text)
    signs = [";"] + ([","] if not reading.decimal_comma or unquoted != text else []) + (["\t"] if reading.columns else [])
    sign = next((sign for sign in signs if sign in unquoted), "")
    fields = (field.strip() for field in (_between(sign, text) if sign else _BY_BLANKS.findall(text)))
    return [field[1:-1].strip() if _QUOTED.fullmatch(field) else field for field in fields]


def _number(field: str, decimal_comma: bool) -> Optional[float]:
    if not (_COMMA if decimal_comma else _POINT).fullmatch(field):
        return None
    return float(field.replace(",", "."))


def _picked(fields: List[str], reading: Reading) -> List[str]:
    """The two columns that are wanted, or those of them that there are."""
    if reading.columns is None:
        return fields
    return [fields[k - 1] for k in reading.columns if k <= len(fields)]


def _shown(text: str) -> str:
    """A line as a message shows it, whatever is in the file."""
    return "".join(c if c.isprintable() else " " if c == "\t" else "?" for c in text[:200])


def _strange(text: str, reading: Reading) -> Tuple[List[str], int]:
    """The columns of a line, and how many of them are no numbers."""
    fields = _fields(text, reading)
    return fields, sum(_number(field, reading.decimal_comma) is None for field in fields)


def _no_point(at: int, text: str, reading: Reading, in_header: bool) -> str:
    """Why a line is no point, and which options there are for it."""
    fields, strange = _strange(text, reading)
    why, wanted = "is no pair of numbers", max(reading.columns or (2,))
    if reading.columns and len(fields) < wanted:
        why = f"has no column {wanted}"
    elif not reading.columns and len(fields) > 2:
        why = f"has {len(fields)} columns, and two are wanted"
    options = []
    commas, fewer = _strange(text, replace(reading, decimal_comma=True))
    if fewer < strange and not reading.decimal_comma:
        options.append("--decimal-comma reads numbers such as 60,5")
        fields, strange = commas, fewer
    if len(fields) > 2 and len(fields) - strange > 1 and not reading.columns:
        options.append(COLUMNS)
    if in_header:
        options.append(f"--skip {at} passes over it where it is no point")
    return "; ".join([f"line {at} {why}: {_shown(text)}", *options])


def _no_points(header: List[Tuple[int, str]], reading: Reading) -> str:
    """Why a file has no point."""
    why = "no line is a pair of numbers"
    for at, text in header[:1]:
        fields, strange = _strange(text, reading)
        why += f"; line {at} says: {_shown(text)}" + (f"; {COLUMNS}" if len(fields) - strange > 1 and not reading.columns else "")
    return why


# ---- all lines


def _lines(places: List[int]) -> str:
    """Line numbers in words: line 3, or lines 1 to 3, 7."""
    spans: List[List[int]] = []
    for at in places:
        if spans and spans[-1][1] == at - 1:
            spans[-1][1] = at
        else:
            spans.append([at, at])
    words = ", ".join(str(a) if a == b else f"{a} to {b}" for a, b in spans[:8])
    return ("line " if len(places) == 1 else "lines ") + words + (f" and so on, {len(places)} in all" if len(spans) > 8 else "")


class _Lines:
    """What the lines of a file say."""

    def __init__(self, name: str, reading: Reading) -> None:
        self.name, self.reading = name, reading
        self.numbers = array("d")
        # the lines of the first two pairs, each with its number and its counts of columns, without empty ones at its end and with them; whether the first pair is written as counts are, and whether all
        # others have decimals; and how many pairs stand before each empty line
        self.first: List[Tuple[int, str, Tuple[int, int]]] = []
        self.written_as_counts = False
        self.decimals = True
        self.gaps: List[int] = []
        # what is passed over, with the number of its line
        self.skipped: List[Tuple[int, str]] = []
        self.header: List[Tuple[int, str]] = []
        self.comments: List[Tuple[int, str]] = []
        self.wider: List[int] = []

    def take(self, at: int, line: str) -> None:
        """One more line."""
        whole = line.lstrip("\ufeff").rstrip().lstrip(" ")
        text, comment = _without_comment(whole)
        pairs = len(self.numbers) // 2
        if at <= self.reading.skip:
            self.skipped += [(at, whole)] if whole else []
        elif not text.strip(_SEPARATORS):
            if comment:
                self.comments.append((at, comment))
            elif pairs not in (0, *self.gaps[-1:]):
                self.gaps.append(pairs)
        else:
            fields = _fields(text, self.reading)
            picked = _picked(fields, self.reading)
            pair = [_number(field, self.reading.decimal_comma) for field in picked]
            if len(pair) == 2 and None not in pair:
                self.numbers.extend(pair)  # type: ignore[arg-type]
                if not pairs:
                    self.written_as_counts = all(map(_WHOLE.fullmatch, picked)) and any(pair)
                elif self.decimals:
                    self.decimals = all(map(_DECIMALS.search, picked))
                if pairs < 2:
                    end = text[len(text.rstrip(_SEPARATORS)) :]
                    self.first.append((at, whole, (len(fields), len(fields) + end.count(",") + end.count(";"))))
                self.comments += [(at, comment)] if comment else []
                self.wider += [at] if len(fields) > 2 else []
            elif not pairs and not any(map(_begins_with_number, [text, *(picked if self.reading.columns else ())])):
                self.header.append((at, whole))
            else:
                raise Unreadable(f"{self.name}: {_no_point(at, whole, self.reading, not pairs)}")

    def contour(self, tell: Callable[[str], None]) -> "array[float]":
        """The points, after the last line. Tells what was passed over, and of a Lednicer file that it is one."""
        if not self.numbers:
            raise Unreadable(f"{self.name}: {_no_points(self.header, self.reading)}")
        numbers = self._surfaces() if self._counts() else self.numbers
        for note in self._notes():
            tell(f"{self.name}: {note}")
        if numbers is not self.numbers:
            at, text, _ = self.first[0]
            tell(f"{self.name}: line {at} counts the points of two surfaces: a Lednicer file, read as one contour, the upper surface backwards and then the lower one: {_shown(text)}")
        return numbers

    def _notes(self) -> List[str]:
        notes = []
        if self.skipped:
            at, text = self.skipped[-1]
            notes.append(f"{_lines([k for k, _ in self.skipped])} passed over by --skip; line {at}: {_shown(text)}")
        notes += [f"line {at} passed over: {_shown(text)}" for at, text in self.header[:TOLD_SINGLY]]
        if self.header[TOLD_SINGLY:]:
            notes.append(f"{_lines([k for k, _ in self.header[TOLD_SINGLY:]])} passed over")
        if self.comments:
            at, text = self.comments[0]
            notes.append(f"comments passed over in {_lines([k for k, _ in self.comments])}; line {at}: {_shown(text)}")
        if self.wider:
            notes.append("columns but {} and {} passed over in ".format(*self.reading.columns or ()) + _lines(self.wider))
        return notes

    def _counts(self) -> bool:
        """Whether the first pair counts the points of two surfaces; Unreadable where it may do so and may be a point."""
        at, text, wide = self.first[0]
        upper, lower = self.numbers[:2]
        behind = len(self.numbers) // 2 - 1
        whole = upper >= 0 and lower >= 0 and upper.is_integer() and lower.is_integer()
        fit = whole and upper > 0 and lower > 0 and upper + lower == behind
        if self.reading.format == "points":
            return False
        if self.reading.format == "lednicer":
            if not fit:
                raise Unreadable(f"{self.name}: line {at} doesn't count the {behind} points behind it as those of two surfaces: {_shown(text)}")
            return True
        # a Lednicer file has an empty line behind the counts, and one between the surfaces
        gaps = [k for k in self.gaps if k <= behind]
        if fit and self._from_one_end(int(upper), gaps == [1, 1 + upper]):
            return True
        why = ""
        if self.reading.columns and any(wide[0] != others[0] and wide[1] != others[1] for _, _, others in self.first[1:]):
            why = f"line {at} has {wide[0]} columns, and the next point has {self.first[1][2][0]}"
        elif whole and min(upper, lower) > 1 and gaps[:1] == [1] and len(gaps) < 3 and not (fit and gaps[1:] in ([], [1 + upper])):
            blocks = " and ".join(str(b - a) for a, b in zip(gaps, [*gaps[1:], behind + 1]))
            why = f"line {at} counts points as a Lednicer file does, and {blocks} stand behind it"
        elif fit or (behind and self.written_as_counts and behind in (upper, lower)):
            why = f"line {at} is a point, or counts the {behind} points behind it"
        elif behind and self.written_as_counts and self.decimals:
            why = f"line {at} is a point, or counts points, since its numbers are whole and all others have decimals"
        if why:
            both = ", --format lednicer for the counts of two surfaces" if fit else ""
            raise Unreadable(f"{self.name}: {why}: {_shown(text)}; --format points takes it for a point{both}, --skip {at} passes over it")
        return False

    def _halves(self, upper: int) -> Tuple["array[float]", "array[float]"]:
        return self.numbers[2 : 2 + 2 * upper], self.numbers[2 + 2 * upper :]

    def _from_one_end(self, upper: int, apart: bool) -> bool:
        """Whether two surfaces begin at one end of the blade, as those of a contour don't, whose second half begins where the first one ends: at one point, or, where they stand apart in the file, nearer
        to it than to the first one's end."""
        a, b = self._halves(upper)
        return (apart or a[:2] == b[:2]) and math.hypot(a[0] - b[0], a[1] - b[1]) < math.hypot(a[-2] - b[0], a[-1] - b[1])

    def _surfaces(self) -> "array[float]":
        """The upper surface backwards, then the lower one. The leading edge stands in both, and cleaning keeps one of the two."""
        a, b = self._halves(int(self.numbers[0]))
        contour = array("d")
        for k in range(len(a) - 2, -1, -2):
            contour.extend(a[k : k + 2])
        contour.extend(b)
        return contour


def read(name: str, reading: Reading = Reading(), tell: Callable[[str], None] = lambda note: None) -> "array[float]":
    """The numbers of a file, x, y, x, y and so on; `-` is standard input. `tell` is handed a sentence for everything that is passed over."""
    shown = "standard input" if name == "-" else name
    try:
        if name == "-" and sys.stdin is None:
            raise Unreadable("standard input: it is closed")
        with open(sys.stdin.fileno() if name == "-" else name, encoding="utf-8-sig", errors="replace", closefd=name != "-") as file:
            lines = _Lines(shown, reading)
            for at, line in enumerate(file, 1):
                lines.take(at, line)
        return lines.contour(tell)
    except (OSError, ValueError) as error:
        raise Unreadable(f"{shown}: {getattr(error, 'strerror', None) or error}") from error

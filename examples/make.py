"""Makes the four sections beside this file from published formulas: the four-digit thickness and camber lines of NACA (Report 460).

Run it in any folder: python3 examples/make.py. It writes the .dat files anew, the same bytes each time."""

from __future__ import annotations

import math
from pathlib import Path
from typing import List, Tuple

HERE = Path(__file__).resolve().parent
Point = Tuple[float, float]


def thickness(x: float, most: float, closed: bool) -> float:
    """Half the thickness of a four-digit section at x of the chord; `closed` takes the last factor that brings the trailing edge to zero."""
    last = 0.1036 if closed else 0.1015
    return 5 * most * (0.2969 * math.sqrt(x) - 0.1260 * x - 0.3516 * x**2 + 0.2843 * x**3 - last * x**4)


def camber(x: float, most: float, at: float) -> Tuple[float, float]:
    """The camber line's height and slope."""
    if most == 0:
        return 0.0, 0.0
    if x < at:
        return most / at**2 * (2 * at * x - x * x), 2 * most / at**2 * (at - x)
    return most / (1 - at) ** 2 * (1 - 2 * at + 2 * at * x - x * x), 2 * most / (1 - at) ** 2 * (at - x)


def four_digit(chord: float, m: float, p: float, t: float, n: int, closed: bool, until: float = 1.0) -> List[Point]:
    """From the trailing edge over the upper side to the leading edge and back below, n points a side."""
    stations = [until * (1 - math.cos(math.pi * k / n)) / 2 for k in range(n + 1)]
    upper, lower = [], []
    for x in stations:
        y, slope = camber(x, m, p)
        half, turn = thickness(x, t, closed), math.atan(slope)
        upper.append((chord * (x - half * math.sin(turn)), chord * (y + half * math.cos(turn))))
        lower.append((chord * (x + half * math.sin(turn)), chord * (y - half * math.cos(turn))))
    return upper[::-1] + lower[1:]


def noisy(points: List[Point], size: float) -> List[Point]:
    """Measuring noise from a fixed generator: a 64-bit linear congruence, its upper bits."""
    state, out = 2026, []
    for x, y in points:
        pair = []
        for v in (x, y):
            state = (state * 6364136223846793005 + 1442695040888963407) % 2**64
            pair.append(v + size * ((state >> 11) / 2**53 - 0.5))
        out.append((pair[0], pair[1]))
    return out


def write(name: str, title: str, points: List[Point]) -> None:
    text = title + "\n" + "".join(f"{x:.6f} {y:.6f}\n" for x, y in points)
    (HERE / name).write_text(text, encoding="utf-8")


if __name__ == "__main__":
    write("thick.dat", "a thick symmetric section, NACA 0024, chord 60", four_digit(60, 0, 0, 0.24, 61, True))
    write("compressor.dat", "a cambered compressor blade with measuring noise, NACA 6409, chord 40", noisy(four_digit(40, 0.06, 0.4, 0.09, 80, True), 0.002))
    write("open.dat", "a cambered blade with an open trailing edge, NACA 4415 cut at 0.95 of its chord, chord 50", four_digit(50, 0.04, 0.4, 0.15, 60, False, 0.95))
    write("wafer.dat", "a thin wafer, 0.4 mm at its thickest, NACA 2402, chord 20", four_digit(20, 0.02, 0.4, 0.02, 61, True))

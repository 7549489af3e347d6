"""The picture of a blade, as SVG: to scale, y upwards, with both ends enlarged, a legend and the ending.

Nothing is worked out here but where things stand on the page; every number shown comes from the library."""

from __future__ import annotations

import math
from html import escape
from typing import List, Optional, Sequence, Tuple

from . import Inscribed
from .blade import Blade

WIDE, MARGIN, HIGHEST = 1000.0, 40.0, 560.0
DETAIL_WIDE, DETAIL_HIGH = 450.0, 230.0
TEXT, ROW = 17.0, 27.0

SECTION, REST, CIRCLE, TINT, THICKEST = "#222222", "#b5b5b5", "#4488bb", "#e4eff8", "#ee7733"
DROPPED = "#c9d6e2"
CAMBER, P0, P1, REFERENCE, EDGE, HIT = "#cc3311", "#009988", "#aa4499", "#888888", "#dd2277", "#ccaa00"
GOOD, BAD = "#117733", "#bb1111"

Point = Tuple[float, float]


class _Page:
    """A window on the blade: the millimetres from (left, high) on, so many page units to a millimetre."""

    def __init__(self, left: float, high: float, scale: float) -> None:
        self.left, self.high, self.scale = left, high, scale

    def at(self, p: Point) -> Point:
        return ((p[0] - self.left) * self.scale, (self.high - p[1]) * self.scale)

    def path(self, points: Sequence[Point]) -> str:
        return "M" + "L".join(f"{x:.2f},{y:.2f}" for x, y in map(self.at, points))

    def disc(self, c: Inscribed) -> str:
        (x, y), r = self.at(c.center), c.r * self.scale
        return f"M{x - r:.2f},{y:.2f}a{r:.2f},{r:.2f} 0 1 0 {2 * r:.2f},0a{r:.2f},{r:.2f} 0 1 0 {-2 * r:.2f},0"


def _stroke(colour: str, width: float, dash: str = "") -> str:
    return f'fill="none" stroke="{colour}" stroke-width="{width:g}"' + (f' stroke-dasharray="{dash}"' if dash else "")


def _dot(p: Point, r: float, colour: str) -> str:
    return f'<circle cx="{p[0]:.2f}" cy="{p[1]:.2f}" r="{r:g}" fill="{colour}"/>'


def _text(x: float, y: float, words: str, colour: str = SECTION, size: float = TEXT, more: str = "") -> str:
    return f'<text x="{x:.1f}" y="{y:.1f}" font-size="{size:g}" fill="{colour}"{more}>{escape(words)}</text>'


def _tooltip(title: str, c: Inscribed) -> str:
    return f"<title>{title}: " + ", ".join(f"{name} {value!r}" for name, value in zip(c._fields, c)) + "</title>"


def _stopped(blade: Blade) -> Optional[int]:
    """The circle at which a run was spent or refused: the newest one."""
    if not blade.number or not blade.circles or blade.step not in ("circles", "open edge"):
        return None
    return 0 if blade.edge_at == "front" else len(blade.circles) - 1


def _drawing(blade: Blade, page: _Page, wide: float, high: float, bold: float) -> List[str]:
    """Everything that lies in a window; strokes and dots are `bold` times as large as in the whole picture."""
    section = blade.section
    assert section is not None
    points = section.points()
    stop = _stopped(blade)

    def seen(c: Inscribed) -> bool:
        (x, y), r = page.at(c.center), c.r * page.scale
        return -r <= x <= wide + r and -r <= y <= high + r

    shown = [(k, c) for k, c in enumerate(blade.circles) if seen(c)]
    out = [f'<path d="{"".join(page.disc(c) for _, c in shown)}" fill="{TINT}"/>'] if shown else []
    for c in filter(seen, blade.dropped or ()):
        out.append(f'<g class="c">{_tooltip("dropped", c)}<path d="{page.disc(c)}" {_stroke(DROPPED, 0.5 * bold)}/></g>')
    if blade.stretch is not None and blade.curve is not None:
        out.append(f'<path d="{page.path(blade.curve.points())}" {_stroke(REST, 1.3 * bold)} stroke-linejoin="round"/>')
    out.append(f'<path d="{page.path(points)}" {_stroke(SECTION, 1.3 * bold)} stroke-linejoin="round"/>')
    for k, c in shown:
        out.append(f'<g class="c">{_tooltip(f"circle {k}", c)}<path d="{page.disc(c)}" {_stroke(CIRCLE, 0.6 * bold)}/>{_dot(page.at(c.p0), 1.5 * bold, P0)}{_dot(page.at(c.p1), 1.5 * bold, P1)}</g>')
    if blade.line is not None:
        d = blade.line
        far = math.hypot(d.dx, d.dy) or 1.0
        reach = (wide + high) / page.scale + math.hypot(d.ox - points[0][0], d.oy - points[0][1])
        ux, uy = d.dx / far * reach, d.dy / far * reach
        if math.isfinite(ux) and math.isfinite(uy) and math.isfinite(reach):
            out.append(f'<path d="{page.path([(d.ox - ux, d.oy - uy), (d.ox + ux, d.oy + uy)])}" {_stroke(REFERENCE, 1.2 * bold, "6 4")}/>')
    if blade.crossing is not None:
        x = blade.crossing.line
        for i, hit in zip(blade.crossing.edges, ((x.ox, x.oy), (x.ox + x.dx, x.oy + x.dy))):
            at = page.at(hit)
            out.append(f'<g><title>the reference line crosses edge {i}</title><path d="{page.path(points[i : i + 2])}" {_stroke(HIT, 4 * bold)} stroke-linecap="round"/>{_dot(at, 2.6 * bold, HIT)}</g>')
    if not section.is_closed:
        out.append(f'<path d="{page.path([points[0], points[-1]])}" {_stroke(EDGE, 1.6 * bold, "4 3")}/>')
    for ringed, colour in ((blade.thickest, THICKEST), (stop, BAD)):
        if ringed is not None:
            c = blade.circles[ringed]
            out.append(f'<g>{_tooltip(f"circle {ringed}", c)}<path d="{page.disc(c)}" {_stroke(colour, 2.2 * bold)}/></g>')
    if blade.camber is not None:
        out.append(f'<path d="{page.path(blade.camber.points())}" {_stroke(CAMBER, 1.6 * bold)}/>')
    if blade.edge is not None:
        x, y = page.at(blade.edge)
        out.append(f'<g><title>open-edge point {blade.edge[0]!r}, {blade.edge[1]!r}</title><circle cx="{x:.2f}" cy="{y:.2f}" r="{3.4 * bold:g}" fill="{EDGE}" stroke="#ffffff" stroke-width="1.2"/></g>')
    return out


def _window(x: float, y: float, wide: float, high: float, inside: List[str], frame: bool) -> List[str]:
    edge = f'<rect x="{x:g}" y="{y:.1f}" width="{wide:g}" height="{high:.1f}" {_stroke("#cccccc", 1)}/>'
    return [f'<svg x="{x:g}" y="{y:.1f}" width="{wide:g}" height="{high:.1f}">', *inside, "</svg>"] + ([edge] if frame else [])


def _legend(blade: Blade) -> List[Tuple[str, str]]:
    """A sign, drawn around (0, 0), and what it stands for."""
    section = blade.section
    assert blade.curve is not None and section is not None

    def line(colour: str, dash: str = "") -> str:
        return f'<path d="M-16,0H16" {_stroke(colour, 2.4, dash)}/>'

    def ring(colour: str, width: float) -> str:
        return f'<circle r="9" {_stroke(colour, width)}/>'

    rows = [(line(REST if blade.stretch else SECTION), f"section, {len(blade.curve.points())} of {blade.points} points kept, {'closed' if blade.curve.is_closed else 'open'}")]
    if blade.stretch is not None:
        rows.append((line(SECTION), f"stretch, {len(section.points())} of {blade.stretch.given} points kept, {'closed' if section.is_closed else 'open'}"))
    if blade.line is not None:
        d = blade.line
        rows.append((line(REFERENCE, "6 4"), f"reference line from ({d.ox:.3g}, {d.oy:.3g}) along ({d.dx:.3g}, {d.dy:.3g})"))
    if blade.crossing is not None:
        rows.append((f'<path d="M-16,0H16" {_stroke(HIT, 5)}/>', "the edges that it crosses, {} and {}".format(*blade.crossing.edges)))
    if blade.circles:
        circles = "inscribed circles" if blade.dropped is None else f"of {blade.found} circles kept"
        rows.append((ring(CIRCLE, 1.2), f"{len(blade.circles)} {circles}, {blade.units} units" + (", one march" if blade.march else "") + (f", {blade.offered} offered" if blade.offered is not None else "") + (", cell" if blade.cell else "")))
        rows.append((_dot((-7, 0), 3.5, P0) + _dot((7, 0), 3.5, P1), "their contacts, p0 and p1"))
        if blade.dropped:
            rows.append((ring(DROPPED, 1.2), f"those that thinning dropped, {blade.thin_units} units"))
    stop = _stopped(blade)
    if stop is not None:
        rows.append((ring(BAD, 2.6), f"it stopped here, at circle {stop}"))
    if blade.thickest is not None:
        rows.append((ring(THICKEST, 2.6), f"greatest thickness {2 * blade.circles[blade.thickest].r:.6g}, circle {blade.thickest}"))
    if blade.camber_length is not None:
        rows.append((line(CAMBER), f"camber line, length {blade.camber_length:.6g}" + (", as far as it came" if stop is not None else "")))
    if not section.is_closed:
        rows.append((line(EDGE, "4 3"), "gap"))
    if blade.edge is not None:
        rows.append((_dot((0, 0), 5, EDGE), f"open-edge point ({blade.edge[0]:.6g}, {blade.edge[1]:.6g}), at the {blade.edge_at}"))
    return rows


def _bar(scale: float) -> Tuple[float, str]:
    """A round length of some 100 to 250 page units, and its name."""
    most = 250 / scale
    size = 10.0 ** math.floor(math.log10(most))
    size *= 5 if 5 * size <= most else 2 if 2 * size <= most else 1
    return size * scale, f"{size:g} mm"


def _detail(blade: Blade, k: int, chord: float, scale: float, x: float, y: float) -> List[str]:
    """The window around circle k, and how much larger it is than the whole."""
    c = blade.circles[k]
    high = max(min(6 * c.r, chord / 8), chord / 150)
    page_scale = DETAIL_HIGH / high
    page = _Page(c.cx - DETAIL_WIDE / page_scale / 2, c.cy + high / 2, page_scale)
    words = f"circle {k}, {'the first' if k == 0 else 'the last'}: {page_scale / scale:.3g} times as large"
    return [_text(x, y - 8, words, size=15)] + _window(x, y, DETAIL_WIDE, DETAIL_HIGH, _drawing(blade, page, DETAIL_WIDE, DETAIL_HIGH, 1.5), True)


def svg(blade: Blade, title: str) -> str:
    """The picture as text. Where not even cleaning gave a curve it has the ending alone."""
    colour = BAD if blade.number else GOOD
    out = [
        f'<rect x="0" y="46" width="{WIDE:g}" height="34" fill="{colour}"/>',
        _text(MARGIN, 32, title, size=22),
        _text(MARGIN, 69, blade.ending, "#ffffff", 18, ' font-weight="bold"'),
    ]
    y = 80.0
    if blade.curve is not None:
        points = blade.curve.points() + ([blade.edge] if blade.edge else [])
        xs, ys = [p[0] for p in points], [p[1] for p in points]
        wide, high = max(xs) - min(xs), max(ys) - min(ys)
        scale = min((WIDE - 2 * MARGIN) / (wide or high or 1.0), HIGHEST / (high or wide or 1.0))
        tall = high * scale + 2 * MARGIN
        left = min(xs) - (WIDE / scale - wide) / 2
        page = _Page(left, max(ys) + MARGIN / scale, scale)
        out += _window(0, y, WIDE, tall, _drawing(blade, page, WIDE, tall, 1.0), False)
        stop = _stopped(blade)
        if stop is not None:
            x, at = page.at(blade.circles[stop].center)
            side = "end" if x > WIDE / 2 else "start"
            out.append(f'<path d="M{x:.1f},{y + at:.1f}V{y + 24:.1f}" {_stroke(BAD, 1.4)}/>')
            out.append(_text(x + (-6 if side == "end" else 6), y + 22, "it stopped here", BAD, more=f' text-anchor="{side}" font-weight="bold"'))
        y += tall
        bar, words = _bar(scale)
        out.append(f'<path d="M{MARGIN:g},{y - 6:.1f}v6h{bar:.2f}v-6" {_stroke(SECTION, 1.4)}/>')
        out.append(_text(MARGIN + bar + 8, y + 3, words, size=15))
        y += 14
        if blade.circles:
            y += 34
            for x, k in zip((MARGIN, WIDE - MARGIN - DETAIL_WIDE), (0, len(blade.circles) - 1)):
                out += _detail(blade, k, max(wide, high), scale, x, y)
            y += DETAIL_HIGH
        y += 14
        rows = _legend(blade)
        half = (len(rows) + 1) // 2
        for i, (sign, words) in enumerate(rows):
            x, at = MARGIN + (i // half) * 500, y + ROW * (i % half + 0.8)
            out.append(f'<g transform="translate({x + 16:g},{at - 5:.1f})">{sign}</g>')
            out.append(_text(x + 42, at, words, size=16))
        y += ROW * half
    y += 16
    head = [
        f'<svg xmlns="http://www.w3.org/2000/svg" viewBox="0 0 {WIDE:g} {y:.0f}" width="{WIDE:g}" height="{y:.0f}" font-family="sans-serif">',
        f"<title>{escape(title)}: {escape(blade.ending)}</title>",
        "<style>.c:hover path{stroke:#000000;stroke-width:2.5}</style>",
        f'<rect width="{WIDE:g}" height="{y:.0f}" fill="#ffffff"/>',
    ]
    return "\n".join([*head, *out, "</svg>"]) + "\n"

#!/usr/bin/env python3
"""Cuts the published functions that the oracle runs out of engeom's source, as they are.

cut.py OUT [SOURCE]: writes OUT from the files in SOURCE (by default ../shared/docs/src beside the repository). Nothing of the source's
text is kept in the repository. An item is cut from its first line to the closing brace that stands under it; its attributes
(serde's derives) and comments are left behind, and `derive` below says which of Rust's own derives stands instead.
"""

import os
import sys

ROOT = os.path.dirname(os.path.dirname(os.path.abspath(__file__)))

# File, then the items: the beginning of an item's first line, or that of an impl with the functions taken from it.
# A first word @.. is a derive that stands before the item.
TAKEN = [
    ("errors.rs", ["@Debug", "pub enum InvalidGeometry", "impl Display for InvalidGeometry", "impl Error for InvalidGeometry {}"]),
    ("common--points.rs", ["pub fn dist<", "pub fn mid_point<"]),
    (
        "geom2--circle2.rs",
        ["@Debug, Clone, Copy", "pub struct Circle2", ("impl Circle2 {", ["from_point", "r"]), "impl PCoords<2> for Circle2"],
    ),
    (
        "geom2--curve2.rs",
        [
            "@Clone, Copy",
            "pub struct CurveStation2<'a>",
            ("impl<'a> CurveStation2<'a> {", ["new", "point", "direction", "index", "fraction", "length_along", "surface_point", "direction_line"]),
            "@Clone",
            "pub struct Curve2 {",
            (
                "impl Curve2 {",
                [
                    "points",
                    "vtx",
                    "from_points",
                    "count",
                    "lengths",
                    "tol",
                    "dir_of_edge",
                    "dir_of_vertex",
                    "at_vertex",
                    "at_front",
                    "at_back",
                    "at_length",
                    "is_closed",
                    "length",
                    "reversed",
                    "clone_points",
                ],
            ),
        ],
    ),
    ("geom2--curve2--partitioning.rs", [("impl Curve2 {", ["between_lengths", "split_open_at_length", "split_closed_at_lengths"])]),
    (
        "airfoil2.rs",
        [
            "pub struct SectionInput<'a>",
            ("impl<'a> SectionInput<'a> {", ["new"]),
            "@Debug, Clone, Copy",
            "pub enum AfEdgeGeometry",
            "@Debug, Clone, Copy",
            "pub struct AfEdge {",
            "impl AfEdge {",
        ],
    ),
    (
        "airfoil2--inscribed.rs",
        [
            "@Debug, Clone",
            "pub struct Inscribed {",
            "impl Inscribed {",
            "pub struct InscribedVec {",
            (
                "impl InscribedVec {",
                [
                    "empty",
                    "iter",
                    "len",
                    "is_empty",
                    "new",
                    "reverse_points",
                    "reverse_order",
                    "reverse_order_only",
                    "pop",
                    "take_vec",
                    "last",
                    "first",
                    "extend",
                    "refine_and_push",
                    "index_of_tmax",
                    "camber_curve",
                    "front_and_back",
                    "average_spacing",
                    "throw_if_less_than",
                    "end_clip_line",
                ],
            ),
            "impl Index<usize> for InscribedVec",
            "impl<'a> SectionInput<'a> {",
        ],
    ),
    ("airfoil2--camber.rs", ["const EDGE_STOP_FRACTION", "fn extract_half_circles(", "fn advance_search(", "fn remaining("]),
    (
        "airfoil2--orient.rs",
        [
            "@Debug, Clone, Copy",
            "pub enum OrientFwdAft",
            "impl OrientFwdAft {",
            "@Debug, Clone, Copy",
            "pub enum OrientUpperLower",
            "impl OrientUpperLower {",
            "fn check_dir_upper(",
            "fn check_curvature_upper(",
            "fn check_dir_fwd(",
            "fn check_tmax_fwd(",
        ],
    ),
    ("airfoil2--geometry.rs", ["fn make_camber_curve("]),
    (
        "airfoil2--edges.rs",
        [
            "@Clone, Debug",
            "pub struct AfEdgeFit",
            "impl AfEdgeFit {",
            "pub fn fit_open_edge(",
            "pub fn is_open_at_end(",
            "fn open_gap_segment(",
            "fn end_camber_ray(",
            "fn end_cap_intersection(",
            "struct EdgeWork {",
            ("impl EdgeWork {", ["last", "new", "take_circles"]),
        ],
    ),
]


def end_of(lines, start, indent):
    """The line after an item that starts at `start`: one line alone, or as far as the brace under it."""
    first = lines[start].rstrip()
    if first.endswith(";") or first.endswith("{}"):
        return start + 1
    for i in range(start, len(lines)):
        if lines[i].rstrip() == indent + "}":
            return i + 1
    sys.exit("no end: " + first)


def find(lines, beginning, start=0, end=None):
    found = [i for i in range(start, end or len(lines)) if lines[i].startswith(beginning)]
    if not found:
        sys.exit("not found: " + beginning)
    return found


def functions(lines, header, names):
    """The impl with that header (all of them, where there are several) and of its functions those that are named."""
    out = [header + "\n"]
    blocks = [(s, end_of(lines, s, "")) for s in find(lines, header)]
    for name in names:
        for start, end in blocks:
            heads = [
                i
                for i in range(start, end)
                if lines[i].startswith(("    pub fn " + name + "(", "    fn " + name + "(", "    pub fn " + name + "<"))
            ]
            if heads:
                out += lines[heads[0] : end_of(lines, heads[0], "    ")]
                break
        else:
            sys.exit("no function " + name + " in " + header)
    return out + ["}\n"]


def main():
    source = sys.argv[2] if len(sys.argv) > 2 else os.path.join(ROOT, "..", "shared", "docs", "src")
    out = ["// Cut out of engeom's source by oracle/cut.py.\n"]
    for name, items in TAKEN:
        path = os.path.join(source, "src--engeom--src--" + name + ".txt")
        lines = open(path, encoding="utf-8").read().splitlines(keepends=True)
        for item in items:
            if isinstance(item, tuple):
                out += functions(lines, *item)
            elif item.startswith("@"):
                out.append("#[derive(" + item[1:] + ")]\n")
                continue
            else:
                start = find(lines, item)[0]
                out += lines[start : end_of(lines, start, "")]
            out.append("\n")
    with open(sys.argv[1], "w", encoding="utf-8") as f:
        f.writelines(out)


main()

"""The Python module and the command: the worked rows bit for bit, refusals, the floating-point arithmetic that a call wants, files and what is passed over in them, outputs, exit status, and what the command
prints for the examples."""

from __future__ import annotations

import ctypes
import json
import os
import pickle
import platform
import pty
import re
import resource
import shutil
import signal
import stat
import struct
import subprocess
import sys
import tempfile
import threading
import time
import unittest
from array import array
from concurrent.futures import ThreadPoolExecutor
from pathlib import Path
from unittest import mock
from xml.etree import ElementTree

ROOT = Path(__file__).resolve().parents[1]
sys.path.insert(0, str(ROOT / "python"))

import rummyteak as rt  # noqa: E402
from rummyteak._library import StateCells, call  # noqa: E402
from rummyteak.blade import Blade, Options, Paused, _Steps, worked_out  # noqa: E402
from rummyteak.files import Reading, Unreadable, read  # noqa: E402
from rummyteak.outputs import put  # noqa: E402
from rummyteak.report import ADVICE, table  # noqa: E402
from rummyteak.states import as_state, read_state  # noqa: E402

R = [0, 0, 8, 0, 8, 2, 0, 2, 0, 0]
U = R[:8]
T, G = 0.001, 0.01
PAIR = (rt.Inscribed(4, 1, 1, 4, 0, 4, 2, 4, 14), rt.Inscribed(5, 1, 1, 5, 0, 5, 2, 5, 13))
# What has a result on every input.
REFUSE_NOTHING = {"transpose_words"}
UNIT = rt.Inscribed(4, 1.00048828125, 0.99951171875, 4, 0, 4, 2, 4, 14)


def bits(x: float) -> int:
    return struct.unpack("<Q", struct.pack("<d", x))[0]


class Rows(unittest.TestCase):
    def refused(self, number, function, *args):
        with self.assertRaises(rt.Refused) as caught:
            function(*args)
        self.assertEqual(caught.exception.number, number)
        self.assertIn(rt.WORDS[number], str(caught.exception))

    def test_roots(self):
        self.assertEqual(rt.sqrt(25), 5)
        self.assertEqual(bits(rt.sqrt(2)), 0x3FF6A09E667F3BCD)
        self.refused(12, rt.sqrt, -1.0)
        self.refused(2, rt.sqrt, float("nan"))

    def test_cleaning(self):
        four = [(0, 0), (0.5, 0), (1, 0), (1.5, 0)]
        curve = rt.from_points(four, 0.5)
        self.assertEqual((list(curve.numbers), curve.is_closed), ([0, 0, 1, 0], False))
        self.refused(5, rt.from_points, four[:2], 0.5)
        self.refused(1, rt.from_points, [], 0.5)
        self.assertEqual(rt.from_points(array("d", [0, 0, 0.5, 0, 1, 0, 1.5, 0]), 0.5), curve)
        self.assertEqual(rt.reversed(R, T).points(), [(0, 0), (0, 2), (8, 2), (8, 0), (0, 0)])

    def test_stations(self):
        s = rt.at_length(R, T, 9)
        self.assertEqual((s.x, s.y, s.index, s.fraction), (8, 1, 1, 0.5))
        s = rt.at_length(R, T, 20)
        self.assertEqual((s.index, s.fraction), (3, 1))
        self.refused(9, rt.at_length, R, T, -0.5)
        self.assertTrue(rt.is_closed(R, T))
        self.assertFalse(rt.is_closed(U, T))
        self.assertEqual(rt.length(R, T), 20)
        self.assertEqual(rt.at_front(R, T).x, 0)
        self.assertEqual(rt.at_back(U, T).y, 2)
        self.assertEqual(rt.at_vertex(R, T, 1).x, 8)
        self.refused(4, rt.at_vertex, R, T, 5)
        self.assertEqual(rt.at_closest_to_point(R, T, 4, -1).y, 0)
        self.assertEqual(rt.length_along(R, T, 1, 0.5), 9)

    def test_stretches(self):
        piece = rt.between_lengths(R, T, 5, 4)
        self.assertEqual((piece.points(), piece.is_closed, piece.given), ([(5, 0), (8, 0), (8, 2), (0, 2), (0, 0), (4, 0)], False, 6))
        self.assertEqual([p.points() for p in rt.split_open_at_length(U, T, 9)], [[(0, 0), (8, 0), (8, 1)], [(8, 1), (8, 2), (0, 2)]])
        self.assertEqual([p.points() for p in rt.split_closed_at_lengths(R, T, 0, 8)], [[(0, 0), (8, 0)], [(8, 0), (8, 2), (0, 2), (0, 0)]])
        self.refused(21, rt.between_lengths, U, T, 5, 4)
        self.refused(9, rt.between_lengths, R, T, 5, 21)
        self.refused(22, rt.split_open_at_length, R, T, 9)
        self.refused(22, rt.split_closed_at_lengths, U, T, 4, 9)

    def test_crossings(self):
        self.assertEqual(rt.crossing_line(R, T, (4, 1, 0, 1)), rt.Crossing(rt.Line2(4, 0, 0, 2), (0, 2)))
        self.assertEqual(rt.crossing_line(R, T, (0, 0, 1, -1)).edges, (0, 3))
        self.refused(8, rt.crossing_line, R, T, (4, 1, 4, 1))
        self.assertEqual(rt.joined_crossing(R, T, (4, 1, 4, 1)), rt.Crossing(rt.Line2(0, 0, 8, 2), (0, 1)))

    def test_circles(self):
        self.assertEqual(rt.inscribed_from_crossing(R, T, G, (4, 0, 0, 2)), UNIT)
        self.assertEqual(rt.try_inscribed(R, T, G, (4, 1, 0, 1)), rt.CircleOnLine(UNIT, (0, 2)))
        self.assertIsNone(rt.inscribed_refined(R, T, G, *PAIR))
        self.refused(2, rt.inscribed_refined, R, T, G, PAIR[0]._replace(l1=-1), PAIR[1])
        self.assertIsNone(rt.inscribed_refined(R, T, G, PAIR[0]._replace(l0=-0.0), PAIR[1]))
        self.refused(12, rt.inscribed_from_crossing, R, T, 1000, (1e160, 0, 1, 0))
        again = rt.try_inscribed((0, 0, 4, 0, 3, 1, 0, 0), T, G, (1, 0.1, 0, 1)).circle
        self.assertEqual(again.l1.hex(), "0x1.e4e2bb224d2acp+2")
        self.refused(3, rt.try_inscribed, R, T, 1e-7, (4, 1, 0, 1))

    def test_lists(self):
        radii = [rt.Inscribed(x, 1, r, x, 0, x, 2, x, 18 - x) for x, r in ((1, 1), (2, 3), (4, 3), (5, 2))]
        self.assertEqual(rt.index_of_tmax(radii), 2)
        self.assertEqual(rt.front_and_back(PAIR), PAIR)
        self.assertEqual(rt.average_spacing(PAIR), 1)
        self.refused(7, rt.average_spacing, PAIR[:1])
        self.assertEqual(rt.end_clip_line(PAIR).dx, 1)
        self.assertEqual(rt.reverse_order_only(PAIR), PAIR[::-1])
        self.assertEqual(rt.reverse_points(rt.reverse_order(PAIR)), PAIR[::-1])
        self.assertEqual(rt.circles_from(PAIR, 1), PAIR[1:])
        self.refused(4, rt.circles_from, PAIR, 3)
        self.assertEqual(rt.camber_curve(PAIR, T).points(), [(4, 1), (5, 1)])
        self.assertEqual(len(rt.make_camber_curve((0, 1), (8, 1), PAIR, T).points()), 4)

    def test_orientation(self):
        swapped, yes = rt.orient_lower(PAIR, 1, 0)
        self.assertTrue(yes)
        self.assertEqual(swapped, rt.reverse_points(PAIR))
        self.assertEqual(rt.orient_upper(PAIR, -1, 0), (PAIR, False))
        self.assertEqual(rt.orient_fwd(PAIR, 1, 0), (PAIR[::-1], True))
        self.assertEqual(rt.orient_airflow(PAIR, 1, 0), (PAIR, False))
        self.refused(7, rt.orient_tmax_fwd, PAIR[:1])
        self.assertEqual(rt.orient_curvature(PAIR), (rt.reverse_points(PAIR), True))
        self.assertEqual(rt.orient_curvature(rt.reverse_points(PAIR)), (rt.reverse_points(PAIR), False))
        self.refused(7, rt.orient_curvature, PAIR[:1])
        self.refused(5, rt.orient_curvature, PAIR[:1] * 2)
        self.refused(11, rt.orient_curvature, PAIR + PAIR[:1])

    def test_edges(self):
        self.assertTrue(rt.is_open_at_end(U, T, G, PAIR, True))
        fit = rt.fit_open_edge(U, T, G, PAIR, True, 1, 3)
        self.assertEqual((fit.number, fit.point, fit.units), (0, (0, 1.00048828125), 1))
        self.assertEqual([(c.cx, c.l0, c.l1) for c in fit.circles], [(2, 2, 16), (4, 4, 14), (5, 5, 13)])
        self.assertEqual(rt.fit_open_edge(U, T, G, PAIR, False, 1, 3).number, 20)
        spent = rt.fit_open_edge(U, T, G, PAIR, True, 0, 3)
        self.assertEqual((spent.number, spent.circles, spent.units), (14, PAIR, 0))
        self.refused(3, rt.fit_open_edge, U, T, float("nan"), PAIR, True)
        self.refused(23, rt.fit_open_edge, U, G, T, PAIR, True)
        self.assertTrue(rt.is_open_at_end(U, G, T, PAIR, True))

    def written(self, circles):
        """The record of circles by its description, from the standard library alone."""
        record = struct.pack("<H", len(circles))
        for c in circles:
            fields = [bits(x) for x in c]
            record += struct.pack("<H", sum(1 << i for i, field in enumerate(fields) if field))
            record += b"".join(struct.pack("<Q", field) for field in fields if field)
        return record

    def test_records_written_and_read(self):
        marched = rt.march(R, T, G, (4, 1, 0, 1)).circles
        full = [rt.Inscribed(*(1 + (9 * k + i) / 7 for i in range(9))) for k in range(1024)]
        sparse = [rt.Inscribed(*(float(k + i) if k >> i & 1 else 0.0 for i in range(9))) for k in range(512)]
        for circles, length in (
            ((), 2), ((rt.Inscribed(*[0.0] * 9),), 4), ((rt.Inscribed(*[-0.0] * 9),), 76), (full[:1], 76), (PAIR, 134), (marched, None), (sparse, None), (full, 75778),
            ((rt.Inscribed(-1e308, 5e-324, 0, -5e-324, 1e308, -1, -2, 0, 5e-324),), 60),
        ):
            with self.subTest(circles=len(circles), length=length):
                record = rt.write_record(circles)
                self.assertEqual(record, self.written(circles))
                self.assertIn(length, (None, len(record)))
                back = rt.read_record(record, len(circles))
                self.assertEqual([[bits(x) for x in c] for c in back], [[bits(x) for x in c] for c in circles])
                self.assertEqual(rt.read_record(bytearray(record)), back)
        self.assertEqual(rt.write_record([rt.Inscribed(*[-0.0] * 9)])[2:4], b"\xff\x01")

    def test_records_refused(self):
        nan, inf = float("nan"), float("inf")
        record = rt.write_record(PAIR)
        for end in range(len(record)):
            self.refused(24, rt.read_record, record[:end])
        self.refused(24, rt.read_record, record + b"\0")
        self.refused(4, rt.read_record, record, 1)
        self.refused(4, rt.read_record, b"\xff\xff")
        self.refused(4, rt.read_record, struct.pack("<H", 1025) + bytes(2 * 1025))
        self.refused(4, rt.write_record, PAIR * 513)
        one = [struct.pack("<d", x) for x in (3, 2, 1, 3, 1, 3, 3, 3, 9)]
        whole = lambda fields: b"\x01\0\xff\x01" + b"".join(fields)  # noqa: E731
        self.assertEqual(rt.read_record(whole(one)), (rt.Inscribed(3, 2, 1, 3, 1, 3, 3, 3, 9),))
        for bit in range(9, 16):
            for map in (1 << bit, 1 << bit | 0x1FF):
                self.refused(25, rt.read_record, struct.pack("<HH", 1, map))
        for i in range(9):
            with self.subTest(field=i):
                changed = lambda x: whole(one[:i] + [struct.pack("<d", x)] + one[i + 1 :])  # noqa: E731
                zero = changed(0.0)
                self.refused(25, rt.read_record, zero)
                self.refused(25, rt.read_record, zero + b"left over")
                self.refused(25, rt.read_record, zero[: 12 + 8 * i])
                self.refused(24, rt.read_record, zero[: 11 + 8 * i])
                for x in (nan, inf, -inf, -1.0, -5e-324):
                    circle = [*range(1, 10)]
                    circle[i] = x
                    if x == x and x > -inf and x < inf and i not in (2, 7, 8):
                        self.assertEqual(rt.read_record(changed(x))[0][i], x)
                        self.assertEqual(rt.read_record(rt.write_record([circle]))[0], tuple(circle))
                        continue
                    self.refused(2, rt.read_record, changed(x))
                    self.refused(2, rt.read_record, changed(x)[: 12 + 8 * i])
                    self.refused(24, rt.read_record, changed(x)[: 11 + 8 * i])
                    self.refused(2, rt.write_record, [circle])
                    self.refused(2, rt.write_record, [*PAIR, circle])
        # a bad number is met before the bad map behind it, and the other way round
        self.refused(2, rt.read_record, struct.pack("<HHdH", 2, 1, nan, 0xFFFF))
        self.refused(25, rt.read_record, struct.pack("<HHHd", 2, 0x200, 1, nan))
        # the writer: 4 before 2, by the record's own length
        store = (ctypes.c_double * 9)(nan)
        for room, number in ((12, 2), (11, 4), (0, 4)):
            out, written = (ctypes.c_uint8 * 12)(*[77] * 12), ctypes.c_size_t(5)
            self.assertEqual(call("write_record", store, 9, 1, out, room, written), number)
            self.assertEqual((bytes(out), written.value), (b"M" * 12, 5))
        self.assertEqual(call("write_record", store, 9, 2, out, 12, written), 4)
        # no refusal changes the store, one at the last byte neither; a result leaves the later slots and bytes
        store, count = (ctypes.c_double * 27)(*[7.5] * 27), ctypes.c_size_t(5)
        for number, text in ((24, record[:-1]), (24, record + b"\0"), (25, record[:-8] + bytes(8)), (2, record[:-8] + struct.pack("<d", -1))):
            self.assertEqual(call("read_record", (ctypes.c_uint8 * len(text))(*text), len(text), store, 27, count), number)
        self.assertEqual((list(store), count.value), ([7.5] * 27, 5))
        self.assertEqual(call("read_record", (ctypes.c_uint8 * len(record))(*record), len(record), store, 27, count), 0)
        self.assertEqual((list(store), count.value), ([x for c in PAIR for x in c] + [7.5] * 9, 2))
        out = (ctypes.c_uint8 * 140)(*[77] * 140)
        self.assertEqual(call("write_record", store, 27, 2, out, 140, written), 0)
        self.assertEqual((bytes(out), written.value), (record + b"M" * 6, len(record)))

    def test_bytes(self):
        for n in (0, 1, 2, 7, 8, 9, 15, 16, 17, 9216):
            with self.subTest(n=n):
                data = bytes((37 * p + 11 * (p // 256) + 5) % 256 for p in range(8 * n))
                wanted = bytes(data[8 * k + i] for i in range(8) for k in range(n))
                self.assertEqual(rt.shuffle(data), wanted)
                self.assertEqual(rt.unshuffle(wanted), data)
                self.assertTrue(n > 1 or wanted == data)
                for function in (rt.shuffle, rt.unshuffle):
                    out = (ctypes.c_uint8 * (8 * n + 1))(*([77] * (8 * n + 1)))
                    given = (ctypes.c_uint8 * (8 * n))(*data)
                    self.assertEqual(call(function.__name__, given, 8 * n, out, 8 * n + 1), 0)
                    self.assertEqual(bytes(out), function(data) + b"M", "a longer output keeps its rest")
                    out = (ctypes.c_uint8 * (8 * n + 1))(*([77] * (8 * n + 1)))
                    if n:
                        self.assertEqual(call(function.__name__, given, 8 * n, out, 8 * n - 1), 4)
                    self.assertEqual(call(function.__name__, given, 8 * n - 1 if n else 1, out, 0), 26, "tested first")
                    self.assertEqual(bytes(out), b"M" * (8 * n + 1))
        numbers = array("d", [x for c in PAIR for x in c])
        self.assertEqual(rt.unshuffle(bytearray(rt.shuffle(numbers))), bytes(numbers))
        for function in (rt.shuffle, rt.unshuffle):
            for size in (1, 7, 9, 73727, 73729, 73736):
                self.refused(26, function, bytes(size))

    def test_words(self):
        for k in range(8):
            for i in range(8):
                for byte in (1, 0x80, 0xFF):
                    words = [byte << 8 * i if j == k else 0 for j in range(8)]
                    wanted = tuple(byte << 8 * k if j == i else 0 for j in range(8))
                    self.assertEqual(rt.transpose_words(words), wanted)
        words = [int.from_bytes(bytes((8 * k + i) * 37 % 256 for i in range(8)), "little") for k in range(8)]
        turned = rt.transpose_words(words)
        self.assertEqual(b"".join(w.to_bytes(8, "little") for w in turned), rt.shuffle(b"".join(w.to_bytes(8, "little") for w in words)))
        self.assertEqual(rt.transpose_words(turned), tuple(words))
        self.assertEqual(rt.transpose_words([2**64 - 1] * 8), (2**64 - 1,) * 8)

    def test_limits(self):
        plain = rt.march(R, T, G, (4, 1, 0, 1))
        for limit in range(plain.units + 2):
            run = rt.march(R, T, G, (4, 1, 0, 1), limit)
            self.assertEqual(run.edges, (0, 2))
            self.assertEqual(run.number == 14, limit < plain.units)
            self.assertEqual(run.units, min(limit, plain.units))
            self.assertEqual(run.circles, plain.circles[: len(run.circles)])
        self.assertEqual(rt.refine_and_push(R, T, G, PAIR[:1], PAIR[1]).circles, PAIR)

    @staticmethod
    def rank(count):
        """Circles that R has on upright lines, each 1/256 to the right of the one before."""
        return tuple(rt.Inscribed(x, 1.00048828125, 0.99951171875, x, 0.0, x, 2.0, x, 18.0 - x) for x in (1 + k / 256 for k in range(count)))

    def test_refinements_for_the_cell(self):
        """256 circles fit, the 257th is 15; a list of 257 is refused with 4, whatever stands in its last circle."""
        rank = self.rank(258)
        self.assertEqual(rt.CELL_SLOTS, 256)
        for slots in (None, 256, 300, 1024, 2000):
            with self.subTest(slots=slots):
                run = rt.refine_and_push(R, T, G, rank[:255], rank[255], slots=slots, cell=True)
                self.assertEqual((run.number, run.circles, run.units), (0, rank[:256], 1))
                run = rt.refine_and_push(R, T, G, rank[:256], rank[256], slots=slots, cell=True)
                self.assertEqual((run.number, run.circles, run.units), (15, rank[:256], 1))
                self.assertEqual(rt.refine_and_push(R, T, G, rank[:256], rank[256], 0, slots=slots, cell=True).number, 14)
                self.refused(4, lambda: rt.refine_and_push(R, T, G, rank[:257], rank[257], slots=slots, cell=True))
        bad = rank[:256] + (rank[256]._replace(l1=float("nan")),)
        self.refused(4, lambda: rt.refine_and_push(R, T, G, bad, rank[257], cell=True))
        self.refused(2, lambda: rt.refine_and_push(R, T, G, bad, rank[257]))
        self.assertEqual(rt.refine_and_push(R, T, G, rank[:256], rank[256]).circles, rank[:257])
        self.assertEqual(rt.refine_and_push(R, T, G, rank[:3], rank[3], slots=3, cell=True).number, 15)

    def test_marches_for_the_cell(self):
        """Both entries are alike as far as 256 circles; then the one for the cell ends in 15 with the first 256 of the other."""
        for limit in range(105):
            self.assertEqual(rt.march(R, T, G, (4, 1, 0, 1), limit, cell=True), rt.march(R, T, G, (4, 1, 0, 1), limit))
        strip = [0, 0, 8, 0, 8, 0.1, 0, 0.1, 0, 0]
        for x, full, units in ((6.482, 256, 510), (6.484, 257, 512), (5.5, 413, 824)):
            large, small = (rt.march(strip, T, T, (x, 0.05, 0, 1), cell=cell) for cell in (False, True))
            self.assertEqual((large.number, len(large.circles), large.units), (0, full, units))
            want = large if full == 256 else rt.March(15, large.circles[:256], 512, large.edges)
            for slots in (None, 256, 300, 2000):
                self.assertEqual(rt.march(strip, T, T, (x, 0.05, 0, 1), slots=slots, cell=True), want)
            self.assertEqual(small, want)
        self.assertEqual(len(rt.march(strip, T, T, (5.5, 0.05, 0, 1), slots=100, cell=True).circles), 100)
        self.refused(23, lambda: rt.march(R, G, T, (4, 1, 0, 1), cell=True))

    def test_behind_the_slots_of_the_cell(self):
        """Numbers behind slot 256 are neither read nor written: NaNs keep their bits."""
        size, width = 300, rt.WIDTH
        nans = [(0x7FF4000000000001 if i % 2 else 0xFFF8000000000001) + 3 * i for i in range(width * size)]
        rank = [x for c in self.rank(257) for x in c]

        def store_of(circles):
            numbers = [struct.pack("<d", x) for x in rank[: width * circles]] + [struct.pack("<Q", n) for n in nans[width * circles :]]
            return (ctypes.c_double * (width * size)).from_buffer_copy(b"".join(numbers))

        def behind(store):
            return bytes(store)[8 * width * 256 :]

        strip, section = (ctypes.c_double * 10)(0, 0, 8, 0, 8, 0.1, 0, 0.1, 0, 0), (ctypes.c_double * 10)(*R)
        circle = (ctypes.c_double * width)(*self.rank(257)[256])
        for stated, number in ((255, 0), (256, 15), (257, 4)):
            count, units, store = ctypes.c_size_t(77), ctypes.c_uint32(77), store_of(stated)
            self.assertEqual(call("refine_and_push_cell", section, 10, T, G, store, len(store), stated, circle, 9, count, units), number)
            self.assertEqual((count.value, units.value), (77, 77) if number == 4 else (256, 1))
            self.assertEqual(behind(store), behind(store_of(stated)))
        count, units, edges, found, state, store = ctypes.c_size_t(77), ctypes.c_uint32(77), (ctypes.c_size_t * 2)(), ctypes.c_bool(), StateCells(refining=77), store_of(0)
        self.assertEqual(call("march_cell", strip, 10, T, T, 5.5, 0.05, 0, 1, store, len(store), rt.NO_LIMIT, count, units, edges, found, state), 15)
        self.assertEqual(bytes(state), bytes(StateCells(refining=77)), "a state is written with 14 alone")
        self.assertEqual((count.value, units.value, found.value, list(edges)), (256, 512, True, [0, 2]))
        self.assertEqual(behind(store), behind(store_of(0)))

    # Six circles on R. Of the halfway circles between neighbours only those beside the fourth, whose radius is 0.5, are not as good as between them.
    MADE = tuple(rt.Inscribed(x, 1, 0.5 if x == 4 else 1, x, 0, x, 2, x, 18 - x) for x in range(1, 7))
    # Marches with the section, general tolerance and line, how many circles they leave, and the places of those that a thinning keeps.
    THINNED = (
        (R, G, (4, 1, 0, 1), 52, (0, 24, 51)),
        ([-4, -1, 0, -1, 1, 3, -4, -1], 0.1, (2, -2, 1, -1), 14, (0, 6, 13)),
        ([0, -3, 3, 1, -2, 1, 0, -3], 0.1, (2, -2, 2, -2), 11, (0, 1, 10)),
    )

    def test_thinning(self):
        """Which circles are kept, at every limit; a thinning that is spent has all of them."""
        for section, tol, line, found, kept in self.THINNED:
            circles = rt.march(section, T, tol, line).circles
            self.assertEqual(len(circles), found)
            for limit in [*range(found + 1), rt.NO_LIMIT]:
                run = rt.thin(section, T, tol, circles, limit)
                want = (14, circles, limit) if limit < found - 2 else (0, tuple(circles[k] for k in kept), found - 2)
                self.assertEqual((run.number, [list(map(bits, c)) for c in run.circles], run.units), (want[0], [list(map(bits, c)) for c in want[1]], want[2]))
            for pairs in (circles, run.circles):
                self.assertEqual([rt.inscribed_refined(section, T, tol, a, b) for a, b in zip(pairs, pairs[1:])], [None] * (len(pairs) - 1))
        run = rt.thin(R, T, G, self.MADE)
        self.assertEqual((run.number, run.circles, run.units), (0, tuple(self.MADE[k] for k in (0, 2, 5)), 4))
        signed = (self.MADE[0], self.MADE[1], self.MADE[2]._replace(l0=-0.0))
        self.assertEqual([bits(c.l0) for c in rt.thin(R, T, G, signed).circles], [bits(1.0), bits(-0.0)])
        for few in ((), self.MADE[:1], self.MADE[:2]):
            self.assertEqual(rt.thin(R, T, G, few, 0), rt.Run(0, few, 0))
        more = rt.refine_and_push(R, T, G, run.circles, self.MADE[5], slots=6)
        self.assertEqual((more.number, more.circles, more.units), (0, run.circles + self.MADE[5:], 1), "a later refinement has the slots")

    def test_thinning_refused(self):
        nan, made = float("nan"), self.MADE
        flat = made[0]._replace(p0x=1, p0y=0, p1x=1, p1y=0)
        wide = made[0]._replace(p0y=-1.7e308, p1y=1.7e308)
        far_off, far = [6, -5, 4, 1, -8, 3, 4, -4, 6, -5], rt.Inscribed(6e28, 0, 1, 0, 0, 2, 0, 20, 8)
        for number, section, circles, units in ((10, far_off, (far, far, far), 1), (11, R, made[:3] + (flat,), 2), (12, R, made[:3] + (wide,), 2), (11, R, (flat,) + made, 1)):
            self.assertEqual(rt.thin(section, T, G, circles), rt.Run(number, circles, units), "all circles as they were")
            self.assertEqual(rt.thin(section, T, G, circles, units - 1), rt.Run(14, circles, units - 1))
        bad = made[:1] + (made[1]._replace(l1=-1),)
        for number, section, section_tol, tol, circles in (
            (1, R[:3], T, G, made), (2, R, T, G, bad), (2, R, T, nan, bad), (2, [*R[:8], 0, 1e7], T, G, made), (3, R, T, nan, made), (3, R, nan, G, made), (23, R, G, T, made),
            (23, R, G, T, made[:1] * 1025), (4, R, T, G, made[:1] * 1025), (4, R, 2, 2, made[:1] * 1025), (4, R, T, G, made[:1] * 1024 + bad[1:]), (6, R, 2, 2, made),
        ):
            self.refused(number, rt.thin, section, section_tol, tol, circles)
        self.assertEqual(rt.thin(R, T, G, made[:1] * 1024).circles, made[:1] * 2)


    STRIP = [0, 0, 8, 0, 8, 0.1, 0, 0.1, 0, 0]
    # Marches to be cut: section, general tolerance, line, slots, how they end, circles and units. In the second up to four circles wait, and each fraction is due at some limit.
    CUT = (
        ([0, -4, 0, 4, -4, 1, 0, -4], 0.1, (-2, 1, -2, 2), None, 0, 19, 36),
        ([-2, -3, 4, -1, 2, -1, 3, 1, -4, 1, -3, -4, -2, -3], 0.05, (1, 2, 2, 2), None, 13, 22, 46),
        ([0, -4, 0, 4, -4, 1, 0, -4], 0.1, (-2, 1, -2, 2), 10, 15, 10, 20),
    )

    @staticmethod
    def exact(run):
        """All of a run, its circles and waiting circles by their bits."""
        return run.number, [list(map(bits, c)) for c in run.circles], run.units, getattr(run, "edges", None), run.state

    def test_marches_cut(self):
        """A march cut at every limit and gone on with within every second one, and in three pieces, is the march whose limit is the sum."""
        for section, tol, line, slots, number, found, units in self.CUT:
            for cell in False, True:
                one = [rt.march(section, T, tol, line, limit, slots, cell) for limit in range(units + 3)]
                self.assertEqual((one[-1].number, len(one[-1].circles), one[-1].units, one[-1].state), (number, found, units, None))
                for a in range(units):
                    self.assertEqual(len(one[a].state.waiting) > 0, one[a].state.refining)
                    for b in range(units + 3 - a):
                        two, want = one[a].go_on(b), one[a + b]
                        self.assertEqual((two, self.exact(two)), (want, self.exact(want)))
                        gone = rt.go_on(section, T, tol, one[a].circles, one[a].state, b, slots, cell)
                        self.assertEqual((gone.number, gone.circles, gone.units, gone.state), (want.number, want.circles, want.units - a, want.state))
                        for c in {0, 1, units - a - b} if two.number == 14 else ():
                            self.assertEqual(self.exact(two.go_on(c)), self.exact(one[a + b + c]))
                            self.assertEqual(gone.go_on(c), rt.GoneOn(one[a + b + c].number, one[a + b + c].circles, one[a + b + c].units - a, one[a + b + c].state), "units are those from where it went on")
                    self.assertEqual(one[a].go_on(), one[-1])
                    self.assertEqual(one[a].go_on(rt.NO_LIMIT - a), one[-1])
                seen = {(s.refining, len(s.waiting), s.fraction) for s in (run.state for run in one) if s}
                if number == 13:
                    self.assertEqual(seen, {(False, 0, k) for k in range(4)} | {(True, k, 0) for k in range(1, 5)})

    def test_marches_gone_on_with(self):
        line = (4, 1, 0, 1)
        whole, spent = rt.march(R, T, G, line), rt.march(R, T, G, line, 21)
        self.assertEqual((whole.state, spent.number, spent.edges, str(spent.state)), (None, 14, (0, 2), "refining, 1 waiting"))
        for over in (whole, rt.march(R, T, G, (20, 1, 0, 1)), rt.march(R, T, G, line, slots=5), spent.go_on()):
            with self.assertRaisesRegex(ValueError, f"{over.number}: {over.ending}"):
                over.go_on(5)
        for unknown in (rt.March(14, spent.circles, 21, (0, 2), spent.state), rt.GoneOn(14, spent.circles, 0, spent.state)):
            with self.assertRaisesRegex(ValueError, "isn't known"):
                unknown.go_on(5)
        # what the march was handed is kept by value, and pickled with it
        section = array("d", map(float, R))
        paused = rt.march(section, T, G, line, 21, slots=60, cell=True)
        section[0] = 1e9
        for run in (paused, pickle.loads(pickle.dumps(paused)), pickle.loads(pickle.dumps(paused.go_on(0)))):
            self.assertEqual((run, run.go_on()), (spent, whole))
            self.assertEqual(run.go_on(40).go_on(41), whole)
        self.assertNotIn("_handed", repr(paused))
        # each piece keeps to its own limit where the sum is beyond one, and units add up
        self.assertEqual(spent.go_on(rt.NO_LIMIT), whole)
        self.assertEqual(spent.go_on(0).go_on(rt.NO_LIMIT).units, whole.units)
        # fewer slots, or the cell's, are those of each piece
        large, small = (rt.march(self.STRIP, T, T, (6.484, 0.05, 0, 1), 400, cell=cell) for cell in (False, True))
        self.assertEqual((large, large.state), (small, small.state))
        self.assertEqual([(run.go_on().number, len(run.go_on().circles), run.go_on().units) for run in (large, small)], [(0, 257, 512), (15, 256, 512)])
        for slots, cell, number, found in ((None, False, 0, 257), (None, True, 15, 256), (300, True, 15, 256), (256, False, 15, 256), (2000, False, 0, 257)):
            gone = rt.go_on(self.STRIP, T, T, large.circles, large.state, slots=slots, cell=cell)
            self.assertEqual((gone.number, len(gone.circles), gone.units), (number, found, 112))
        few = rt.march(R, T, G, line, 8, slots=5)
        self.assertEqual((few.number, few.go_on(5).number, few.go_on().number, len(few.go_on().circles)), (14, 15, 15, 5))

    def test_states(self):
        """A state is a value: it doesn't change, is equal by its bits, is pickled and printed, and may be made by hand."""
        at = lambda x: rt.Inscribed(x, 1.00048828125, 0.99951171875, x, 0.0, x, 2.0, x, 18.0 - x)  # noqa: E731
        state = rt.MarchState(True, 0, [at(5), [4, 1, 1, 4, 0, 4, 2, 4, 14]])
        self.assertEqual((state.refining, state.fraction, state.waiting), (True, 0, (at(5), PAIR[0])))
        self.assertIs(type(state.waiting[1].cx), float)
        self.assertEqual(eval(repr(state), vars(rt)), state)
        # any iterable of circles, walked once; any yes or no
        self.assertEqual(rt.MarchState(True, 0, (c for c in state.waiting)), state)
        self.assertEqual(rt.MarchState(True, 0, iter([array("d", c) for c in state.waiting])), state)

        class Yes:
            def __bool__(self) -> bool:
                return True

        self.assertEqual(rt.MarchState(Yes(), 0, state.waiting), state)
        with self.assertRaises(TypeError):
            rt.MarchState(True, 0, [4.0, 1, 1, 4, 0, 4, 2, 4, 14])
        self.assertEqual((str(state), str(rt.MarchState(False, 2, ())), str(rt.MarchState(False, 9, (at(5),)))), ("refining, 2 waiting", "advancing, fraction 2 due", "advancing, fraction 9 due, 1 waiting"))
        nan = float("nan")
        again = pickle.loads(pickle.dumps(state))
        self.assertEqual((again, hash(again)), (state, hash(state)))
        with self.assertRaises(AttributeError):
            state.fraction = 1
        for other in (
            rt.MarchState(False, 0, state.waiting), rt.MarchState(True, 1, state.waiting), rt.MarchState(True, 0, state.waiting[:1]), rt.MarchState(True, 0, state.waiting[::-1]),
            rt.MarchState(True, 0, (at(5), PAIR[0]._replace(p0y=-0.0))), rt.MarchState(True, 0, (at(5), PAIR[0]._replace(p0y=nan))), state.waiting, None,
        ):
            self.assertNotEqual(state, other)
        self.assertEqual(rt.MarchState(True, 0, (PAIR[0]._replace(r=nan),)), rt.MarchState(1, 0, (PAIR[0]._replace(r=nan),)))
        # refining, a fraction is not read and comes back 0; advancing with a fraction whose step is below the tolerance is an end
        two = (at(1), at(1 + 1 / 256))
        for fraction in (0, 3, 4, 2**64 - 1):
            self.assertEqual(rt.go_on(R, T, G, two, rt.MarchState(True, fraction, (at(5),)), 0), rt.GoneOn(14, two, 0, rt.MarchState(True, 0, (at(5),))))
        self.assertEqual([rt.go_on(R, T, 0.1, (at(4),), rt.MarchState(False, fraction, ()), 0).number for fraction in range(4)], [14, 0, 0, 0])
        self.assertEqual(rt.go_on(R, T, G, (PAIR[0]._replace(p1y=0),), rt.MarchState(False, 0, ()), 0), rt.GoneOn(11, (PAIR[0]._replace(p1y=0),), 0, None))
        # 64 may wait
        small = rt.Inscribed(4, 0.5, 0.5, 4, 0, 4, 1, 4, 14)
        for count, limit, number, units in ((64, 0, 14, 0), (64, 1, 16, 1), (63, 1, 14, 1), (63, 2, 16, 2), (62, 2, 14, 2), (62, 9, 16, 3)):
            gone = rt.go_on(R, T, G, (small,), rt.MarchState(True, 0, (at(5),) * count), limit)
            self.assertEqual((gone.number, gone.circles, gone.units, gone.state and len(gone.state.waiting)), (number, (small,), units, count + units if number == 14 else None))

    def test_states_refused(self):
        """27, behind 4 and before 6; a bad state is the library's to refuse."""
        at = lambda x: rt.Inscribed(x, 1.00048828125, 0.99951171875, x, 0.0, x, 2.0, x, 18.0 - x)  # noqa: E731
        nan, two = float("nan"), (at(1), at(2))
        good = rt.MarchState(True, 0, (at(5),))
        bad = [rt.MarchState(True, 0, ()), rt.MarchState(False, 0, (at(5),)), rt.MarchState(False, 4, ()), rt.MarchState(False, 2**64 - 1, ()), rt.MarchState(True, 0, (at(5),) * 65), rt.MarchState(True, 0, (at(5),) * 1000)]
        bad += [rt.MarchState(True, 0, (at(5), at(6)._replace(**{name: x}))) for name in rt.Inscribed._fields for x in (nan, float("inf"), -float("inf"))]
        bad += [rt.MarchState(True, 0, (at(6)._replace(**{name: x}), at(5))) for name in ("r", "l0", "l1") for x in (-1, -5e-324)]
        worse = (two[0], two[1]._replace(r=-1))
        for cell in False, True:
            for state in bad:
                self.refused(27, lambda: rt.go_on(R, T, G, two, state, cell=cell))
                self.refused(27, lambda: rt.go_on(R, 2, 2, two, state, cell=cell))
                for number, section, section_tol, tol, circles in (
                    (1, R[:3], T, G, worse), (2, R, T, nan, worse), (3, R, T, nan, two), (23, R, G, T, two), (4, R, 2, 2, two[:1] * 1025), (4, R, T, G, two[:1] * 1024 + worse[1:]),
                ):
                    self.refused(number, lambda: rt.go_on(section, section_tol, tol, circles, state, cell=cell))
            for state in (good, rt.MarchState(False, 0, ())):
                self.refused(27, lambda: rt.go_on(R, T, G, (), state, cell=cell))
                self.refused(6, lambda: rt.go_on(R, 2, 2, two, state, cell=cell))
        self.refused(4, lambda: rt.go_on(R, T, G, two[:1] * 257, good, cell=True))
        self.assertEqual(rt.go_on(R, T, G, two[:1] * 257, good, 0).number, 14)
        signed = rt.MarchState(True, 0, (at(5)._replace(r=-0.0, l0=-0.0),))
        self.assertEqual(rt.go_on(R, T, G, two, signed, 0).state, signed, "-0 passes")
        # of a refusal nothing is written, in the state as little as elsewhere
        cells, count, units, store = StateCells(2, 5, 65), ctypes.c_size_t(77), ctypes.c_uint32(77), (ctypes.c_double * 18)(*[x for c in two for x in c])
        before = bytes(cells), bytes(store)
        for name in "go_on", "go_on_cell":
            self.assertEqual(call(name, (ctypes.c_double * 10)(*R), 10, T, G, store, 18, 2, cells, 9, count, units), 27)
            self.assertEqual((bytes(cells), bytes(store), count.value, units.value), (*before, 77, 77))

    def test_lists_offered_again(self):
        """The circles of one march, whichever way it ended, are the same list for one unit fewer; within a smaller limit its first circles."""
        strip = [0, 0, 8, 0, 8, 0.1, 0, 0.1, 0, 0]
        exact = lambda circles: [list(map(bits, c)) for c in circles]  # noqa: E731
        for section, tol, line, limit, slots, cell, number, found in (
            (R, G, (4, 1, 0, 1), rt.NO_LIMIT, None, False, 0, 52), (R, G, (4, 1, 0, 1), rt.NO_LIMIT, None, True, 0, 52), (R, G, (4, 1, 0, 1), 30, None, False, 14, 16), (R, G, (4, 1, 0, 1), 0, None, True, 14, 1),
            (R, G, (4, 1, 0, 1), rt.NO_LIMIT, 10, False, 15, 10), (R, G, (4, 1, 0, 1), rt.NO_LIMIT, 0, False, 15, 0), (R, G, (20, 1, 0, 1), rt.NO_LIMIT, None, False, 8, 0),
            ([-3, 3, 0, -4, 1, -2], T, (2, -3, 2, -2), rt.NO_LIMIT, None, False, 13, 1), (strip, T, (5.5, 0.05, 0, 1), rt.NO_LIMIT, None, True, 15, 256), (strip, T, (5.5, 0.05, 0, 1), rt.NO_LIMIT, None, False, 0, 413),
        ):
            march = rt.march(section, T, tol, line, limit, slots, cell)
            self.assertEqual((march.number, len(march.circles)), (number, found))
            for within in {*range(0, found, 1 + found // 60), max(found - 2, 0), max(found - 1, 0), found, rt.NO_LIMIT}:
                run = rt.refine_all(section, T, tol, (), march.circles, within, slots, cell)
                enough = within + 1 >= found
                self.assertEqual((run.number, run.units, len(run.circles)), (0, max(found - 1, 0), found) if enough else (14, within, within + 1))
                self.assertEqual(exact(run.circles), exact(march.circles[: len(run.circles)]))
        large = rt.march(strip, T, T, (5.5, 0.05, 0, 1)).circles
        for slots in (None, 256, 300, 2000):
            self.assertEqual(rt.refine_all(strip, T, T, (), large, slots=slots, cell=True), rt.Run(15, large[:256], 256))
        thinned = rt.thin(strip, T, T, large).circles
        self.assertEqual(rt.refine_all(strip, T, T, (), thinned), rt.Run(0, thinned, len(thinned) - 1))

    def test_lists_offered(self):
        """What a refinement of each circle gives, one behind the other."""
        for section, tol, line, found, more in (([2, -4, -2, 0, -2, -4, 2, -4], 0.05, (0, -3, -1, 1), 48, (15, 1024, 2038)), ([0, -1, -4, -1, 2, 2, 4, 1, 0, -1], G, (1, -4, 0, 2), 148, (0, 149, 149))):
            circles = rt.extract_circles(section, T, tol, line).circles
            run = rt.refine_all(section, T, tol, (), circles)
            self.assertEqual((len(circles), run.number, len(run.circles), run.units), (found, *more), "of an extraction a list is not promised to stay")
            by_one, units, number = (), 0, 0
            for c in circles:
                one = rt.refine_and_push(section, T, tol, by_one, c)
                by_one, units, number = one.circles, units + one.units, one.number
                if number:
                    break
            self.assertEqual(run, rt.Run(number, by_one, units))
            for limit in (0, 5, 20, units - 1, units):
                spent = rt.refine_all(section, T, tol, (), circles, limit)
                self.assertEqual((spent.number, spent.circles, spent.units), (number if limit == units else 14, by_one[: len(spent.circles)], limit))
        self.assertEqual(rt.refine_all(R, T, G, PAIR[:1], PAIR[1:]), rt.refine_and_push(R, T, G, PAIR[:1], PAIR[1]))
        for some in ((), PAIR):
            self.assertEqual(rt.refine_all(R, T, G, some, (), 0), rt.Run(0, some, 0))
            self.assertEqual(rt.refine_all(R, T, G, some, (), 0, 0, True), rt.Run(0, some, 0))
        nan, made = float("nan"), self.MADE
        flat = made[0]._replace(p0x=1, p0y=0, p1x=1, p1y=0)
        wide = made[0]._replace(p0y=-1.7e308, p1y=1.7e308)
        small = rt.Inscribed(4, 0.5, 0.5, 4, 0, 4, 1, 4, 14)
        far_off, far = [6, -5, 4, 1, -8, 3, 4, -4, 6, -5], rt.Inscribed(6e28, 0, 1, 0, 0, 2, 0, 20, 8)
        for number, section, offered, accepted, units in ((10, far_off, (far, far), 1, 1), (11, R, made[:2] + (flat, made[2]), 2, 2), (12, R, made[:2] + (wide, made[2]), 2, 2), (16, R, (small, made[4]), 1, 64)):
            for cell in False, True:
                self.assertEqual(rt.refine_all(section, T, G, (), offered, cell=cell), rt.Run(number, offered[:accepted], units))
                self.assertEqual(rt.refine_all(section, T, G, (), offered, units - 1, cell=cell), rt.Run(14, offered[:accepted], units - 1))
        bad = made[:2] + (made[2]._replace(r=-1),)
        for number, section, section_tol, tol, circles, offered in (
            (1, R[:3], T, G, bad, bad), (2, R, T, nan, made, bad), (2, R, T, nan, bad, made), (3, R, T, nan, made, made), (23, R, G, T, made[:1] * 1025, made), (23, R, G, T, made, made[:1] * 1025),
            (4, R, 2, 2, made[:1] * 1025, made), (4, R, 2, 2, made, made[:1] * 1025), (4, R, T, G, made, made[:1] * 1024 + bad[2:]), (6, R, 2, 2, made, made),
        ):
            for cell in False, True:
                self.refused(number, lambda: rt.refine_all(section, section_tol, tol, circles, offered, cell=cell))
        self.refused(4, lambda: rt.refine_all(R, T, G, made[:1] * 257, (), cell=True))
        self.assertEqual(rt.refine_all(R, T, G, made[:1] * 257, ()).circles, made[:1] * 257)
        self.assertEqual(rt.refine_all(R, T, G, (), made[:1] * 1024, cell=True), rt.Run(15, made[:1] * 256, 256))


class Types(unittest.TestCase):
    """What goes in: anything that holds numbers, and a clear word about what doesn't."""

    def test_buffers(self):
        want = rt.length(R, T)
        flat = array("d", map(float, R))
        same = [flat, memoryview(flat), bytes(flat) and memoryview(bytes(flat)).cast("d"), list(zip(R[::2], R[1::2])), tuple(R), array("f", map(float, R)), array("i", R)]
        same += [(ctypes.c_double * 10)(*R), memoryview(flat).cast("B").cast("d", [5, 2]), [[float(x), y] for x, y in zip(R[::2], R[1::2])], rt.from_points(R, T)]
        same.append(memoryview(array("d", [x for v in R for x in (float(v), 9.0)]))[::2])
        for points in same:
            with self.subTest(points=points):
                self.assertEqual(rt.length(points, T), want)
        held = rt._numbers(flat)
        self.assertEqual((ctypes.addressof(held), len(held)), (flat.buffer_info()[0], 10), "read where it stands")

    def test_numpy(self):
        try:
            import numpy
        except ImportError:
            self.skipTest("numpy isn't installed")
        want = rt.length(R, T)
        pairs = numpy.array(R, dtype=float).reshape(-1, 2)
        held = rt._numbers(pairs)
        self.assertEqual(ctypes.addressof(held), pairs.ctypes.data, "read where it stands")
        fixed = pairs.copy()
        fixed.flags.writeable = False
        for points in (pairs, pairs.ravel(), fixed, numpy.asfortranarray(pairs), pairs[::-1], pairs.astype("f4"), pairs.astype(">f8"), pairs.astype(int), list(pairs)):
            self.assertEqual(rt.length(points, T), want)
        self.assertEqual(rt.at_vertex(pairs, numpy.float64(T), numpy.int32(1)).x, 8)
        with self.assertRaises(ValueError):
            rt.length(pairs.T, T)
        with self.assertRaises(ValueError):
            rt.length(numpy.zeros((4, 3)), T)

    def test_wrong_types(self):
        for error, function, *args in (
            (TypeError, rt.length, "0 0 8 0", T),
            (TypeError, rt.length, b"0 0 8 0", T),
            (TypeError, rt.length, 5, T),
            (TypeError, rt.length, None, T),
            (ValueError, rt.length, [(0, 0, 0), (8, 0, 0)], T),
            (ValueError, rt.length, [(0, 0), 8], T),
            (TypeError, rt.length, [0, 0, (8, 0)], T),
            (TypeError, rt.length, [(0, "0"), (8, 0)], T),
            (TypeError, rt.length, R, "0.001"),
            (TypeError, rt.length, R, None),
            (ValueError, rt.length, R, 10**400),
            (TypeError, rt.at_vertex, R, T, 1.0),
            (ValueError, rt.at_vertex, R, T, -1),
            (ValueError, rt.at_vertex, R, T, 2**64),
            (ValueError, rt.march, R, T, G, (4, 1, 0)),
            (ValueError, rt.march, R, T, G, (4, 1, 0, 1), -1),
            (ValueError, rt.march, R, T, G, (4, 1, 0, 1), 2**32),
            (TypeError, rt.march, R, T, G, (4, 1, 0, 1), 5.0),
            (ValueError, rt.march, R, T, G, (4, 1, 0, 1), 5, -1),
            (ValueError, rt.march, R, T, G, (4, 1, 0, 1), 5, -1, True),
            (TypeError, rt.refine_and_push, R, T, G, PAIR[:1], PAIR[1], 5, 2.0, True),
            (ValueError, rt.index_of_tmax, [(4, 1, 1)]),
            (ValueError, rt.thin, R, T, G, [(4, 1, 1)]),
            (ValueError, rt.thin, R, T, G, PAIR, -1),
            (ValueError, rt.refine_all, R, T, G, (), [(4, 1, 1)]),
            (ValueError, rt.refine_all, R, T, G, (), PAIR, -1),
            (TypeError, rt.go_on, R, T, G, PAIR, None),
            (TypeError, rt.go_on, R, T, G, PAIR, (True, 0, PAIR)),
            (ValueError, rt.go_on, R, T, G, PAIR, rt.MarchState(True, 0, PAIR), -1),
            (ValueError, rt.go_on, R, T, G, PAIR, rt.MarchState(True, 0, PAIR), 2**32),
            (ValueError, rt.go_on, R, T, G, [(4, 1, 1)], rt.MarchState(True, 0, PAIR)),
            (ValueError, rt.MarchState, True, 0, [(4, 1, 1)]),
            (TypeError, rt.MarchState, True, 0, ["4, 1, 1"]),
            (TypeError, rt.MarchState, True, 0, [4, 1, 1]),
            (TypeError, rt.MarchState, True, 0.0, ()),
            (ValueError, rt.MarchState, True, -1, ()),
            (ValueError, rt.MarchState, True, 2**64, ()),
            (ValueError, rt.make_camber_curve, (0, 1, 2), (8, 1), PAIR, T),
            (TypeError, rt.shuffle, [0] * 8),
            (ValueError, rt.transpose_words, [0] * 7),
            (ValueError, rt.transpose_words, [2**64] * 8),
            (TypeError, rt.transpose_words, [1.0] * 8),
            (ValueError, rt.unshuffle, memoryview(bytes(32))[::2]),
            (ValueError, rt.write_record, [(4, 1, 1)]),
            (TypeError, rt.read_record, [0, 0]),
            (ValueError, rt.read_record, memoryview(bytes(4))[::2]),
            (ValueError, rt.read_record, bytes(2), -1),
        ):
            with self.subTest(function=function.__name__, args=args):
                with self.assertRaises(error) as caught:
                    function(*args)
                self.assertTrue(str(caught.exception))

    def test_complex(self):
        """A complex number is no real one, whatever its imaginary part, and though it may be asked for a float."""

        class Own(float):
            pass

        class Kind:
            def __init__(self, kind):
                self.dtype = type("dtype", (), {"kind": kind})

            def __float__(self):
                return 4.0

        for wrong in (4 + 0j, Kind("c")):
            for function, *args in (
                (rt.length, [*R[:-1], wrong], T), (rt.length, [(0, 0), (8, wrong)], T), (rt.length, R, wrong), (rt.at_closest_to_point, R, T, wrong, 1), (rt.crossing_line, R, T, (wrong, 1, 0, 1)),
                (rt.index_of_tmax, [PAIR[0]._replace(cx=wrong)]), (rt.write_record, [PAIR[0]._replace(l1=wrong)]), (rt.MarchState, True, 0, [PAIR[0]._replace(l1=wrong)]), (rt.make_camber_curve, (0, wrong), (8, 1), PAIR, T),
            ):
                with self.subTest(function=function.__name__, wrong=type(wrong)):
                    with self.assertRaisesRegex(TypeError, "complex"):
                        function(*args)
        self.assertEqual(rt.length([*R[:-1], Kind("f")], T), rt.length([*R[:-1], 4.0], T))
        self.assertEqual(rt.length([*R[:-1], Own(4)], T), rt.length([*R[:-1], 4.0], T))
        self.assertEqual(rt.index_of_tmax([PAIR[0]._replace(cx=Kind("f"))]), 0)

    def test_masked(self):
        """What a mask covers is no measurement. A mask that covers nothing is none."""

        class Number:
            def __init__(self, mask):
                self.mask = mask

            def __float__(self):
                return 0.0

        class Buffer(ctypes.c_double * 10):
            mask = (ctypes.c_bool * 10)()

        points = Buffer(*R)
        self.assertEqual(rt.length(points, T), 20)
        self.assertEqual(rt.length([*R[:-1], Number(False)], T), 20)
        self.assertEqual(rt.length([*R[:-1], Number(lambda: True)], T), 20, "a method of that name is no mask")
        shuffled = rt.shuffle(points)
        points.mask[3] = True
        for function, *args in (
            (rt.length, points, T), (rt.length, memoryview(points), T), (rt.from_points, points, T), (rt.shuffle, points),
            (rt.length, [*R[:-1], Number(True)], T), (rt.length, [(0, 0), (8, Number(True))], T), (rt.length, R, Number(True)), (rt.index_of_tmax, [PAIR[0]._replace(cx=Number(True))]),
        ):
            with self.subTest(function=function.__name__):
                with self.assertRaisesRegex(ValueError, "masked"):
                    function(*args)
        points.mask[3] = False
        self.assertEqual(rt.shuffle(points), shuffled)

    def test_numpy_complex_and_masked(self):
        try:
            import numpy
        except ImportError:
            self.skipTest("numpy isn't installed")
        pairs = numpy.array(R, dtype=float).reshape(-1, 2)
        circles = numpy.array(PAIR)
        for kind in ("c8", "c16", "G", ">c16", "O"):
            made = pairs.astype(complex).astype(kind)
            for points in (made, made.ravel(), made[::-1], list(made), list(made.ravel()), made.tolist(), [tuple(p) for p in made], numpy.ma.array(made)):
                with self.assertRaisesRegex(TypeError, "complex"):
                    rt.length(points, T)
            with self.assertRaisesRegex(TypeError, "complex"):
                rt.index_of_tmax(circles.astype(complex).astype(kind))
            with self.assertRaisesRegex(TypeError, "complex"):
                rt.length(pairs, made[0, 0])
            with self.assertRaisesRegex(TypeError, "complex"):
                rt.length(pairs, made[0, 0].reshape(()) if kind != "O" else 0j)
        for mask in (numpy.ma.nomask, False, numpy.zeros_like(pairs, dtype=bool)):
            self.assertEqual(rt.length(numpy.ma.array(pairs, mask=mask), T), 20)
            self.assertEqual(rt.length(list(numpy.ma.array(pairs, mask=mask)), T), 20)
            self.assertEqual(rt.index_of_tmax(numpy.ma.array(circles, mask=mask if mask is numpy.ma.nomask or mask is False else numpy.zeros_like(circles, dtype=bool))), 1)
        masked = numpy.ma.array(pairs)
        masked[1, 1] = numpy.ma.masked
        for points in (masked, masked.ravel(), masked[::-1], masked.astype("f4"), masked.astype(int), list(masked), list(masked.ravel()), memoryview(masked), numpy.ma.array(pairs, mask=True)):
            with self.assertRaisesRegex(ValueError, "masked"):
                rt.length(points, T)
        self.assertEqual(rt.length(masked[2:], T), 10, "the part that isn't masked")
        with self.assertRaisesRegex(ValueError, "masked"):
            rt.shuffle(masked)
        with self.assertRaisesRegex(ValueError, "masked"):
            rt.length(pairs, numpy.ma.masked)
        hidden = numpy.ma.array(circles)
        hidden[1, 8] = numpy.ma.masked
        with self.assertRaisesRegex(ValueError, "masked"):
            rt.write_record(hidden)
        # other kinds of array are what they were
        class Own(numpy.ndarray):
            pass

        for points in (pairs.view(Own), [numpy.float64(x) for x in R], [numpy.float32(x) for x in R], pairs.astype("f2"), pairs.astype("g"), pairs.astype(object)):
            self.assertEqual(rt.length(points, T), 20)

    def test_records(self):
        self.assertEqual(rt.WIDTH, len(UNIT))
        self.assertEqual((UNIT.center, UNIT.radius, UNIT.p0, UNIT.p1, UNIT.l0, UNIT.l1), ((4, 1.00048828125), 0.99951171875, (4, 0), (4, 2), 4, 14))
        run = rt.march(R, T, G, (4, 1, 0, 1), 3)
        self.assertEqual((run.number, run.ending), (14, rt.WORDS[14]))
        self.assertEqual(pickle.loads(pickle.dumps(run)), run)
        with self.assertRaises(rt.Refused) as caught:
            rt.sqrt(-1)
        again = pickle.loads(pickle.dumps(caught.exception))
        self.assertEqual((again.number, again.words, str(again)), (12, rt.WORDS[12], f"12: {rt.WORDS[12]}"))

    def test_threads(self):
        """A call holds no state: many at once answer as one."""
        sections = [[(x * k / 7, y) for x, y in zip(R[::2], R[1::2])] for k in range(5, 13)] * 4
        ask = lambda s: rt.extract_circles(s, T, G, (4, 1, 0.1, 1))  # noqa: E731
        with ThreadPoolExecutor(8) as pool:
            self.assertEqual(list(pool.map(ask, sections)), [ask(s) for s in sections])
        self.assertFalse(isinstance(rt._library.load(), ctypes.PyDLL), "the interpreter's lock is free meanwhile")


class Arithmetic(unittest.TestCase):
    """A call wants rounding to nearest, and subnormal numbers, of the thread that makes it."""

    # The directed roundings, and where in an environment which bits take subnormal numbers for zero: results, operands, both.
    KNOWN = {"x86_64": ((0x400, 0x800, 0xC00), 28, (0x8000, 0x40, 0x8040)), "aarch64": ((0x800000, 0x400000, 0xC00000), 0, (1 << 24,))}

    def setUp(self):
        try:
            self.roundings, self.place, self.flushes = self.KNOWN[platform.machine()]
            self.c = ctypes.CDLL(None)
            self.c.fesetround, self.c.fegetenv, self.c.fesetenv
        except (KeyError, OSError, AttributeError):
            self.skipTest("it isn't known how this machine's arithmetic is changed")

    def round(self, how):
        self.c.fesetround(how)

    def flush(self, how):
        environment = (ctypes.c_uint8 * 64)()
        self.c.fegetenv(environment)
        control = ctypes.c_uint32.from_buffer(environment, self.place)
        control.value |= how
        self.c.fesetenv(environment)

    def asked_in_a_thread(self, change, how, function=lambda: rt.length(R, T)):
        """What a function answers in a thread of its own whose arithmetic is changed."""
        answers = []

        def run():
            change(how)
            try:
                answers.append(function())
            except Exception as error:
                answers.append(error)

        thread = threading.Thread(target=run)
        thread.start()
        thread.join()
        return answers[0]

    def test_roundings(self):
        for how in self.roundings:
            with self.subTest(how=hex(how)):
                error = self.asked_in_a_thread(self.round, how)
                self.assertIsInstance(error, FloatingPointError)
                self.assertIn("round to nearest", str(error))
                self.assertEqual(rt.length(R, T), 20, "another thread's arithmetic is its own")
        self.assertEqual(self.asked_in_a_thread(self.round, 0), 20)

    def test_subnormal_numbers(self):
        for how in self.flushes:
            with self.subTest(how=hex(how)):
                error = self.asked_in_a_thread(self.flush, how)
                self.assertIsInstance(error, FloatingPointError)
                self.assertIn("subnormal", str(error))
                self.assertEqual(rt.length([0, 0, 2e-160, 0, 3e-160, 2e-160], 0).hex(), (4.236044397748694e-160).hex())
        self.assertEqual(self.asked_in_a_thread(self.flush, 0), 20)

    def test_every_call(self):
        """Each function is asked so, and a thread that is started in such a thread too."""
        for function in (lambda: rt.sqrt(2), lambda: rt.march(R, T, G, (4, 1, 0, 1)), lambda: rt.go_on(R, T, G, PAIR, rt.MarchState(True, 0, PAIR)), lambda: rt.write_record(PAIR), lambda: rt.orient_tmax_fwd(PAIR)):
            self.assertIsInstance(self.asked_in_a_thread(self.round, self.roundings[0], function), FloatingPointError)
            self.assertIsInstance(self.asked_in_a_thread(self.flush, self.flushes[0], lambda: self.asked_in_a_thread(self.flush, 0, function)), FloatingPointError)


class Header(unittest.TestCase):
    """What stands in the header and in the module once more is what the crates have."""

    header = (ROOT / "include" / "rummyteak.h").read_text(encoding="utf-8")

    def source(self, *path):
        return (ROOT / "crates").joinpath(*path).read_text(encoding="utf-8")

    def constant(self, name, *path):
        return int(re.search(rf"const {name}: usize = (\d+);", self.source(*path)).group(1))

    def defined(self, name):
        return int(re.search(rf"#define {name} (\d+)", self.header).group(1))

    def test_sizes(self):
        width = self.constant("WIDTH", "inscribed", "src", "store.rt")
        slots = self.constant("MOST_SLOTS", "inscribed", "src", "store.rt")
        points = self.constant("MOST_POINTS", "curve2", "src", "lib.rt")
        self.assertEqual((self.defined("RUMMYTEAK_WIDTH"), rt.WIDTH), (width, width))
        self.assertEqual((self.defined("RUMMYTEAK_SLOTS"), rt.SLOTS), (slots, slots))
        cell = self.constant("CELL_SLOTS", "inscribed", "src", "store.rt")
        self.assertEqual((self.defined("RUMMYTEAK_CELL_SLOTS"), rt.CELL_SLOTS), (cell, cell))
        self.assertEqual((self.defined("RUMMYTEAK_POINTS"), self.defined("RUMMYTEAK_CLEANED")), (points, points - 1))
        self.assertEqual(self.defined("RUMMYTEAK_RECORD"), 2 + slots * (2 + 8 * width))
        self.assertEqual(self.defined("RUMMYTEAK_BYTES"), self.constant("MOST_BYTES", "shuffle", "src", "lib.rt"))
        waiting = self.constant("MOST_WAITING", "refine", "src", "lib.rt")
        self.assertEqual((self.defined("RUMMYTEAK_WAITING"), rt.WAITING), (waiting, waiting))

    def test_state(self):
        """A state has the same cells in the crates, the header and the module, at the offsets that the header tells."""
        crate = re.findall(r"pub (\w+): (.+),", re.search(r"pub struct StateCells \{\n(.*?)\n\}", self.source("rummyteak", "src", "given.rt"), re.DOTALL).group(1))
        self.assertEqual(crate, [("refining", "usize"), ("fraction", "usize"), ("count", "usize"), ("waiting", "[f64; WAITING_NUMBERS]")])
        cells = re.findall(r"^    (\w+) (\w+)(\[.*\])?;", re.search(r"struct rummyteak_march_state \{\n(.*?)\n\};", self.header, re.DOTALL).group(1), re.MULTILINE)
        self.assertEqual(cells, [("uint64_t", "refining", ""), ("uint64_t", "fraction", ""), ("uint64_t", "count", ""), ("double", "waiting", "[RUMMYTEAK_WAITING * RUMMYTEAK_WIDTH]")])
        self.assertEqual([(name, getattr(StateCells, name).offset, getattr(StateCells, name).size) for name, _ in crate], [("refining", 0, 8), ("fraction", 8, 8), ("count", 16, 8), ("waiting", 24, 4608)])
        self.assertEqual(ctypes.sizeof(StateCells), 4632)
        self.assertIn("offset 0, fraction at 8, count at 16 and waiting at 24, 4,632 bytes", re.sub(r"\s*\n \* ", " ", self.header))

    def test_endings(self):
        cases = {int(n): name for name, n in re.findall(r"Refusal::(\w+) => (\d+),", self.source("errors", "src", "lib.rt"))}
        cases.update({0: "Result", 14: "Spent"})
        named = {int(n): name for name, n in re.findall(r"RUMMYTEAK_(\w+) = (\d+)", self.header)}
        self.assertEqual(named, {n: re.sub(r"(?<!^)([A-Z])", r"_\1", name).upper() for n, name in cases.items()})
        self.assertEqual(sorted(rt.WORDS), sorted(named))

    def test_functions(self):
        exports = set()
        for file in (ROOT / "crates" / "rummyteak_c" / "src").glob("*.rt"):
            exports.update(re.findall(r'extern "C" fn rummyteak_(\w+)', file.read_text(encoding="utf-8")))
        self.assertEqual(set(re.findall(r"uint32_t rummyteak_(\w+)\(", self.header)), exports)
        self.assertEqual(set(rt._library._arguments), exports)
        named = {re.sub("_cell$", "", name) for name in exports}
        self.assertEqual(len(exports - named), 4, "an entry for the cell is the module's function with cell=True")
        self.assertLessEqual(named, set(rt.__all__))
        called = (ROOT / "tests" / "interface.c").read_text(encoding="utf-8")
        for name in exports:
            endings = set(re.findall(rf"rummyteak_{name}\((?:[^()]|\([^()]*\))*\) == (\d+)", called))
            self.assertTrue("0" in endings and (len(endings) > 1 or name in REFUSE_NOTHING), f"tests/interface.c calls {name} on good and bad input")

    def test_advice(self):
        self.assertEqual(sorted(ADVICE), sorted(set(rt.WORDS) - {0}), "each ending says what to try")


class Command(unittest.TestCase):
    made = Rows.MADE
    TEXT = "title\n" + "".join(f"{x}, {y}\n" for x, y in zip(R[::2], R[1::2]))

    def run_command(self, *args, given=None):
        env = dict(os.environ, PYTHONPATH=str(ROOT / "python"))
        return subprocess.run([sys.executable, "-m", "rummyteak", *args], cwd=ROOT, env=env, input=given, capture_output=True, text=True)

    def test_examples(self):
        sections = sorted((ROOT / "examples").glob("*.dat"))
        self.assertEqual(len(sections), 4)
        for section in sections:
            with self.subTest(section=section.name):
                done = self.run_command(f"examples/{section.name}")
                title = section.read_text(encoding="utf-8").splitlines()[0]
                self.assertEqual((done.stdout, done.returncode), (section.with_suffix(".txt").read_text(encoding="utf-8"), 0))
                self.assertEqual(done.stderr, f"rummyteak: examples/{section.name}: line 1 passed over: {title}\n")

    def test_examples_are_made(self):
        with tempfile.TemporaryDirectory() as folder:
            shutil.copy(ROOT / "examples" / "make.py", folder)
            subprocess.run([sys.executable, str(Path(folder) / "make.py")], check=True)
            for section in (ROOT / "examples").glob("*.dat"):
                self.assertEqual((Path(folder) / section.name).read_bytes(), section.read_bytes())
        drawn = self.run_command("examples/open.dat", "--svg", "-")
        self.assertEqual(drawn.stdout, (ROOT / "examples" / "open.svg").read_text(encoding="utf-8"))

    def test_files(self):
        """Blanks, commas or semicolons; titles and headers; what can't be read is named, and nothing is done."""
        want = self.run_command("-", "--line", "4", "1", "0.1", "1", given=self.TEXT)
        pairs = list(zip(R[::2], R[1::2]))
        for text in (
            "".join(f"{x} {y}\n" for x, y in pairs),
            "\ufeffx;y\n" + "".join(f"{x};{y};\n" for x, y in pairs),
            "\ufeff" + "".join(f"{x}\t{y}\r\n" for x, y in pairs),
            "NACA 0012, a title\n\n# a note\n" + "".join(f"  {x:.6f}   {y:.6f}\n" for x, y in pairs),
            "Machine; 7\nX [mm]; Y [mm]\n" + "".join(f"{x};{y}\n" for x, y in pairs),
            "NACA 2412\n" + "".join(f"{x} , {y}\n\n" for x, y in pairs),
            '\ufeff"x","y"\n' + "".join(f'"{x}","{y}"\n' for x, y in pairs) + ",,\n",
            "".join(f"{x} {y};\n" for x, y in pairs) + "\n;;;\n",
            "".join(f"{x:+d}. {y}e0\u00a0 # touch {k}\n" for k, (x, y) in enumerate(pairs)),
        ):
            with self.subTest(text=text):
                self.assertEqual(self.run_command("-", "--line", "4", "1", "0.1", "1", given=text).stdout, want.stdout)
        for text, words in (
            ("x;y\n0;0\n8;0\nhere\n", ("line 4", "here")),
            ("0 0\n8 0 0\n", ("line 2", "8 0 0")),
            ("0 0\n8\n", ("line 2", "8")),
            ("1 0 0\n2 8 0\n", ("line 1", "1 0 0")),
            ("0,5;1,5\n8,5;0,5\n", ("line 1", "0,5;1,5")),
            ("nothing here\n", ("no line",)),
            ("", ("no line",)),
        ):
            with self.subTest(text=text):
                done = self.run_command("-", given=text)
                self.assertEqual((done.returncode, done.stdout), (66, ""))
                for word in words:
                    self.assertIn(word, done.stderr)
        for name in ("no such file", "examples"):
            done = self.run_command(name)
            self.assertEqual((done.returncode, done.stdout), (66, ""))
            self.assertIn(name, done.stderr)

    def read(self, text, **how):
        """The numbers of a file with this text, and what is said of it."""
        with tempfile.TemporaryDirectory() as folder:
            name = str(Path(folder) / "section")
            Path(name).write_bytes(text.encode("utf-8") if isinstance(text, str) else text)
            said = []
            numbers = read(name, Reading(**how), said.append)
            return list(numbers), [note[len(name) + 2 :] for note in said]

    def unreadable(self, text, **how):
        """Why a file with this text isn't read."""
        with self.assertRaises(Unreadable) as caught:
            self.read(text, **how)
        return str(caught.exception).split(": ", 1)[1]

    def test_first_lines(self):
        """A first line that begins with a number is a point or an error, and never a title."""
        rest = "59 1\n58 2\n57 3\n56 4\n"
        numbers = [59, 1, 58, 2, 57, 3, 56, 4]
        for first in ("60.000000 0.075600", "60 0", "60,0", "-60 0", "60.;.5", "60\t0\t", "6e1 0", "nan 0", "60 60", "60 0 ;", '"60" "0"', "60.000000 0.075600 # first touch", "60 0 #", "inf 0", "60.5 0", "0 0", "1 1"):
            with self.subTest(first=first):
                got, said = self.read(f"{first}\n{rest}")
                self.assertEqual((len(got), got[2:]), (10, numbers), "a point")
                self.assertEqual(len(said), first.count("#"))
                self.assertEqual(self.read(f"A title\n\n{first}\n{rest}")[0][2:], numbers)
        for first in (
            "60.0 0.0756 0.0", "60.000000", "60", "2412 of NACA", "1st stage", "60,0;0,07", "60,5 0,1", "60.0mm 0.0756mm", "60.0|0.0756", "60.000000-0.075600", "6O.0 0.0756", "60.0 O.0756", "60.0 #0.0756", "60.0 0.07# touch",
            "\u22126.0 \u22120.7", "60.0;", ";60.0;0.07", "60.0,,0.07", "60_0 0_7", "0x3c 0", "60.0 0.0756 first", '"60.0,0.0756', '"60,0";"0,07"', "nan nan nan", "\ufffd60 0", "\u00ef\u00bb\u00bf60 0", "\u200b60 0", "[60 0", "\uff16\uff10 0", "1.0D+1 2.0D+0", ".5", "-.5 1 2", "1;60;0",
            "- 60.0 0.0756", "--60.0 0.0756", "\u201460.0 0.0756", "\u20106.0 0.7", "\uff0d6.0 0.7", "\u00b160.0 0.0756", "\u201c60.0\u201d \u201c0.0756\u201d", "\u2018 60.0", "\u00ab60.0\u00bb", "<60.0 0.0756>", "- inf 0", "+ .5 0",
        ):
            with self.subTest(first=first):
                self.assertIn("line 1 ", self.unreadable(f"{first}\n{rest}"))
                self.assertIn("line 2 ", self.unreadable(f"A title\n{first}\n{rest}"))
                self.assertIn("line 5 ", self.unreadable(f"{rest}{first}\n{rest}"))
                self.assertEqual(self.read(f"{first}\n{rest}", skip=1), (numbers, ["line 1 passed over by --skip; line 1: " + first.replace("\u200b", "?")]))
        for first in ("NACA 2412", "section of 60 0", "x y", "# 60 0", "(first) 60 0", "infinite 0 0", "-", "-- NACA 2412 --", "<x> 60 0", "A\nB\nC 7 8"):
            with self.subTest(first=first):
                got, said = self.read(f"{first}\n{rest}")
                self.assertEqual((got, len(said)), (numbers, len(first.splitlines())))
                for at, line in enumerate(first.splitlines(), 1):
                    self.assertTrue(any(f"line {at}" in note and line in note for note in said), said)
        self.assertIn("line 3 ", self.unreadable("59 1\n58 2\nNACA 2412\n57 3\n"), "behind a point no line is a header")
        # the same by the command: nothing is done, or what was passed over is said
        done = self.run_command("-", given=f"60.0 0.0756 0.0\n{rest}")
        self.assertEqual((done.returncode, done.stdout), (66, ""))
        self.assertIn("line 1 has 3 columns, and two are wanted: 60.0 0.0756 0.0", done.stderr)
        self.assertIn("--columns", done.stderr)
        text = (ROOT / "examples" / "open.dat").read_text(encoding="utf-8").splitlines()
        want = self.run_command("-", given="\n".join(text[1:]))
        done = self.run_command("-", given="\n".join([text[1] + " # first touch", *text[2:]]))
        self.assertEqual((done.stdout, done.returncode, want.stderr), (want.stdout, 0, ""))
        self.assertEqual(done.stderr, "rummyteak: standard input: comments passed over in line 1; line 1: # first touch\n")

    def test_passed_over(self):
        """What is passed over is said, with its line."""
        text = "Machine 7\n\n# by hand\n" + "".join(f"H{k}\n" for k in range(12)) + "0 0 # start\n8 0\n# turned\n# over\n8 2\n\n0 2 # end\n"
        numbers, said = self.read(text)
        self.assertEqual(numbers, R[:8])
        self.assertEqual(said, ["line 1 passed over: Machine 7", *(f"line {k + 4} passed over: H{k}" for k in range(9)), "lines 13 to 15 passed over", "comments passed over in lines 3, 16, 18 to 19, 22; line 3: # by hand"])
        numbers, said = self.read("".join(f"{k} {k * k} # {k}\n\n" for k in range(100)))
        self.assertEqual((len(numbers), said), (200, ["comments passed over in lines 1, 3, 5, 7, 9, 11, 13, 15 and so on, 100 in all; line 1: # 0"]))
        self.assertEqual(self.read("Blade #7\n0 0\n8 0\n")[1], ["line 1 passed over: Blade #7"])
        self.assertEqual(self.read(b"Schaufel \xe4\x1b\n0 0\n8 0\n")[1], ["line 1 passed over: Schaufel \ufffd?"])
        self.assertEqual(self.read("0 0\n8 0\n8 2\n")[1], [])

    def test_columns(self):
        self.assertEqual(self.read("0 0 7\n8 0 7\n8 2 7\n", columns=(1, 2)), (R[:6], ["columns but 1 and 2 passed over in lines 1 to 3"]))
        self.assertEqual(self.read("nr;x;y;;note\n1;0;0;;\n2;8;0;;a #7\n3;8;2;;\n", columns=(2, 3)), (R[:6], ["line 1 passed over: nr;x;y;;note", "comments passed over in line 3; line 3: #7", "columns but 2 and 3 passed over in lines 2 to 4"]))
        self.assertEqual(self.read("P#1 0 0\nP#2 8 0\n\"P #3\" 8 2\n", columns=(2, 3))[0], R[:6])
        self.assertEqual(self.read("0 0\n0 8\n2 8\n", columns=(2, 1)), (R[:6], []))
        self.assertEqual(self.read("a;;0;0\nb;;8;0\n", columns=(3, 4))[0], R[:4], "an empty column counts")
        self.assertIn("line 2 has no column 3", self.unreadable("1 0 0\n2 8\n", columns=(2, 3)))
        self.assertIn("line 2 is no pair", self.unreadable("1 0 0\n2 8 x\n", columns=(2, 3)))
        self.assertIn("line 1 is no pair", self.unreadable("P1 0 O\nP2 8 0\n", columns=(2, 3)), "a column that is wanted begins with a number")
        self.assertIn("line 1 has no column 3", self.unreadable("P1 60.0\nP2 8 0\n", columns=(2, 3)), "and so it is no header")
        self.assertIn("line 1 has 4 columns, and the next point has 3", self.unreadable("Section 12 45.5 mm\nP1 0 0\nP2 8 0\n", columns=(2, 3)))
        self.assertEqual(self.read("P1 0 0 first\nP2 8 0\n", columns=(2, 3), format="points")[0], R[:4])
        self.assertIn("--columns", self.unreadable("P1 0 0\nP2 8 0\n"))
        self.assertIn("--columns", self.unreadable("0 0\n8 0 1\n"))
        done = self.run_command("-", "--columns", "2,3", "--line", "4", "1", "0.1", "1", given="".join(f"{k}\t{x}\t{y}\n" for k, (x, y) in enumerate(zip(R[::2], R[1::2]))))
        want = self.run_command("-", "--line", "4", "1", "0.1", "1", given=self.TEXT)
        self.assertEqual((done.stdout, done.returncode), (want.stdout, 0))
        self.assertEqual(done.stderr, "rummyteak: standard input: columns but 2 and 3 passed over in lines 1 to 5\n")
        for word in ("0,1", "1", "1,1", "1,2,3", "a,b", "1;2", "", "1,-2", "1,9999999"):
            self.assertEqual(self.run_command("-", f"--columns={word}", given=self.TEXT).returncode, 64)

    def test_decimal_commas(self):
        want = [60.5, 0.25, -59, 1e-3, 0.5, 7]
        for text in ("60,5;0,25\n-59;1e-3\n,5;7,\n", "60,5 0,25\n-59 ,001\n0,5\t7\n", '"60,5","0,25"\n"-59","0,001"\n"0,5","7"\n', '"60,5";"0,25"\n-59;0,001\n0,5;7;\n'):
            with self.subTest(text=text):
                self.assertEqual(self.read(f"x y\n{text}", decimal_comma=True)[0], want)
                self.assertIn("--decimal-comma", self.unreadable(text))
        for text in ("60.5;0,25\n", "1.060,5;0,1\n", "60,5,0,25\n"):
            self.assertIn("line 1 ", self.unreadable(text, decimal_comma=True))
        self.assertEqual(self.read("1;60,5;0,25\n2;-59;0,001\n", decimal_comma=True, columns=(2, 3))[0], want[:4])

    def surfaces(self, apart=0.0):
        """A contour whose leading edge stands once, and the same as a Lednicer file with this first pair; the lower surface may begin so far from the upper one."""
        contour, _ = self.read((ROOT / "examples" / "open.dat").read_text(encoding="utf-8"))
        pairs = list(zip(contour[::2], contour[1::2]))
        edge = pairs.index(min(pairs))
        upper, lower = pairs[edge::-1], [(pairs[edge][0] + apart, pairs[edge][1]), *pairs[edge + 1 :]]
        text = lambda p: "".join(f"{x!r} {y!r}\n" for x, y in p)  # noqa: E731
        return contour, lambda first, blank="\n": f"NACA 4415\n{first}\n{blank}{text(upper)}{blank}{text(lower)}", len(upper), len(lower)

    def test_lednicer(self):
        contour, file, upper, lower = self.surfaces()
        for first in (f"{upper}. {lower}.", f"  {upper}.0   {lower}.0", f"{upper};{lower}", f"{upper} {lower} # points"):
            for blank in ("\n", "", " \n\n"):
                with self.subTest(first=first, blank=blank):
                    got, said = self.read(file(first, blank))
                    self.assertEqual(list(rt.from_points(got, T).numbers), list(rt.from_points(contour, T).numbers), "one contour")
                    self.assertEqual(len(got), len(contour) + 2, "no point is lost: the leading edge stands in both surfaces")
                    self.assertIn("a Lednicer file, read as one contour", said[-1])
                    self.assertIn("line 2 counts the points of two surfaces", said[-1])
        for counts in (f"{upper} {lower - 1}", f"{upper + 1} {lower}", f"{upper - 1} {lower + 1}"):
            with self.subTest(counts=counts):
                self.assertIn("line 2 counts points as a Lednicer file does, and {} and {} stand behind it".format(upper, lower), self.unreadable(file(counts)))
                got, said = self.read(file(counts), format="points")
                self.assertEqual((got[:2], len(got), len(said)), ([float(x) for x in counts.split()], len(contour) + 4, 1))
        self.assertIn("line 2 doesn't count", self.unreadable(file(f"{upper} {lower - 1}"), format="lednicer"))
        self.assertIn("line 1 doesn't count", self.unreadable("0 0\n8 0\n8 2\n", format="lednicer"))
        # cut off while it was copied
        cut = file(f"{upper} {lower}").splitlines()[: upper - 5]
        self.assertIn("line 2 counts points", self.unreadable("\n".join(cut)))
        # surfaces that begin at two points stand apart in the file, or an option says that there are two
        _, apart, _, _ = self.surfaces(apart=0.01)
        got, _ = self.read(apart(f"{upper} {lower}"))
        self.assertEqual(len(rt.from_points(got, T).points()), len(contour) // 2 + 1)
        self.assertIn("--format lednicer", self.unreadable(apart(f"{upper} {lower}", "")))
        self.assertEqual(self.read(apart(f"{upper} {lower}", ""), format="lednicer")[0], got)
        # counts that fit are never a point by a guess, however they are written
        back = apart(f"{upper}.0 {lower}.0").split("\n\n")
        back[2] = "".join(f"{line}\n" for line in back[2].splitlines()[::-1])
        for text in (apart(f"{upper}.0 {lower}.0", ""), apart(f"{upper}.000000 {lower}.000000", ""), apart(f"{float(upper):e} {float(lower):e}", ""), "\n\n".join(back)):
            for words in (f"line 2 is a point, or counts the {upper + lower} points behind it", "--format points", "--format lednicer"):
                self.assertIn(words, self.unreadable(text))
            self.assertEqual(self.read(text, format="points")[0][:2], [upper, lower])
        # what doesn't fit is a point, or an error
        got, said = self.read(file("60.5 60", "").split("\n", 1)[1])
        self.assertEqual((got[:2], len(got), said), ([60.5, 60], len(contour) + 4, []))
        self.assertIn("line 1 is a point, or counts points", self.unreadable(file("60 60", "").split("\n", 1)[1]))

    def test_counts_or_a_point(self):
        """A first pair that may count the points behind it is told by an option, and by no guess."""
        rest = [(x, (x - 7) ** 2 / 10) for x in range(15, 3, -1)]
        text = "".join(f"{x} {y!r}\n" for x, y in rest)
        for first in ("12 0", "12. 1", "5 7", "3 12", "0 12", "12 12"):
            with self.subTest(first=first):
                why = self.unreadable(f"{first}\n{text}")
                for words in ("line 1 is a point, or counts the 12 points behind it", "--format points", "--skip 1"):
                    self.assertIn(words, why)
                self.assertEqual("--format lednicer" in why, first == "5 7")
                got, said = self.read(f"{first}\n{text}", format="points")
                self.assertEqual((got[:2], len(got), said), ([float(x) for x in first.split()], 26, []))
                self.assertEqual(len(self.read(f"{first}\n{text}", skip=1)[0]), 24)
        self.assertEqual(len(self.read(f"5 7\n{text}", format="lednicer")[0]), 24)
        for first in ("13 0", "12.5 0", "-12 24", "11 0", "nan 12", "12 -0.5", "5 6", "inf 12", "0 0", "12.0 0.0", "12 -0"):
            self.assertEqual(len(self.read(f"{first}\n{text}")[0]), 26, first)
        # one that is whole above numbers that all have decimals
        lines = (ROOT / "examples" / "open.dat").read_text(encoding="utf-8").split("\n", 1)[1]
        for first in ("60 0", "60 60", "60. 1.", "121 2"):
            why = self.unreadable(f"{first}\n{lines}")
            for words in ("line 1 is a point, or counts", "--format points", "--skip 1"):
                self.assertIn(words, why)
            self.assertEqual(self.read(f"{first}\n{lines}", format="points")[0][:2], [float(x) for x in first.split()])
        for first, more in (("60.0 0.0", ""), ("60 0.5", ""), ("0 0", ""), ("60 -0", ""), ("60 0", "7 8.5\n")):
            self.assertEqual(len(self.read(f"{first}\n{lines}{more}")[0]), 244 + 2 * bool(more), first)
        done = self.run_command("-", given=f"12 0\n{text}")
        self.assertEqual((done.returncode, done.stdout), (66, ""))
        self.assertEqual(json.loads(self.run_command("-", "--format", "points", "--json", "-", given=f"12 0\n{text}").stdout)["reading"]["format"], "points")

    def test_standard_input(self):
        """It is read as a file is."""
        text = ("Schaufel \u00e4\n" + self.TEXT).encode("latin-1")
        done = subprocess.run([sys.executable, "-m", "rummyteak", "-"], cwd=ROOT, env=dict(os.environ, PYTHONPATH=str(ROOT / "python")), input=text, capture_output=True)
        self.assertEqual(done.returncode, 0, done.stderr)
        self.assertIn(b"line 1 passed over: Schaufel", done.stderr)
        done = subprocess.run(f"exec {sys.executable} -m rummyteak - <&-", shell=True, cwd=ROOT, env=dict(os.environ, PYTHONPATH=str(ROOT / "python")), capture_output=True, text=True)
        self.assertEqual((done.returncode, done.stdout), (66, ""))
        self.assertIn("standard input", done.stderr)

    def test_wrong_calls(self):
        for args in (
            ("--tol",), (), ("examples/open.dat", "--tol", "wide"), ("examples/open.dat", "--limit", "-1"), ("examples/open.dat", "--limit", "4294967296"),
            ("examples/open.dat", "--slots", "1025"), ("examples/open.dat", "--end", "left"), ("examples/open.dat", "--fwd", "1", "0", "--airflow", "1", "0"),
            ("examples/open.dat", "--record", "-"), ("examples/open.dat", "examples/thick.dat", "--record", "a.bin"),
            ("examples/open.dat", "examples/thick.dat", "--csv", "-"), ("examples/open.dat", "--csv", "-", "--json", "-"),
            ("examples/open.dat", "--cell"), ("examples/open.dat", "examples/thick.dat", "--cell"), ("examples/open.dat", "--march", "--cell", "--slots", "257"),
            ("examples/open.dat", "--march", "--fwd", "1", "0"), ("examples/open.dat", "--march", "--airflow", "1", "0"), ("examples/open.dat", "--march", "--curvature"),
            ("examples/open.dat", "--march", "--upper", "0", "1"), ("examples/open.dat", "--march", "--lower", "0", "1"), ("examples/open.dat", "--march", "--end", "back"),
            ("examples/open.dat", "--march", "--cell", "--end", "front"),
            ("examples/open.dat", "--from", "a", "--march"), ("examples/open.dat", "--from", "a", "--line", "4", "1", "0", "1"), ("examples/open.dat", "--from", "a", "--fwd", "1", "0"),
            ("examples/open.dat", "--from", "a", "--airflow", "1", "0"), ("examples/open.dat", "--from", "a", "--curvature"), ("examples/open.dat", "--from", "a", "--upper", "0", "1"),
            ("examples/open.dat", "--from", "a", "--lower", "0", "1"), ("examples/open.dat", "--from", "a", "--end", "back"), ("examples/open.dat", "--from", "a", "--cell", "--slots", "257"),
            ("examples/open.dat", "examples/thick.dat", "--from", "a"), ("-", "--from", "-"), ("-", "--from", "/dev/stdin"), ("examples/open.dat", "--from", "a", "--csv", "a"),
            ("examples/open.dat", "--from", "a", "--record", "./a"),
            ("examples/open.dat", "--state", "a"), ("examples/open.dat", "--from", "a", "--state", "b"), ("examples/open.dat", "examples/thick.dat", "--march", "--state", "a"), ("examples/open.dat", "--march", "--state", ""),
            ("examples/open.dat", "--march", "--state", "a", "--csv", "./a"), ("examples/open.dat", "--march", "--state", "-", "--csv", "-"), ("examples/open.dat", "--march", "--state", "./examples/open.dat"),
            ("examples/open.dat", "examples/thick.dat", "--go-on", "a"), ("examples/open.dat", "--go-on", ""), ("-", "--go-on", "-"), ("-", "--go-on", "/dev/stdin"), ("examples/open.dat", "--go-on", "a", "--from", "b"),
            ("examples/open.dat", "--go-on", "a", "--csv", "a"), ("examples/open.dat", "--go-on", "a", "--record", "./a"), ("examples/open.dat", "--go-on", "a", "--state", "b", "--json", "b"),
            ("examples/open.dat", "--go-on", "a", "--fwd", "1", "0"), ("examples/open.dat", "--go-on", "a", "--curvature"), ("examples/open.dat", "--go-on", "a", "--upper", "0", "1"), ("examples/open.dat", "--go-on", "a", "--end", "back"),
            ("examples/open.dat", "--go-on", "a", "--cell", "--slots", "257"), ("examples/open.dat", "--go-on", "a", "--limit", "-1"),
        ):
            with self.subTest(args=args):
                done = self.run_command(*args)
                self.assertEqual((done.returncode, done.stdout), (64, ""))
                self.assertTrue(done.stderr)
        self.assertEqual(self.run_command("examples/open.dat", "--svg", "/nowhere/a.svg").returncode, 73)

    def test_endings(self):
        spent = self.run_command("-", "--line", "4", "1", "0", "1", "--limit", "3", "--csv", "-", given=self.TEXT)
        self.assertEqual(spent.returncode, 14)
        self.assertIn("14: spent", spent.stderr)
        self.assertIn("--limit", spent.stderr)
        run = rt.extract_circles(R, T, G, (4, 1, 0, 1), 3)
        self.assertEqual([tuple(map(float, row.split(","))) for row in spent.stdout.splitlines()[1:]], [tuple(c) for c in run.circles], "its circles are written")
        for number, args in ((8, ("--line", "40", "1", "0", "1")), (3, ("--tol", "0")), (2, ("--line", "nan", "1", "0", "1")), (15, ("--slots", "2", "--line", "4", "1", "0.1", "1")), (5, ("--section-tol", "100")), (23, ("--section-tol", "0.02"))):
            done = self.run_command("-", *args, given=self.TEXT)
            self.assertEqual(done.returncode, number)
            self.assertIn(f"{number}: {rt.WORDS[number]}", done.stdout)
            self.assertIn(f"{number}: {rt.WORDS[number]}", done.stderr)

    def test_options(self):
        """Each option reaches its call."""

        def told(*args):
            return json.loads(self.run_command("examples/open.dat", "--json", "-", *args).stdout)

        plain = told()
        closed = told("--force-closed")
        self.assertEqual((plain["closed"], closed["closed"], closed["edge"]), (False, True, None))
        self.assertEqual(told("--line", *map(repr, plain["line"]))["circles"], plain["circles"])
        self.assertEqual(told("--end", "none")["edge"], None)
        self.assertEqual(told("--end", "back")["edge"], plain["edge"])
        self.assertEqual(told("--end", "front")["number"], 20)
        self.assertEqual(told("--fwd", "1", "0")["turned"], not told("--airflow", "1", "0")["turned"])
        self.assertEqual(told("--upper", "0", "1")["swapped"], not told("--lower", "0", "1")["swapped"])
        self.assertEqual(told("--curvature")["swapped"], told("--upper", "0", "1")["swapped"])
        self.assertLess(len(told("--tol", "0.1")["circles"]), len(plain["circles"]))
        self.assertLess(len(told("--section-tol", "1", "--tol", "1")["points"]), len(plain["points"]))
        self.assertEqual((told("--slots", "9")["number"], told("--limit", "9")["number"]), (15, 14))
        cut = told("--between", "10", "80")
        piece = rt.between_lengths(plain["points"], T, 10, 80)
        self.assertEqual((cut["points"], cut["stretch"], cut["stretch_given"]), (plain["points"], list(piece.numbers), piece.given))
        self.assertEqual((plain["stretch"], told("--between", "80", "10")["number"]), (None, 21))

    def test_march(self):
        """One march on one side, by either entry: its circles as they were marched, with no orientation and no open edge."""
        line = ("--line", "4", "1", "0", "1")
        run = rt.march(R, T, G, (4, 1, 0, 1))
        plain = None
        for cell, slots in ((), 1024), (("--cell",), 256):
            done = self.run_command("-", *line, "--march", *cell, "--json", "-", given=self.TEXT)
            told = json.loads(done.stdout)
            self.assertEqual((done.returncode, done.stderr), (0, "rummyteak: standard input: line 1 passed over: title\n"))
            self.assertEqual((told["options"]["march"], told["options"]["cell"], told["options"]["slots"]), (True, bool(cell), slots))
            self.assertEqual([tuple(c) for c in told["circles"]], list(run.circles))
            self.assertEqual((told["units"], told["edges"], told["turned"], told["swapped"], told["edge"]), (run.units, list(run.edges), None, None, None))
            self.assertEqual(told["camber"], list(rt.camber_curve(run.circles, T).numbers))
            plain = plain or told
            self.assertEqual({k: v for k, v in told.items() if k != "options"}, {k: v for k, v in plain.items() if k != "options"})
            text = self.run_command("-", *line, "--march", *cell, given=self.TEXT).stdout
            self.assertIn(f"one march, to the right of the line as it points; {'the entry for the cell, ' if cell else ''}{slots} slots\n", text)
            self.assertIn(f"circles             {len(run.circles)}, {run.units} units\n", text)
        self.assertNotIn("one march", self.run_command("-", *line, given=self.TEXT).stdout)
        other = json.loads(self.run_command("-", "--line", "4", "1", "0", "-1", "--march", "--json", "-", given=self.TEXT).stdout)
        self.assertLess(other["circles"][-1][0], 4, "a line turned round marches to the other side")
        opened = json.loads(self.run_command("examples/open.dat", "--march", "--cell", "--end", "none", "--json", "-").stdout)
        self.assertEqual((opened["closed"], opened["edge"], opened["number"]), (False, None, 0))

    def test_thinned(self):
        """Circles thinned behind all other runs: what is handed on are the kept ones, and what was dropped is told."""
        line = ("--line", "4", "1", "0", "1")
        circles = [list(c) for c in rt.march(R, T, G, (4, 1, 0, 1)).circles]
        kept = [circles[k] for k in (0, 24, 51)]
        with tempfile.TemporaryDirectory() as folder:
            names = [str(Path(folder) / n) for n in ("a.csv", "a.bin", "a.json", "a.svg")]
            for cell in (), ("--cell",):
                done = self.run_command("-", *line, "--march", *cell, "--thin-circles", "--csv", names[0], "--record", names[1], "--json", names[2], "--svg", names[3], given=self.TEXT)
                self.assertEqual(done.returncode, 0)
                self.assertRegex(done.stdout, r"(?m)^circles +52, 102 units\nthinned +3 of 52 kept, 50 units; of all: greatest thickness 1\.999\d+, camber length 4\.301\d+\n")
                self.assertEqual([list(map(float, row.split(","))) for row in Path(names[0]).read_text().splitlines()[1:]], kept)
                self.assertEqual([list(c) for c in rt.read_record(Path(names[1]).read_bytes())], kept)
                told = json.loads(Path(names[2]).read_text())
                self.assertEqual((told["circles"], told["dropped"], told["units"], told["thin_units"]), (kept, [c for c in circles if c not in kept], 102, 50))
                self.assertEqual((told["options"]["thin_circles"], told["camber"]), (True, list(rt.camber_curve(kept, T).numbers)))
                self.assertEqual(told["camber_length_of_all"], rt.length(rt.camber_curve(circles, T), T))
                self.assertEqual(told["thickness_of_all"], 2 * circles[rt.index_of_tmax(circles)][2])
                drawn = Path(names[3]).read_text()
                titles = [t.text for t in ElementTree.fromstring(drawn).iter("{http://www.w3.org/2000/svg}title")]
                for c in told["dropped"]:
                    self.assertIn("dropped: " + ", ".join(f"{n} {x!r}" for n, x in zip(told["circle"], c)), titles)
                for words in ("3 of 52 circles kept, 102 units, one march" + (", cell" if cell else ""), "those that thinning dropped, 50 units"):
                    self.assertIn(words, drawn)
        plain = json.loads(self.run_command("examples/open.dat", "--json", "-").stdout)
        self.assertEqual([plain[k] for k in ("dropped", "thin_units", "thickness_of_all", "camber_length_of_all")], [None] * 4)
        told = json.loads(self.run_command("examples/open.dat", "--thin-circles", "--json", "-").stdout)
        # all that comes before is as it is without thinning, and the list is thinned as it stands then
        self.assertEqual([told[k] for k in ("turned", "swapped", "edge", "edge_at", "units", "crossing")], [plain[k] for k in ("turned", "swapped", "edge", "edge_at", "units", "crossing")])
        section = rt.from_points(read(str(ROOT / "examples" / "open.dat")), T)
        run = rt.thin(section, T, G, [rt.Inscribed(*c) for c in plain["circles"]])
        self.assertEqual((told["circles"], told["thin_units"], len(told["dropped"])), ([list(c) for c in run.circles], run.units, len(plain["circles"]) - len(run.circles)))
        self.assertEqual((told["camber_length_of_all"], told["number"]), (plain["camber_length"], 0))
        self.assertEqual((told["circles"][0], told["circles"][-1]), (plain["circles"][0], plain["circles"][-1]))
        several = self.run_command("examples/thick.dat", "examples/open.dat", "--thin-circles")
        self.assertEqual([re.search(r"\d+ kept by thinning in \d+ units", line).group() for line in several.stdout.splitlines()], ["23 kept by thinning in 167 units", "19 kept by thinning in 154 units"])
        # a run that is refused or spent is not thinned; a thinning that is spent leaves all circles
        spent = json.loads(self.run_command("examples/open.dat", "--thin-circles", "--limit", "100", "--json", "-").stdout)
        self.assertEqual((spent["number"], spent["step"], spent["dropped"], spent["thin_units"]), (14, "circles", None, None))
        steps = _Steps(R, Options(thin_circles=True, limit=3))
        steps.blade.curve, steps.blade.circles = rt.from_points(R, T), self.made
        steps.take(steps.thinning)
        self.assertEqual((steps.blade.number, steps.blade.step, steps.blade.circles, steps.blade.dropped, steps.blade.thin_units), (14, "thinning", self.made, None, 3))
        self.assertRegex(table("x", steps.blade), r"(?m)^thinned +not finished, all 6 kept, 3 units$")

    def test_from(self):
        """Circles of a file, a CSV or a record, offered to an empty list in place of finding any."""
        line = ("--line", "4", "1", "0", "1")
        run = rt.march(R, T, G, (4, 1, 0, 1))
        with tempfile.TemporaryDirectory() as name:
            folder = Path(name)
            section = str(folder / "r.dat")
            Path(section).write_text(self.TEXT)
            files = [str(folder / n) for n in ("a.csv", "a.bin", "b.csv", "b.bin", "b.json", "b.svg")]
            csv, record = files[:2]
            self.assertEqual(self.run_command(section, *line, "--march", "--csv", csv, "--record", record).returncode, 0)
            for source in files[:2]:
                for cell, slots in ((), 1024), (("--cell",), 256):
                    done = self.run_command(section, "--from", source, *cell, "--csv", files[2], "--record", files[3], "--json", files[4], "--svg", files[5])
                    self.assertEqual(done.returncode, 0, done.stderr)
                    self.assertIn(f"\ncircles from        {source}, 52 offered; {'the entry for the cell, ' if cell else ''}{slots} slots\ncircles             52, 51 units\n", done.stdout)
                    self.assertNotIn("reference line", done.stdout)
                    self.assertEqual([Path(f).read_bytes() for f in files[2:4]], [Path(f).read_bytes() for f in files[:2]], "the same list, bit for bit")
                    told = json.loads(Path(files[4]).read_text())
                    self.assertEqual((told["offered"], told["units"], told["options"]["from_file"], told["options"]["cell"]), (52, 51, source, bool(cell)))
                    self.assertEqual([told[k] for k in ("line", "crossing", "edges", "turned", "swapped", "edge")], [None] * 6)
                    self.assertEqual(told["camber"], list(rt.camber_curve(run.circles, T).numbers))
                    self.assertIn("52 inscribed circles, 51 units, 52 offered" + (", cell" if cell else ""), Path(files[5]).read_text())
            # from standard input; spent, full, refused; thinned
            given = subprocess.run([sys.executable, "-m", "rummyteak", section, "--from", "-", "--csv", "-"], cwd=ROOT, env=dict(os.environ, PYTHONPATH=str(ROOT / "python")), input=Path(record).read_bytes(), capture_output=True)
            self.assertEqual((given.returncode, given.stdout), (0, Path(csv).read_bytes()))
            for more, number, count, units, words in (
                (("--limit", "10"), 14, 11, 10, "larger --limit"), (("--slots", "5"), 15, 5, 5, "more --slots"), (("--cell", "--slots", "5"), 15, 5, 5, "up to 256"), (("--section-tol", "0.02"), 23, 0, 0, "--tol"), (("--thin-circles",), 0, 52, 51, ""),
            ):
                done = self.run_command(section, "--from", csv, *more)
                self.assertEqual(done.returncode, number)
                self.assertRegex(done.stdout, rf"(?m)^circles +{count}, {units} units$")
                self.assertIn(words, done.stderr)
            self.assertIn("3 of 52 kept, 50 units", done.stdout)
            rows = Path(csv).read_text().splitlines()
            for text, number, words in (
                ("\n".join([rows[0], *rows[1:3], rows[3].replace(rows[3].split(",")[2], "-1", 1)]), 2, "wrong numbers in the circles"), ("\n".join([rows[0], rows[1].replace(rows[1].split(",")[0], "nan", 1)]), 2, "wrong numbers"),
                ("\n".join([rows[0], *rows[1:2] * 1025]), 4, "at most 1024 circles"), (rows[0], 0, ""), ("\r\n".join(rows[:3]) + "\r\n\r\n", 0, ""), ("\ufeff" + "\n".join(rows), 0, ""),
                (rows[0] + "\n1.0,1.0,1.0,1.0,0.0,1.0,0.0,1,1\n2,1,1,2,0,2,2,2,16\n", 11, "contacts are one point"),
            ):
                Path(csv).write_text(text, newline="")
                done = self.run_command(section, "--from", csv)
                self.assertEqual((done.returncode, words in done.stderr), (number, True), done.stderr)
            self.assertEqual(rt.refine_all(R, T, G, (), (rt.Inscribed(*map(float, rows[1].split(","))),)).circles, run.circles[:1])
            # what is no such file is 66, with its line
            whole = Path(record).read_bytes()
            for content, words in (
                (rows[0] + "\n" + rows[1] + "\n" + rows[2][:-4] + "mm\n", "line 3"), (rows[0] + "\n" + rows[1] + ",1\n", "line 2"), (rows[0] + "\n\n" + rows[1] + "\n", "line 2"), (rows[0] + "\n" + rows[1].replace(",", ";") + "\n", "line 2"),
                ("\n".join(rows[1:]), "line 1"), (self.TEXT, "line 1 is not cx,cy,"), ("", "line 1"), (rows[0].replace("cx", "x"), "line 1"), (whole[:-1], "24:"), (whole + b"\0", "24:"), (b"\xff\xff", "4:"), (whole[:3] + b"\x80" + whole[4:], "25:"),
            ):
                (folder / "x").write_bytes(content if isinstance(content, bytes) else content.encode())
                done = self.run_command(section, "--from", str(folder / "x"))
                self.assertEqual((done.returncode, done.stdout), (66, ""))
                self.assertIn(f"{folder / 'x'}: ", done.stderr)
                self.assertIn(words, done.stderr)
            for missing in (str(folder / "nothing"), str(folder)):
                done = self.run_command(section, "--from", missing)
                self.assertEqual((done.returncode, done.stdout), (66, ""))
                self.assertIn(missing, done.stderr)
        self.assertEqual(self.run_command("examples/open.dat", "--from", "-", given="\0\0").returncode, 0, "a record of no circles")
        for options, offered in ((Options(from_file="a"), None), (Options(), PAIR)):
            with self.assertRaises(ValueError):
                worked_out(R, options, offered)

    def gone_on(self, folder, section, options, limits, more=(), reading=()):
        """Takes a march in pieces, by a state file that each piece replaces, and at once; returns what the last piece and the one march gave: status, streams and all files."""
        state, answers = str(folder / "state"), []
        names = ("csv", "json", "svg", "record", "points", "state")
        limit = lambda n: () if n is None else ("--limit", str(n))  # noqa: E731
        total = None if limits[-1] is None else sum(limits)
        self.assertEqual(self.run_command(section, *reading, "--march", *options, *limit(limits[0]), "--state", state).returncode, 14)
        for n in limits[1:-1]:
            self.assertEqual(self.run_command(section, *reading, "--go-on", state, *limit(n), "--state", state).returncode, 14)
        for how in (("--go-on", state, *limit(limits[-1])), ("--march", *options, *limit(total))):
            files = [folder / f"out.{name}" for name in names]
            done = self.run_command(section, *reading, *how, *more, *(word for name, file in zip(names, files) for word in (f"--{name}", str(file))))
            answers.append((done.returncode, done.stdout, done.stderr, *(file.read_bytes() for file in files)))
            for file in files:
                file.unlink()
        return answers

    def test_go_on(self):
        """A march in pieces, by files, ends with the very bytes of the one march whose limit is the sum."""
        line = ("--line", "4", "1", "0", "1")
        with tempfile.TemporaryDirectory() as name:
            folder = Path(name)
            section = str(folder / "r.dat")
            Path(section).write_text(self.TEXT)
            for options, limits, more, status, words in (
                (line, (0, 0), (), 14, "1, 0 units\nstate               advancing, fraction 0 due\n"), (line, (0, 102), (), 0, "52, 102 units\n"), (line, (21, 0, 9), (), 14, "16, 30 units\n"),
                (line, (21, 1), (), 14, "12, 22 units\nstate               advancing, fraction 0 due\n"), (line, (40, 11), (), 14, "26, 51 units\nstate               refining, 1 waiting\n"),
                ((*line, "--cell"), (21, 30, 51), (), 0, "52, 102 units\n"), ((*line, "--cell"), (101, None), (), 0, "52, 102 units\n"), (line, (50, 4294967245), (), 0, "52, 102 units\n"), (line, (50, None), ("--thin-circles", "--end", "none"), 0, "3 of 52 kept, 50 units"),
                ((*line, "--cell"), (60, 42), ("--thin-circles",), 0, "3 of 52 kept, 50 units"), ((*line, "--slots", "20"), (5, 30, 60), (), 15, "20, 40 units\n"),
                (("--tol", "0.05", "--section-tol", "0.02"), (3, 4), (), 14, "units\n"), ((*line, "--between", "1", "19"), (2, None), (), 0, "stretch"), (("--force-closed",), (20, None), (), 0, "closed"),
            ):
                with self.subTest(options=options, limits=limits, more=more):
                    pieces, one = self.gone_on(folder, section, options, limits, more)
                    self.assertEqual(pieces, one)
                    self.assertEqual((one[0], words in one[1]), (status, True), one[1])
            # no line, and a section that is read otherwise; up to four circles wait, and each fraction is due at some limit
            odd = folder / "odd.dat"
            steps = Rows.CUT[1][0]
            odd.write_text("".join(f"7;{x};{y},0\n" for x, y in zip(steps[::2], steps[1::2])))
            reading = ("--columns", "2,3", "--decimal-comma")
            options = ("--tol", "0.05", "--line", "1", "2", "2", "2")
            for limits in ((22, 5), (22, 24), (22, None), (5, 5, 5, 7)):
                pieces, one = self.gone_on(folder, str(odd), options, limits, (), reading)
                self.assertEqual(pieces, one)
            for section, limits in (("examples/open.dat", (50, 50, 50)), ("examples/compressor.dat", (100, None))):
                pieces, one = self.gone_on(folder, section, ("--cell",), limits)
                self.assertEqual(pieces, one)
            # from standard input, to standard output
            state = self.run_command("examples/open.dat", "--march", "--limit", "30", "--state", "-").stdout
            again = self.run_command("examples/open.dat", "--go-on", "-", "--limit", "0", "--state", "-", given=state)
            self.assertEqual((again.returncode, again.stdout), (14, state), "limit 0 gives the same state")
            told = json.loads(state)
            run = rt.march(rt.from_points(read(str(ROOT / "examples" / "open.dat")), T), T, G, told["line"], 30)
            self.assertEqual(([rt.Inscribed(*c) for c in told["circles"]], told["units"], tuple(told["edges"])), (list(run.circles), 30, run.edges))
            self.assertEqual(rt.MarchState(told["refining"], told["fraction"], told["waiting"]), run.state)
            self.assertEqual(json.loads(self.run_command("examples/open.dat", "--go-on", "-", "--limit", "1", "--json", "-", given=state).stdout)["state"]["refining"], not run.state.refining)

    def test_go_on_refused(self):
        """What is no state of a march on this section, or is handed in otherwise than the march was, is refused with words, and nothing is written."""
        with tempfile.TemporaryDirectory() as name:
            folder = Path(name)
            section, state, out = folder / "r.dat", folder / "state", folder / "out"
            section.write_text(self.TEXT)
            line = ("--line", "4", "1", "0", "1")
            self.assertEqual(self.run_command(str(section), *line, "--march", "--cell", "--limit", "41", "--state", str(state)).returncode, 14)
            text = state.read_text()
            # options of the march that are given once more are its own, or a wrong call
            for args in (line, ("--march",), ("--cell",), ("--slots", "256"), ("--tol", "0.01"), ("--section-tol", "1e-3"), ("--end", "none"), (*line, "--march", "--cell", "--tol", "0.01")):
                self.assertEqual(self.run_command(str(section), "--go-on", str(state), *args).returncode, 0, args)
            for args, words in (
                (("--tol", "0.02"), "--tol: the march in"), (("--tol", "0"), "with 0.01,"), (("--section-tol", "0"), "--section-tol: the march in"), (("--line", "4", "1", "0", "-1"), "with 4.0 1.0 0.0 1.0,"), (("--slots", "255"), "with 256,"), (("--slots", "0"), "--slots"),
                (("--force-closed",), "--force-closed: the march in"), (("--between", "1", "9"), "without it,"), (("--tol", "nan"), "--tol"),
            ):
                done = self.run_command(str(section), "--go-on", str(state), *args, "--csv", str(out), "--state", str(state))
                self.assertEqual((done.returncode, done.stdout, out.exists(), state.read_text()), (64, "", False, text))
                self.assertIn(words, done.stderr)
                self.assertIn(str(state), done.stderr)
            # another section, by as little as a bit; the same points read from another file are the same section
            other = folder / "other.dat"
            other.write_text(self.TEXT.replace("8, 2", "8, 2.0000000000000004"))
            done = self.run_command(str(other), "--go-on", str(state), "--csv", str(out), "--state", str(state))
            self.assertEqual((done.returncode, done.stdout, out.exists(), state.read_text()), (66, "", False, text))
            self.assertIn(f"{state}: the march in it is on another section, {section}: its checksum is not that of the points of {other}", done.stderr)
            other.write_text(self.TEXT.replace(",", ";").replace("8", "8.0"))
            self.assertEqual(self.run_command(str(other), "--go-on", str(state)).returncode, 0)
            # what isn't finite is null: the file stays JSON
            strange = folder / "strange"
            self.assertEqual(self.run_command(str(section), "--march", "--line", "nan", "0", "0", "1", "--state", str(strange)).returncode, 2)
            self.assertEqual(json.loads(strange.read_text(), parse_constant=self.fail)["line"], [None, 0.0, 0.0, 1.0])
            done = self.run_command(str(section), "--go-on", str(strange))
            self.assertEqual((done.returncode, done.stdout), (66, ""))
            self.assertIn("is not spent", done.stderr)
            # what is no such file
            told = json.loads(text)
            changed = lambda **more: json.dumps(dict(told, **more))  # noqa: E731
            for content, words in (
                ("", "no file of a march's state"), (self.TEXT, "no file of a march's state"), ("[]", '"file" is not'), ("{}", '"file" is not'), (text[:-3], "no file of"), (changed(file="rummyteak march state 2"), "another version"), (b"\xff\xfe", "no file of"), ("[" * 100000, "no file of"),
                (text.replace('"tol": 0.01', '"tol": NaN'), "NaN"), (changed(tol="0.01"), '"tol"'), (changed(tol=True), '"tol"'), (changed(line=[4, 1, 0]), '"line"'), (changed(line=None), '"line"'), (changed(slots=1025), '"slots"'), (changed(slots=-1), '"slots"'),
                (changed(limit=2**32), '"limit"'), (changed(units=1.5), '"units"'), (changed(circles=[[1, 2]]), '"circles"'), (changed(waiting=None), '"waiting"'), (changed(waiting=[[1] * 8 + ["x"]]), '"waiting"'), (changed(refining=1), '"refining"'), (changed(fraction=-1), '"fraction"'),
                (changed(edges=[1]), '"edges"'), (changed(number=28), '"number"'), (changed(number=None), '"number"'), (changed(points_sha256=None), '"points_sha256"'), (changed(points_sha256="0" * 64), "another section"), (changed(tol=10**400), '"tol"'), (json.dumps({k: v for k, v in told.items() if k != "cell"}), '"cell"'), (changed(between=[1]), '"between"'),
            ):
                state.write_bytes(content if isinstance(content, bytes) else content.encode())
                with self.assertRaises(Unreadable) as caught:
                    read_state(str(state), str(section), read(str(section)))
                self.assertTrue(str(caught.exception).startswith(f"{state}: "))
                self.assertIn(words, str(caught.exception))
            done = self.run_command(str(section), "--go-on", str(state), "--csv", str(out), "--state", str(state))
            self.assertEqual((done.returncode, done.stdout, out.exists(), done.stderr), (66, "", False, f"rummyteak: {caught.exception}\n"))
            for missing in (str(folder / "nothing"), str(folder)):
                done = self.run_command(str(section), "--go-on", missing)
                self.assertEqual((done.returncode, done.stdout), (66, ""))
                self.assertIn(missing, done.stderr)
            # a state that no spent march left is the library's to refuse
            for content, number in ((changed(fraction=4, refining=False, waiting=[]), 27), (changed(waiting=[[1] * 9] * 65), 27), (changed(waiting=[]), 27), (changed(circles=[]), 27), (changed(circles=[[1, 1, -1, 1, 1, 1, 1, 1, 1]]), 2), (changed(tol=1e-4), 23), (changed(circles=[[1] * 9] * 257), 4)):
                state.write_text(content)
                done = self.run_command(str(section), "--go-on", str(state))
                self.assertEqual(done.returncode, number)
                self.assertIn(f"{number}: {rt.WORDS[number]}", done.stderr)
            # numbers may be written as whole ones, and what is said besides is passed over
            state.write_text(changed(line=[4, 1, 0, 1], more="words"))
            self.assertEqual(self.run_command(str(section), "--go-on", str(state)).returncode, 0)
            # a march that isn't spent: the file of another one is replaced by one that says so, and has nothing to go on from
            for args, number in (((), 0), (("--slots", "5"), 15), (("--section-tol", "0.02"), 23), (("--line", "40", "1", "0", "1"), 8), (("--section-tol", "100", "--tol", "100"), 5), (("--thin-circles",), 0), (("--thin-circles", "--limit", "102"), 0)):
                state.write_text(text)
                self.assertEqual(self.run_command(str(section), *line, "--march", *args, "--state", str(state)).returncode, number)
                told = json.loads(state.read_text())
                self.assertEqual((told["number"], told["ending"], [told[k] for k in ("circles", "refining", "fraction", "waiting")]), (number, rt.WORDS[number], [None] * 4))
                done = self.run_command(str(section), "--go-on", str(state))
                self.assertEqual((done.returncode, done.stdout), (66, ""))
                self.assertIn(f"the march in it is not spent, so that there is nothing to go on from; it ended with {number}: {rt.WORDS[number]}", done.stderr)
            # where one output can't be written, the state stays
            state.write_text(text)
            done = self.run_command(str(section), "--go-on", str(state), "--limit", "5", "--state", str(state), "--csv", "/nowhere/a.csv")
            self.assertEqual((done.returncode, state.read_text(), "state  " in done.stdout), (73, text, True))
            self.assertIn("or write the state with --state", done.stderr)
        self.assertEqual(json.loads(as_state("x", Blade(number=14, step="thinning"), Options(march=True), R))["number"], 0, "it is the march's ending that is told")
        # the options that go with a paused march are its own
        run = rt.march(R, T, G, (4, 1, 0, 1), 9)
        paused = Paused(Options(march=True, line=(4.0, 1.0, 0.0, 1.0), limit=9), rt.Line2(4, 1, 0, 1), run.circles, run.units, run.edges, run.state)
        self.assertEqual(worked_out(R, Options(march=True, line=(4.0, 1.0, 0.0, 1.0), limit=50), paused=paused), worked_out(R, Options(march=True, line=(4.0, 1.0, 0.0, 1.0), limit=50)))
        for options in (Options(march=True, line=(4.0, 1.0, 0.0, 1.0), limit=8), Options(march=True, limit=50), Options(march=True, line=(4.0, 1.0, 0.0, 1.0), cell=True), Options()):
            with self.assertRaises(ValueError):
                worked_out(R, options, paused=paused)

    def test_cell(self):
        """15 says what to do; a spent march keeps its circles, and so does a record of them."""
        strip = "0 0\n8 0\n8 0.1\n0 0.1\n0 0\n"
        args = ("-", "--tol", "0.001", "--line", "5.5", "0.05", "0", "1", "--march", "--cell")
        circles = rt.march([0, 0, 8, 0, 8, 0.1, 0, 0.1, 0, 0], T, T, (5.5, 0.05, 0, 1)).circles
        for more, number, count, words in (
            ((), 15, 256, ("larger --tol", "leave out --cell")),
            (("--slots", "100"), 15, 100, ("more --slots, up to 256",)),
            (("--slots", "256", "--limit", "511"), 14, 256, ("--limit",)),
            (("--limit", "0"), 14, 1, ("--limit",)),
            (("--slots", "0"), 15, 0, ("--slots",)),
            (("--section-tol", "0.002"), 23, 0, ("--tol",)),
        ):
            with self.subTest(more=more), tempfile.TemporaryDirectory() as folder:
                names = [str(Path(folder) / n) for n in ("a.csv", "a.bin", "a.svg")]
                done = self.run_command(*args, *more, "--csv", names[0], "--record", names[1], "--svg", names[2], given=strip)
                self.assertEqual(done.returncode, number)
                for word in words:
                    self.assertIn(word, done.stderr)
                self.assertRegex(done.stdout, rf"(?m)^circles +{count}, ")
                self.assertEqual([tuple(map(float, row.split(","))) for row in Path(names[0]).read_text().splitlines()[1:]], list(circles[:count]))
                self.assertEqual(rt.read_record(Path(names[1]).read_bytes()), circles[:count])
                self.assertIn(f"{number}: ", ElementTree.parse(names[2]).getroot().find("{http://www.w3.org/2000/svg}title").text)
        self.assertEqual(self.run_command(*args[:-1], given=strip).returncode, 0, "without --cell there are slots for all")
        with self.assertRaises(ValueError):
            Options(cell=True)
        with self.assertRaises(ValueError):
            Options(march=True, upper=(0, 1))
        several = self.run_command("examples/thick.dat", "examples/open.dat", "--march", "--cell", "--slots", "9")
        self.assertEqual((several.returncode, [line.split(", ")[0].split(": ")[1] for line in several.stdout.splitlines()]), (15, ["9 circles", "9 circles"]))

    def test_outputs(self):
        with tempfile.TemporaryDirectory() as folder:
            names = [str(Path(folder) / n) for n in ("a.json", "a.csv", "a.svg", "a.bin")]
            self.run_command("examples/open.dat", "--json", names[0], "--csv", names[1], "--svg", names[2], "--record", names[3])
            told = json.loads(Path(names[0]).read_text())
            run = rt.extract_circles(told["points"], T, G, told["line"])
            circles, told_turned = rt.orient_tmax_fwd(run.circles)
            fit = rt.fit_open_edge(told["points"], T, G, circles, False)
            self.assertEqual(told_turned, told["turned"])
            self.assertEqual([[bits(x) for x in c] for c in fit.circles], [[bits(x) for x in c] for c in told["circles"]], "every number reads back to the same bits")
            self.assertEqual((list(fit.point), run.units + fit.units), (told["edge"], told["units"]))
            header, *rows = Path(names[1]).read_text().splitlines()
            self.assertEqual(header.split(","), list(rt.Inscribed._fields))
            self.assertEqual([[float(x) for x in row.split(",")] for row in rows], told["circles"])
            self.assertEqual([list(c) for c in rt.read_record(Path(names[3]).read_bytes())], told["circles"])
            self.run_command("examples/open.dat", "--between", "10", "80", "--points", names[1])
            self.assertEqual(list(read(names[1])), list(rt.between_lengths(told["points"], T, 10, 80).numbers), "a stretch reads back to the same bits")

    def test_one_file_twice(self):
        """An output that is the input, or another output, is a wrong call, by whatever name, and before anything is read."""
        with tempfile.TemporaryDirectory() as name:
            folder = Path(name)
            section, text = folder / "a.dat", (ROOT / "examples" / "open.dat").read_text(encoding="utf-8")
            section.write_text(text, encoding="utf-8")
            (folder / "link").symlink_to("a.dat")
            (folder / "there").symlink_to(folder, target_is_directory=True)
            (folder / "new").symlink_to("not yet")
            os.link(section, folder / "hard")
            at = lambda *names: [str(folder / n) for n in names]  # noqa: E731
            for args in (
                at("a.dat") + ["--csv"] + at("a.dat"), at("a.dat") + ["--svg"] + at("link"), at("link") + ["--record"] + at("a.dat"), at("hard") + ["--json"] + at("a.dat"), at("a.dat") + ["--points"] + at("there/./a.dat"),
                at("a.dat") + ["--points"] + at("there/link"), at("a.dat") + ["--csv"] + at("b") + ["--json"] + at("./b"), at("a.dat") + ["--csv"] + at("b") + ["--record"] + at("there/b"), at("a.dat") + ["--csv"] + at("new") + ["--svg"] + at("not yet"),
                at("no such file") + ["--csv"] + at("no such file"), at("a.dat") + ["--csv", "-", "--json", "/dev/stdout"], at("a.dat") + ["--csv", ""], at("a.dat") + ["--record", "/dev/stdout"],
            ):
                with self.subTest(args=args):
                    done = self.run_command(*args)
                    self.assertEqual((done.returncode, done.stdout), (64, ""))
                    self.assertEqual((section.read_text(encoding="utf-8"), sorted(p.name for p in folder.iterdir())), (text, ["a.dat", "hard", "link", "new", "there"]))
            env = dict(os.environ, PYTHONPATH=str(ROOT / "python"), PYTHON=sys.executable)
            for line in ('"$PYTHON" -m rummyteak a.dat >>a.dat', '"$PYTHON" -m rummyteak link a.dat >>a.dat', '"$PYTHON" -m rummyteak - --csv a.dat <a.dat', '"$PYTHON" -m rummyteak /dev/stdin --csv hard <a.dat', '"$PYTHON" -m rummyteak a.dat --csv b >b'):
                with self.subTest(line=line):
                    done = subprocess.run(line, shell=True, cwd=folder, env=env, capture_output=True, text=True)
                    self.assertEqual(done.returncode, 64)
                    self.assertIn("the same file", done.stderr)
                    self.assertEqual(section.read_text(encoding="utf-8"), text)
            # what is no file is never the same file
            for line in ('"$PYTHON" -m rummyteak a.dat --csv /dev/null >/dev/null', '"$PYTHON" -m rummyteak - --csv /dev/null <a.dat >/dev/null', 'cat a.dat | "$PYTHON" -m rummyteak - --csv c | cat >/dev/null', '"$PYTHON" -m rummyteak a.dat --json d >e'):
                self.assertEqual(subprocess.run(line, shell=True, cwd=folder, env=env, capture_output=True).returncode, 0, line)

    def test_streams(self):
        """/dev/stdout is standard output, and what is open already is written to as it is."""
        want = self.run_command("examples/open.dat", "--csv", "-").stdout
        self.assertIn("cx,cy,r", want)
        self.assertEqual(self.run_command("examples/open.dat", "--csv", "/dev/stdout").stdout, want)
        done = self.run_command("examples/open.dat", "--csv", "/dev/stderr")
        self.assertEqual(done.stdout, (ROOT / "examples" / "open.txt").read_text(encoding="utf-8"))
        self.assertTrue(done.stderr.endswith(want))
        with tempfile.TemporaryDirectory() as folder:
            env = dict(os.environ, PYTHONPATH=str(ROOT / "python"), PYTHON=sys.executable, F=folder)
            subprocess.run('"$PYTHON" -m rummyteak examples/open.dat --csv - >"$F/a"; "$PYTHON" -m rummyteak examples/open.dat --csv /dev/stdout >"$F/b"; "$PYTHON" -m rummyteak examples/open.dat --csv /dev/fd/3 3>"$F/c" >"$F/d"', shell=True, cwd=ROOT, env=env, capture_output=True)
            self.assertEqual([(Path(folder) / n).read_text() for n in "abc"], [want] * 3)
            self.assertEqual((Path(folder) / "d").read_text(), done.stdout)
            os.mkfifo(Path(folder) / "pipe")
            got = subprocess.run('cat "$F/pipe" & "$PYTHON" -m rummyteak examples/open.dat --csv "$F/pipe" >/dev/null; wait', shell=True, cwd=ROOT, env=env, capture_output=True, text=True)
            self.assertEqual(got.stdout, want)
            got = subprocess.run('head -c 9 "$F/pipe" >/dev/null & "$PYTHON" -m rummyteak examples/open.dat --svg "$F/pipe" >/dev/null', shell=True, cwd=ROOT, env=env, capture_output=True, text=True)
            self.assertEqual(got.returncode, 73)
            self.assertIn(f"{folder}/pipe: Broken pipe", got.stderr)

    def test_old_files(self):
        """A file is replaced as a whole or not at all; the message names it."""
        small = lambda: resource.setrlimit(resource.RLIMIT_FSIZE, (60_000, 60_000))  # noqa: E731
        env = dict(os.environ, PYTHONPATH=str(ROOT / "python"))

        def limited(*args):
            return subprocess.run([sys.executable, "-m", "rummyteak", "examples/open.dat", *args], cwd=ROOT, env=env, capture_output=True, text=True, preexec_fn=small)

        with tempfile.TemporaryDirectory() as name:
            folder = Path(name)
            csv, svg, points = folder / "a.csv", folder / "a.svg", folder / "a.dat"
            for file in (csv, svg, points):
                file.write_text("old")
            table = (ROOT / "examples" / "open.txt").read_text(encoding="utf-8")
            for args in (("--svg", svg), ("--csv", csv, "--svg", svg), ("--points", points, "--svg", svg), ("--csv", csv, "--svg", folder / "new.svg")):
                done = limited(*map(str, args))
                self.assertEqual((done.returncode, done.stdout), (73, table), "the table is told all the same")
                self.assertIn(f"{args[-1]}: File too large", done.stderr)
                self.assertEqual([file.read_text() for file in (csv, svg, points)], ["old"] * 3)
                self.assertEqual(len(list(folder.iterdir())), 3, "nothing is left beside")
            self.assertEqual(limited("--points", str(points)).returncode, 0)
            self.assertEqual(points.stat().st_size, len(self.run_command("examples/open.dat", "--points", "-").stdout))
            for where, words in (("/nowhere/a.svg", "No such file"), (str(folder), "Is a directory"), (str(folder / "new") + "/", "Is a directory"), (str(csv / "b"), "Not a directory"), ("/dev/full", "No space left")):
                done = self.run_command("examples/open.dat", "--svg", where, "--csv", str(csv))
                self.assertEqual(done.returncode, 73)
                self.assertIn(f"rummyteak: {where}: {words}", done.stderr)
                self.assertEqual(csv.read_text(), "old", "where one can't be written, none is replaced")
            # rights stay, what a link points to is replaced, and a new file has the rights that any new file has
            csv.chmod(0o640)
            (folder / "link").symlink_to("a.csv")
            (folder / "to come").symlink_to("new.csv")
            want = self.run_command("examples/open.dat", "--csv", "-").stdout
            for where, file, mode in (("link", csv, 0o640), ("to come", folder / "new.csv", 0o666 & ~0o027), ("b.csv", folder / "b.csv", 0o666 & ~0o027)):
                done = subprocess.run([sys.executable, "-m", "rummyteak", "examples/open.dat", "--csv", str(folder / where)], cwd=ROOT, env=env, capture_output=True, preexec_fn=lambda: os.umask(0o027))
                self.assertEqual((done.returncode, file.read_text(), stat.S_IMODE(file.stat().st_mode)), (0, want, mode))
            self.assertTrue((folder / "link").is_symlink() and (folder / "to come").is_symlink())
            self.assertEqual(sorted(p.name for p in folder.iterdir()), ["a.csv", "a.dat", "a.svg", "b.csv", "link", "new.csv", "to come"])

    def test_others_files(self):
        """In a folder such as /tmp another user's file can't be replaced, though it may be written; so no file is."""
        with tempfile.TemporaryDirectory() as name:
            folder = Path(name)
            folder.chmod(0o1777)
            for file in ("a.csv", "b.csv"):
                (folder / file).write_text("old")
            new = [(str(folder / "new.csv"), b"new"), (str(folder / "a.csv"), b"new")]
            with mock.patch("os.geteuid", lambda: os.stat(folder).st_uid + 1):
                with self.assertRaisesRegex(PermissionError, "a.csv"):
                    put(new)
                self.assertEqual(sorted((p.name, p.read_text()) for p in folder.iterdir()), [("a.csv", "old"), ("b.csv", "old")])
                put(new[:1])
            put([(str(folder / "b.csv"), b"new")])
            self.assertEqual(sorted((p.name, p.read_text()) for p in folder.iterdir()), [("a.csv", "old"), ("b.csv", "new"), ("new.csv", "new")])

    def test_interrupted_moves(self):
        """An interrupt while files are moved into place comes when all are there."""
        with tempfile.TemporaryDirectory() as name:
            files, move = [Path(name) / file for file in ("a", "b", "c")], os.replace
            for file in files:
                file.write_text("old")

            def interrupted(new, place):
                move(new, place)
                signal.pthread_kill(threading.get_ident(), signal.SIGINT)

            before = signal.signal(signal.SIGINT, signal.default_int_handler)
            try:
                with mock.patch("os.replace", interrupted), self.assertRaises(KeyboardInterrupt):
                    put([(str(file), b"new") for file in files])
            finally:
                signal.signal(signal.SIGINT, before)
            self.assertEqual(sorted((p.name, p.read_text()) for p in Path(name).iterdir()), [(file.name, "new") for file in files])
            self.assertNotIn(signal.SIGINT, signal.pthread_sigmask(signal.SIG_BLOCK, ()))

    def test_broken_runs(self):
        """A run that is broken off while it writes leaves the old file; one that is interrupted leaves nothing beside it."""
        with tempfile.TemporaryDirectory() as name:
            folder = Path(name)
            (folder / "a.csv").write_text("old")
            os.mkfifo(folder / "pipe")
            beside = lambda: [p.name for p in folder.iterdir() if p.name not in ("a.csv", "pipe")]  # noqa: E731
            for sign, status, left in ((signal.SIGINT, 130, 0), (signal.SIGKILL, -signal.SIGKILL, 1)):
                # nobody reads the pipe, and the run waits for one who does
                run = subprocess.Popen(
                    [sys.executable, "-m", "rummyteak", "examples/open.dat", "--csv", str(folder / "a.csv"), "--json", str(folder / "pipe")],
                    cwd=ROOT, env=dict(os.environ, PYTHONPATH=str(ROOT / "python")), stdout=subprocess.DEVNULL, stderr=subprocess.DEVNULL,
                    preexec_fn=lambda: signal.signal(signal.SIGINT, signal.SIG_DFL),
                )
                for _ in range(6000):
                    if run.poll() is not None or (beside() and (folder / beside()[0]).stat().st_size > 20_000):
                        break
                    time.sleep(0.01)
                run.send_signal(sign)
                self.assertEqual((run.wait(60), (folder / "a.csv").read_text(), len(beside())), (status, "old", left))

    @unittest.skipIf(os.geteuid() == 0, "every folder and every file may be written by this user")
    def test_no_rights(self):
        with tempfile.TemporaryDirectory() as name:
            folder = Path(name)
            (folder / "a.csv").write_text("old")
            for place, mode in ((folder / "a.csv", 0o444), (folder, 0o555)):
                place.chmod(mode)
                done = self.run_command("examples/open.dat", "--csv", str(folder / "a.csv"))
                place.chmod(0o755)
                self.assertEqual((done.returncode, (folder / "a.csv").read_text()), (73, "old"))
                self.assertIn("a.csv: Permission denied", done.stderr)

    def test_picture(self):
        def drawn(*args, given=None):
            text = self.run_command(*args, "--svg", "-", given=given).stdout
            return text, ElementTree.fromstring(text)

        text, root = drawn("examples/open.dat")
        titles = [t.text for t in root.iter("{http://www.w3.org/2000/svg}title")]
        told = json.loads(self.run_command("examples/open.dat", "--json", "-").stdout)
        for k, c in enumerate(told["circles"]):
            self.assertIn(f"circle {k}: " + ", ".join(f"{n} {x!r}" for n, x in zip(told["circle"], c)), titles)
        for words in ("section, 121", "reference line", "their contacts", "greatest thickness", "camber line", "gap", "open-edge point", "0: a result", "10 mm"):
            self.assertIn(words, text)
        self.assertNotIn("stopped", text)
        text, _ = drawn("examples/thick.dat", "--limit", "100")
        for words in ("it stopped here, at circle", "as far as it came", "14: spent"):
            self.assertIn(words, text)
        self.assertIn("stretch, ", drawn("examples/open.dat", "--between", "10", "80")[0])
        self.assertIn("units, one march, cell<", drawn("examples/open.dat", "--march", "--cell")[0])
        self.assertIn("8: ", drawn("examples/thick.dat", "--line", "90", "0", "0", "1")[0])
        self.assertIn("5: ", drawn("-", "--section-tol", "100", given=self.TEXT)[0])

    def test_several(self):
        """One line each, in order; one bad file doesn't stop the others; the status is the first that isn't 0."""
        names = ["examples/thick.dat", "no such file", "examples/open.dat", "examples/compressor.dat"] * 3
        done = self.run_command(*names)
        lines = done.stdout.splitlines()
        self.assertEqual(done.returncode, 66)
        self.assertEqual([line.split(":")[1].strip() for line in done.stderr.splitlines()], [name for name in names if name != "no such file"], "what is passed over is said of each")
        self.assertEqual([line.split(":")[0] for line in lines], names)
        self.assertEqual(lines[:4] * 3, lines)
        self.assertEqual(self.run_command("examples/thick.dat", "examples/open.dat", "--limit", "0").returncode, 14)
        self.assertEqual(self.run_command("examples/thick.dat", "examples/open.dat").returncode, 0)

    def test_count_on_a_terminal(self):
        try:
            ours, theirs = pty.openpty()
        except OSError:
            self.skipTest("this system gives no terminal")
        done = subprocess.run(
            [sys.executable, "-m", "rummyteak", "examples/thick.dat", "examples/open.dat"], cwd=ROOT, env=dict(os.environ, PYTHONPATH=str(ROOT / "python")), stdout=subprocess.PIPE, stderr=theirs
        )
        os.close(theirs)
        seen = os.read(ours, 4096).decode()
        os.close(ours)
        self.assertEqual((done.returncode, len(done.stdout.splitlines())), (0, 2))
        self.assertIn("2 of 2 done", seen)

    def test_no_library(self):
        env = dict(os.environ, PYTHONPATH=str(ROOT / "python"), RUMMYTEAK_LIBRARY="/nowhere/librummyteak.so")
        done = subprocess.run([str(ROOT / "rummyteak"), "examples/open.dat"], cwd=ROOT, env=env, capture_output=True, text=True)
        self.assertEqual((done.returncode, done.stdout), (70, ""))
        self.assertIn("include/build", done.stderr)

    def test_other_libraries(self):
        """A library that can't be loaded, lacks a function or changes the arithmetic is 70, with a sentence, and never 1."""
        with tempfile.TemporaryDirectory() as name:
            folder = Path(name)
            (folder / "text.so").write_text("no library\n")
            built = str(ROOT / "target" / "lib" / "librummyteak.a")
            whole = ["-Wl,--whole-archive", built, "-Wl,--no-whole-archive"]
            flush = "__attribute__((constructor)) static void flush(void) { __builtin_ia32_ldmxcsr(__builtin_ia32_stmxcsr() | 0x8040); }\n"
            wanted = [("text", "can't be loaded", ""), ("nowhere", "can't be loaded", "")]
            for library, words, source, more in (("lacks", "lacks rummyteak_from_points", "int rummyteak_sqrt(void) { return 0; }\n", []), ("flushes", "subnormal", flush, whole)):
                if source is flush and platform.machine() != "x86_64":
                    continue
                (folder / f"{library}.c").write_text(source)
                subprocess.run([os.environ.get("CC", "cc"), "-shared", "-fPIC", "-o", str(folder / f"{library}.so"), str(folder / f"{library}.c"), *more], check=True)
                wanted.append((library, words, source))
            for library, words, _ in wanted:
                for files in (["examples/open.dat"], ["examples/open.dat", "examples/thick.dat"]):
                    with self.subTest(library=library, files=files):
                        env = dict(os.environ, PYTHONPATH=str(ROOT / "python"), RUMMYTEAK_LIBRARY=str(folder / f"{library}.so"))
                        done = subprocess.run([sys.executable, "-m", "rummyteak", *files], cwd=ROOT, env=env, capture_output=True, text=True)
                        self.assertEqual((done.returncode, done.stdout), (70, ""))
                        self.assertIn(words, done.stderr)
                        self.assertNotIn("Traceback", done.stderr)

    def test_faults(self):
        """Where the command itself breaks the status is 70, and where nobody takes its output 73; where standard error is shut it is what it would be."""
        env = dict(os.environ, PYTHONPATH=str(ROOT / "python"), PYTHON=sys.executable)
        for line, status, words in (
            ('"$PYTHON" -c "import sys; from rummyteak.__main__ import guarded; sys.exit(guarded(lambda: 1 // 0))"', 70, "ZeroDivisionError"),
            ('"$PYTHON" -m rummyteak examples/open.dat >/dev/full', 73, "standard output: No space left"),
            ('"$PYTHON" -m rummyteak examples/open.dat --csv - >/dev/full', 73, "standard output: No space left"),
            ('"$PYTHON" -m rummyteak examples/open.dat examples/thick.dat >/dev/full', 73, "standard output: No space left"),
            ('"$PYTHON" -m rummyteak --help >/dev/full', 73, "standard output: No space left"),
            ('"$PYTHON" -m rummyteak examples/open.dat >&-', 73, "standard output"),
            ('"$PYTHON" -m rummyteak examples/open.dat 2>/dev/full', 0, ""),
            ('"$PYTHON" -m rummyteak examples/open.dat 2>&-', 0, ""),
            ('"$PYTHON" -m rummyteak examples/open.dat examples/thick.dat 2>&-', 0, ""),
            ('"$PYTHON" -m rummyteak examples/open.dat --limit 3 2>/dev/full', 14, ""),
            ('"$PYTHON" -m rummyteak nothing 2>&-', 66, ""),
            ('"$PYTHON" -m rummyteak --tol 2>&-', 64, ""),
        ):
            with self.subTest(line=line):
                done = subprocess.run(line, shell=True, cwd=ROOT, env=env, stdout=subprocess.DEVNULL, stderr=subprocess.PIPE, text=True)
                self.assertEqual(done.returncode, status, done.stderr)
                self.assertIn(words, done.stderr)
                if status != 70:
                    self.assertNotIn("Traceback", done.stderr)

    def test_names(self):
        """A file's name that is no text is no fault."""
        with tempfile.TemporaryDirectory() as folder:
            name = os.path.join(os.fsencode(folder), b"a\xff.dat")
            shutil.copy(ROOT / "examples" / "open.dat", name)
            for args in ((), (b"--svg", b"-"), (b"--json", b"-"), (b"--svg", os.path.join(os.fsencode(folder), b"\xfe.svg")), (name,)):
                done = subprocess.run([os.fsencode(sys.executable), b"-m", b"rummyteak", name, *args], cwd=ROOT, env=dict(os.environ, PYTHONPATH=str(ROOT / "python"), PYTHONIOENCODING="utf-8:strict"), capture_output=True)
                self.assertEqual(done.returncode, 0, done.stderr)
                done.stdout.decode("utf-8")

    def test_script_cannot_begin(self):
        """Without Python, and with a module that can't be read, the status is the command's own; a module beside the sections is no part of the command."""
        with tempfile.TemporaryDirectory() as name:
            folder = Path(name)
            (folder / "bin").mkdir()
            (folder / "bin" / "dirname").symlink_to(shutil.which("dirname"))
            shutil.copy(ROOT / "rummyteak", folder)
            shutil.copytree(ROOT / "python", folder / "python")
            env = dict(os.environ, RUMMYTEAK_LIBRARY=str(ROOT / "target" / "lib" / "librummyteak.so"))
            run = lambda **more: subprocess.run([str(folder / "rummyteak"), str(ROOT / "examples" / "open.dat")], cwd=folder, env=dict(env, **more), capture_output=True, text=True)  # noqa: E731
            # Python 3.13 imports linecache by itself
            for module in ("csv.py", "linecache.py"):
                (folder / module).write_text("raise SystemExit(1)\n")
            self.assertEqual(run().returncode, 0)
            done = run(PATH=str(folder / "bin"))
            self.assertEqual((done.returncode, done.stdout), (70, ""))
            self.assertIn("python3", done.stderr)
            # what ends Python with 1 before it runs anything
            done = run(PYTHONHOME=str(folder))
            self.assertEqual((done.returncode, done.stdout), (70, ""))
            self.assertIn("rummyteak: there is no python3, or it cannot begin", done.stderr)
            stream = os.open(folder, os.O_RDONLY)
            done = subprocess.run([str(folder / "rummyteak"), "-"], cwd=folder, env=env, stdin=stream, capture_output=True, text=True)
            os.close(stream)
            self.assertEqual((done.returncode, done.stdout), (70, ""))
            self.assertIn("is a directory", done.stderr)
            # an interrupt while Python's site module is imported would be 1
            (folder / "site").mkdir()
            (folder / "site" / "sitecustomize.py").write_text("raise KeyboardInterrupt\n")
            self.assertEqual(run(PYTHONPATH=str(folder / "site")).returncode, 0)
            (folder / "python" / "rummyteak" / "blade.py").write_text("import nothing_of_this_name\n")
            done = run()
            self.assertEqual((done.returncode, done.stdout), (70, ""))
            self.assertIn("nothing_of_this_name", done.stderr)

    def test_script(self):
        done = subprocess.run([str(ROOT / "rummyteak"), "examples/open.dat"], cwd=ROOT, capture_output=True, text=True)
        self.assertEqual((done.returncode, done.stdout), (0, (ROOT / "examples" / "open.txt").read_text(encoding="utf-8")))


class Build(unittest.TestCase):
    """include/build over a stand-in for rt: it says how far it is, builds once, and tells what isn't proved."""

    RT = """#!/bin/sh
name=$(basename "$PWD")
echo "$name: $*" >>"$CALLS"
[ "$name" != "$FAILS" ] || exit 1
mkdir -p out && cp "$ARCHIVE" "out/lib$name.a"
"""

    def build(self, folder, **more):
        env = dict(os.environ, PATH=f"{folder}:{os.environ['PATH']}", CALLS=f"{folder}/calls", ARCHIVE=str(ROOT / "target" / "lib" / "librummyteak.a"), FAILS="")
        env.update(more)
        return subprocess.run([str(folder / "include" / "build")], env=env, capture_output=True, text=True)

    def test_build(self):
        with tempfile.TemporaryDirectory(dir=ROOT / "target") as name:
            folder = Path(name)
            for part in ("include", "crates/one", "crates/two", "crates/rummyteak_c", "crates/other"):
                (folder / part).mkdir(parents=True)
            shutil.copy(ROOT / "include" / "build", folder / "include")
            (folder / "crates.txt").write_text("one:\ntwo: one\n# a note\nrummyteak_c staticlib: two\nother: one\n")
            (folder / "rt").write_text(self.RT)
            (folder / "rt").chmod(0o755)
            failed = self.build(folder, FAILS="two")
            self.assertEqual(failed.returncode, 1)
            self.assertIn("two NOT PROVED", failed.stderr)
            built = self.build(folder)
            self.assertEqual((built.returncode, built.stdout), (0, ""))
            for words in ("1 of 3 crates proved: one", "2 of 3 crates proved: two", "3 of 3 crates proved: rummyteak_c"):
                self.assertIn(words, built.stderr)
            self.assertTrue((folder / "target" / "lib" / "librummyteak.so").is_file())
            calls = (folder / "calls").read_text()
            self.assertEqual(calls, "one: lib\ntwo: lib\n" + "one: lib\ntwo: lib\nrummyteak_c: lib\n")
            again = self.build(folder)
            self.assertEqual((again.returncode, again.stderr, (folder / "calls").read_text()), (0, "", calls), "what is built isn't built again")
            (folder / "crates" / "new").write_text("")
            self.assertIn("isn't built", self.build(folder).stderr)


class Pause(unittest.TestCase):
    def test_slices(self):
        """examples/pause.py takes a march in slices of 50 units, and ends with the circles of the whole march."""
        env = {k: v for k, v in os.environ.items() if k != "PYTHONPATH"}
        run = lambda *args: subprocess.run([sys.executable, str(ROOT / "examples" / "pause.py"), *args], env=env, capture_output=True, text=True)  # noqa: E731
        done = run()
        self.assertEqual((done.returncode, done.stdout, done.stderr), (0, (ROOT / "examples" / "pause.txt").read_text(encoding="utf-8"), ""))
        whole = json.loads(subprocess.run([sys.executable, "-m", "rummyteak", "examples/thick.dat", "--march", "--cell", "--json", "-"], cwd=ROOT, env=dict(env, PYTHONPATH=str(ROOT / "python")), capture_output=True, text=True).stdout)
        self.assertEqual(done.stdout.count("; the fixture stands at "), whole["units"] // 50)
        self.assertIn(f"in slices: {len(whole['circles'])} circles, {whole['units']} units, a result\n", done.stdout)
        done = run(str(ROOT / "examples" / "compressor.dat"))
        self.assertEqual((done.returncode, done.stdout.splitlines()[-3:]), (0, ["in slices: 256 circles, 512 units, no slot is free", "at once:   256 circles, 512 units, no slot is free", "both are equal"]))
        done = run("no such file")
        self.assertEqual((done.returncode, done.stdout), (66, ""))
        self.assertIn("no such file", done.stderr)


class Many(unittest.TestCase):
    def test_one_section(self):
        """What goes with one section doesn't go with a folder."""
        for option in "--from", "--go-on":
            done = subprocess.run([sys.executable, str(ROOT / "examples" / "many.py"), str(ROOT / "examples"), option, "a"], capture_output=True, text=True)
            self.assertEqual((done.returncode, done.stdout), (64, ""))
            self.assertIn(f"{option} does not go with a folder", done.stderr)

    def test_same_bytes(self):
        """examples/many.py on a local cluster with two workers gives the command's bytes."""
        try:
            import distributed  # noqa: F401
        except ImportError:
            self.skipTest("dask.distributed isn't installed")
        with tempfile.TemporaryDirectory() as folder:
            for section in (ROOT / "examples").glob("*.dat"):
                shutil.copy(section, folder)
            (Path(folder) / "bad.csv").write_text("x;y\n0;0\n8;0\nhere\n")
            names = sorted(map(str, Path(folder).iterdir()))
            env = {k: v for k, v in os.environ.items() if k != "PYTHONPATH"}
            many = subprocess.run([sys.executable, str(ROOT / "examples" / "many.py"), folder, "--workers", "2", "--limit", "500"], env=env, capture_output=True)
            env["PYTHONPATH"] = str(ROOT / "python")
            command = subprocess.run([sys.executable, "-m", "rummyteak", *names, "--limit", "500"], env=env, capture_output=True)
            self.assertEqual((many.stdout, many.returncode), (command.stdout, command.returncode), many.stderr.decode())
            for said in command.stderr.splitlines():
                self.assertIn(said, many.stderr)
            self.assertEqual(command.returncode, 66)


if __name__ == "__main__":
    unittest.main()

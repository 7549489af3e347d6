"""Replays the table of cases, crates/cases/stdin, through the library: each call by its C signature, and once more by the module's own function. Numbers are compared by their bits.

The table's first lines say how it is read. Passed over are the lines and questions that are named in LEFT_OUT."""

from __future__ import annotations

import ctypes
import re
import struct
import sys
import unittest
from array import array
from pathlib import Path

ROOT = Path(__file__).resolve().parents[1]
sys.path.insert(0, str(ROOT / "python"))

import rummyteak as rt  # noqa: E402
from rummyteak._library import StateCells, _arguments, call  # noqa: E402

# Checksums over generated inputs, and single steps that the C interface doesn't have.
LEFT_OUT = {"sample", "roots", "rot90", "normalize", "halfway", "intersection_param", "closest_on_edge", "end_camber_ray", "isqrt_u64", "isqrt_u32", "index_of_tmax_of"}

# The table speaks of numbers: what is asked of bytes stands in test_rummyteak.py and in interface.c.
ON_BYTES = {"write_record", "read_record", "shuffle", "unshuffle", "transpose_words"}

# The table's short names.
NAMES = {name[len("orient_") :]: name for name in _arguments if name.startswith("orient_")}

# What is handed to a function in C: S section, K store, R output, t and g tolerances, x p l a number, a point or vector and a line among the arguments, a b circles there, n the count or
# place, y yes or no, u the limit. Then where the answer goes: a digit is so many numbers of the output, C a circle; N and B and U are told, in this order. E is the two
# edges of a crossing, and F whether they were found. X is the state of a march, read or written. Q is the list that is offered, and m how many of its circles are. Of a split T is two
# counts, V two yes or no, G two more counts, all told as the table tells a split.
IN_C = {
    "sqrt": "x 1", "from_points": "S t y R N B", "reversed": "S t R N B", "is_closed": "S t B", "length": "S t 1",
    "at_front": "S t 5 N", "at_back": "S t 5 N", "at_vertex": "S t n 5 N", "at_length": "S t x 5 N", "at_closest_to_point": "S t p 5 N",
    "between_lengths": "S t p R N B N", "split_open_at_length": "S t x R K T V G", "split_closed_at_lengths": "S t p R K T V G",
    "length_along": "S t n x 1", "crossing_line": "S t l 4 E", "joined_crossing": "S t l 4 E",
    "inscribed_from_crossing": "S t g l C", "try_inscribed": "S t g l C E", "inscribed_refined": "S t g a b C B",
    "refine_and_push": "S t g K n a u N U", "march": "S t g l K u N U E F X", "extract_circles": "S t g l K u N U",
    "refine_all": "S t g K n Q m u N U", "refine_all_cell": "S t g K n Q m u N U",
    "refine_and_push_cell": "S t g K n a u N U", "march_cell": "S t g l K u N U E F X",
    "go_on": "S t g K n X u N U", "go_on_cell": "S t g K n X u N U",
    "thin": "S t g K n u N U",
    "front_and_back": "K n C C", "index_of_tmax": "K n N", "average_spacing": "K n 1", "end_clip_line": "K n 4",
    "reverse_points": "K n", "reverse_order_only": "K n", "reverse_order": "K n", "circles_from": "K n y N N",
    "camber_curve": "K n t R N B", "make_camber_curve": "l K n t R N B",
    "orient_tmax_fwd": "K n B", "orient_airflow": "p K n B", "orient_fwd": "p K n B", "orient_curvature": "K n B", "orient_upper": "p K n B", "orient_lower": "p K n B",
    "is_open_at_end": "S t g K n y B", "fit_open_edge": "S t g K n y u 2 N U",
}

# The same in Python: k is the circles, q those that are offered, z the state, L a line and P a point as one argument, s the slots, c yes for the cell.
IN_PYTHON = {
    "sqrt": "x", "from_points": "S t y", "reversed": "S t", "is_closed": "S t", "length": "S t",
    "at_front": "S t", "at_back": "S t", "at_vertex": "S t n", "at_length": "S t x", "at_closest_to_point": "S t p",
    "between_lengths": "S t p", "split_open_at_length": "S t x", "split_closed_at_lengths": "S t p",
    "length_along": "S t n x", "crossing_line": "S t L", "joined_crossing": "S t L",
    "inscribed_from_crossing": "S t g L", "try_inscribed": "S t g L", "inscribed_refined": "S t g a b",
    "refine_and_push": "S t g k a u s", "march": "S t g L u s", "extract_circles": "S t g L u s",
    "refine_all": "S t g k q u s", "refine_all_cell": "S t g k q u s c",
    "refine_and_push_cell": "S t g k a u s c", "march_cell": "S t g L u s c",
    "go_on": "S t g k z u s", "go_on_cell": "S t g k z u s c",
    "thin": "S t g k u",
    "front_and_back": "k", "index_of_tmax": "k", "average_spacing": "k", "end_clip_line": "k",
    "reverse_points": "k", "reverse_order_only": "k", "reverse_order": "k", "circles_from": "k y",
    "camber_curve": "k t", "make_camber_curve": "P k t",
    "orient_tmax_fwd": "k", "orient_airflow": "k p", "orient_fwd": "k p", "orient_curvature": "k", "orient_upper": "k p", "orient_lower": "k p",
    "is_open_at_end": "S t g k y", "fit_open_edge": "S t g k y u s",
}

TOLD = 6  # words that are told
SIZE = 10_000  # numbers of a store or an output at most
WAITING_NUMBERS = 64 * rt.WIDTH  # numbers of a state
BAD = (float("nan"), float("inf"), float("-inf"))


def number(word: str) -> float:
    if "x" in word:
        value = struct.unpack(">d", bytes.fromhex(word.lstrip("-x")))[0]
        return -value if word[0] == "-" else value
    return float(word)


def whole(words, k: int) -> int:
    return int(words[k][1:], 16) if k < len(words) and words[k][0] == "x" else int(words[k]) if k < len(words) and words[k].isdigit() else 0


def bits(numbers) -> bytes:
    """One pattern for every NaN."""
    return array("d", (x if x == x else BAD[0] for x in numbers)).tobytes()


def cells(words, numbers, mark: float = 0.0) -> StateCells:
    """The state of three whole numbers, words 1 to 3, and of numbers with the mark behind them."""
    waiting = [*numbers, *[mark] * WAITING_NUMBERS][:WAITING_NUMBERS]
    return StateCells(whole(words, 1), whole(words, 2), whole(words, 3), tuple(waiting))


def written(words) -> StateCells:
    """The state that a line writes."""
    return cells(words, map(number, words[5:]), number(words[4]))


def state_bits(state: StateCells):
    return state.refining, state.fraction, state.count, bits(state.waiting)


class Table:
    """What the lines have set, and what was told."""

    def __init__(self) -> None:
        self.section, self.args, self.told, self.given = array("d"), [0.0] * 32, [0] * TOLD, ()
        self.store, self.out = (ctypes.c_double * SIZE)(), (ctypes.c_double * SIZE)()
        self.list = (ctypes.c_double * SIZE)()
        self.store_len = self.out_len = self.list_len = self.offered = 0
        self.store_mark = self.out_mark = 0.0
        self.state = cells("state 12345 12345 12345".split(), [], 12345.0)
        self.kept = self.left()

    def left(self):
        """Output, store and state."""
        return bytes(self.out), bytes(self.store), bytes(self.state)

    def take(self, left) -> None:
        """Output, store and state as they were left."""
        self.out, self.store = ((ctypes.c_double * SIZE).from_buffer_copy(numbers) for numbers in left[:2])
        self.state = StateCells.from_buffer_copy(left[2])

    # ---- asking

    def circle(self, k: int) -> rt.Inscribed:
        at = 2 + rt.WIDTH * k
        return rt.Inscribed(*self.args[at : at + rt.WIDTH])

    def march_state(self) -> rt.MarchState:
        """The state as the module has it."""
        circles = [rt.Inscribed(*self.state.waiting[rt.WIDTH * i : rt.WIDTH * (i + 1)]) for i in range(WAITING_NUMBERS // rt.WIDTH)]
        return rt.MarchState(bool(self.state.refining), self.state.fraction, tuple((2 * circles)[: self.state.count]))

    def handed(self, sign: str, place: int, yes: int, limit: int):
        """The arguments that a sign stands for."""
        a = self.args
        if sign == "S":
            return [self.section]
        if sign == "k":
            return [[rt.Inscribed(*self.store[rt.WIDTH * i : rt.WIDTH * (i + 1)]) for i in range(place)]]
        if sign == "z":
            return [self.march_state()]
        if sign == "q":
            return [[rt.Inscribed(*self.list[rt.WIDTH * i : rt.WIDTH * (i + 1)]) for i in range(self.offered)]]
        plain = {"t": a[:1], "g": a[1:2], "x": a[2:3], "p": a[2:4], "l": a[2:6], "L": [a[2:6]], "P": [a[2:4], a[4:6]], "n": [place], "m": [self.offered], "y": [yes], "u": [limit]}
        plain.update({"a": [self.circle(0)], "b": [self.circle(1)], "s": [self.store_len // rt.WIDTH], "c": [True]})
        return plain[sign]

    def ask(self, name: str, place: int, yes: int, limit: int) -> None:
        """Asks in C, and the module where it can be asked the same: its functions state no count, and no output, that doesn't fit, and no number of waiting circles without them."""
        name = NAMES.get(name, name)
        before = self.left()
        signs = IN_C[name].split()
        fits = (rt.WIDTH * place <= self.store_len or "K" not in signs) and (rt.WIDTH * self.offered <= self.list_len or "Q" not in signs)
        fits = fits and ("z" not in IN_PYTHON[name].split() or self.state.count < 100)
        again = [x for sign in IN_PYTHON[name].split() for x in self.handed(sign, place, yes, limit)] if fits else None
        in_c = self.ask_in_c(name, place, yes, limit)
        is_spent = "X" in signs and self.told[0] == 14
        assert is_spent or bytes(self.state) == before[2], f"{name} wrote a state"
        if again is None or (self.told[0] == 4 and ("R" in IN_C[name].split() or not fits)):
            return
        told, numbers, circles, state = in_python(name, again)
        wrong = f"{name} in Python"
        assert told == self.told, f"{wrong}: told {told}, not {self.told}"
        assert bits(numbers) == bits(in_c), f"{wrong}: other numbers"
        assert state == (self.march_state() if is_spent else None), f"{wrong}: another state"
        if circles is not None:
            self_bits = bytes(self.store)
            freed = 8 * rt.WIDTH * place if name == "thin" else 8 * len(circles)
            assert bits(circles) == bits(self.store[: len(circles)]) and self_bits[freed:] == before[1][freed:], f"{wrong}: other circles"
            assert not any(self_bits[8 * len(circles) : freed]), f"{wrong}: a slot that is freed is no zero"

    def ask_in_c(self, name: str, place: int, yes: int, limit: int):
        """Calls the function, puts what it writes into output and store, and returns the numbers that it answered."""
        handed, answers, told, edges, found = [], [], [], (ctypes.c_size_t * 2)(), None
        split = {"T": (ctypes.c_size_t * 2)(), "V": (ctypes.c_bool * 2)(), "G": (ctypes.c_size_t * 2)()}
        for sign in IN_C[name].split():
            if sign in "SKRQ":
                lent = {"S": (rt._numbers(self.section), len(self.section)), "K": (self.store, self.store_len), "R": (self.out, self.out_len), "Q": (self.list, self.list_len)}
                numbers, length = lent[sign]
                handed += [numbers, length]
            elif sign in "ab":
                handed.append((ctypes.c_double * rt.WIDTH)(*self.circle("ab".index(sign))))
            elif sign in "NBU":
                told.append({"N": ctypes.c_size_t, "B": ctypes.c_bool, "U": ctypes.c_uint32}[sign]())
                handed.append(told[-1])
            elif sign == "E":
                handed.append(edges)
            elif sign in split:
                handed.append(split[sign])
            elif sign == "X":
                handed.append(self.state)
            elif sign == "F":
                found = ctypes.c_bool()
                handed.append(found)
            elif sign.isdigit() or sign == "C":
                answers.append((ctypes.c_double * (rt.WIDTH if sign == "C" else int(sign)))())
                at = sum(map(len, answers[:-1]))
                answers[-1][:] = self.out[at : at + len(answers[-1])]
                handed.append(answers[-1])
            else:
                handed += self.handed(sign, place, yes, limit)
        result = call(name, *handed)
        words = [int(w.value) for w in told]
        written = [x for answer in answers for x in answer]
        self.out[: min(len(written), self.out_len)] = written[: self.out_len]
        if name == "circles_from":
            first, count = words
            written, words = self.store[first : first + count], [count]
            self.out[: min(count, self.out_len)] = written[: self.out_len]
        elif name == "inscribed_refined":
            result, words = (result, []) if result or words[0] else (99, [])
        elif name.startswith("split_"):
            counts, closed, given = split.values()
            written, words = [*self.out[: 2 * counts[0]], *self.store[: 2 * counts[1]]], [*counts, *given, closed[0] + 2 * closed[1]]
        elif "R" in IN_C[name].split():
            written = self.out[: 2 * words[0]]
        has_edges = found.value if found is not None else "E" in IN_C[name].split() and result == 0
        if has_edges:
            words = (words + [0, 0])[:2] + [1, *edges]
        self.told = ([result, *words] + [0] * TOLD)[:TOLD]
        return [] if result else written

    # ---- lines

    def line(self, words) -> bool:
        """What a line does, and whether it came out right."""
        return getattr(self, "do_" + words[0])(words) is not False

    def do_section(self, words):
        self.section = array("d", map(number, words[1:]))

    def do_row(self, words):
        self.section = array("d", (float(i // 2) if i % 2 == 0 and i // 2 < whole(words, 1) // 2 else 0.0 for i in range(whole(words, 1))))

    def do_args(self, words):
        self.args[: len(words) - 1] = map(number, words[1:])

    def filled(self, words):
        mark, numbers = number(words[2]), [number(w) for w in words[3:]]
        return mark, (ctypes.c_double * SIZE)(*numbers, *[mark] * (SIZE - len(numbers)))

    def do_store(self, words):
        self.store_len, (self.store_mark, self.store) = whole(words, 1), self.filled(words)

    def do_room(self, words):
        self.out_len, (self.out_mark, self.out) = whole(words, 1), self.filled(words)

    def do_rank(self, words):
        flat = []
        for k in range(whole(words, 1)):
            x = 1 + k / 256
            flat += rt.Inscribed(x, 1.00048828125, 0.99951171875, x, 0.0, x, 2.0, x, 18.0 - x)
        self.store[: len(flat)] = flat

    def do_copies(self, words):
        flat = whole(words, 1) * self.args[2 : 2 + rt.WIDTH]
        self.store[: len(flat)] = flat

    def do_ask(self, words):
        self.ask(words[1], whole(words, 2), whole(words, 3), whole(words, 4) if len(words) > 4 else rt.NO_LIMIT)

    def do_told(self, words):
        return self.told == [whole(words, k) for k in range(1, TOLD + 1)]

    def do_gives(self, words):
        return bits(self.out) == bits([number(w) for w in words[1:]] + [self.out_mark] * (SIZE - len(words) + 1))

    def do_leaves(self, words):
        return bits(self.store) == bits([number(w) for w in words[1:]] + [self.store_mark] * (SIZE - len(words) + 1))

    def do_list(self, words):
        self.list, self.list_len, self.offered = (ctypes.c_double * SIZE).from_buffer_copy(self.store), self.store_len, whole(words, 1)

    def do_state(self, words):
        self.state = written(words)

    def do_waiting(self, words):
        self.state = cells(words, self.store[:WAITING_NUMBERS])

    def do_holds(self, words):
        return state_bits(self.state) == state_bits(written(words))

    def do_stays(self, _):
        return bytes(self.state) == self.kept[2]

    def do_keep(self, _=None):
        self.kept = self.left()

    def do_same(self, words):
        i, j, n = (8 * whole(words, k) for k in (1, 2, 3))
        return bytes(self.store)[i : i + n] == self.kept[1][j : j + n]

    def do_root(self, words):
        self.args[2] = number(words[1])
        self.ask("sqrt", 0, 0, 0)
        return self.told[0] == 0 and bits([rt.sqrt(self.args[2])]) == bits([number(words[2])])

    def do_bad(self, words):
        self.do_keep()
        for at in range(whole(words, 1), whole(words, 2)):
            begins = ((0, self.args), (100, self.section), (16500, self.store), (30000, self.list), (40000, self.state.waiting))
            held, place = next((numbers, at - first) for first, numbers in reversed(begins) if first <= at)
            for value in BAD:
                old, held[place] = held[place], value
                self.ask(words[4], whole(words, 5), whole(words, 6), 9)
                held[place] = old
                if self.told != [whole(words, 3), whole(words, 7)] + [0] * (TOLD - 2) or self.kept != self.left():
                    return False

    def run(self, name, place, yes, limit):
        """Runs from output, store and state as they were kept, and returns all that came of it."""
        self.take(self.kept)
        self.ask(name, place, yes, limit)
        return (list(self.told), *self.left())

    def do_limits(self, words, spent="first circles"):
        self.do_keep()
        name, place, yes = words[2], whole(words, 3), whole(words, 4)
        plain = self.run(name, place, yes, rt.NO_LIMIT)
        for limit in range(whole(words, 1), plain[0][2] + 3):
            told, out, store, state = self.run(name, place, yes, limit)
            if limit >= plain[0][2]:
                if (told, out, store, state) != plain or state != self.kept[2]:
                    return False
                continue
            used = 8 * rt.WIDTH * told[1]
            left = {
                "first circles": lambda: store == plain[2][:used] + self.kept[1][used:],
                "anything": lambda: True,
                "as before": lambda: told[1] == place and (out, store) == self.kept[:2],
            }
            if told[0] != 14 or told[2] != limit or told[3:] != plain[0][3:] or not left[spent]():
                return False

    def do_fits(self, words):
        return self.do_limits(words, "anything")

    def do_thins(self, words):
        return self.do_limits(words, "as before")

    def do_slots(self, words):
        self.do_keep()
        slots, smaller, larger = whole(words, 1), (words[2], whole(words, 3)), (words[4], whole(words, 5))
        plain = self.run(*larger, 0, rt.NO_LIMIT)
        for limit in range(plain[0][2] + 3):
            more, ran = self.run(*larger, 0, limit), self.run(*smaller, 0, limit)
            (_, count, units, *edges), out, store, _ = more
            if count > slots:
                used = 8 * rt.WIDTH * slots
                more = [15, slots, min(units, ran[0][2]), *edges], out, store[:used] + self.kept[1][used:], self.kept[2]
            if ran != more:
                return False

    def do_agree(self, words):
        self.do_keep()

        def but_edges(name, limit):
            told, out, store, _ = self.run(name, 0, 0, limit)
            return told[:3], out, store

        return all(but_edges(words[2], limit) == but_edges(words[3], limit) for limit in range(whole(words, 1)))

    def gone_on(self, name, ran, limit):
        """Goes on from what a run left. Units add up, and the edges are those of the run before."""
        (_, count, units, *edges), *left = ran
        self.take(left)
        self.ask(name, count, 0, limit)
        return ([*self.told[:2], units + self.told[2], *edges], *self.left())

    def do_pauses(self, words):
        if self.do_limits(words) is False:
            return False
        end = self.run(words[2], whole(words, 3), 0, rt.NO_LIMIT)[0][2] + 3
        singles = [self.run(words[2], whole(words, 3), 0, limit) for limit in range(end)]
        plain = singles[-1]

        def is_single(ran, first, single):
            return ran[:3] == single[:3] and ran[3] == (single if ran[0][0] == 14 else first)[3]

        for limit in range(whole(words, 1), end):
            first = singles[limit]
            for more in range(end - limit if first[0][0] == 14 else 0):
                ran = self.gone_on(words[4], first, more)
                if not is_single(ran, first, singles[limit + more]):
                    return False
                if ran[0][0] == 14 and not is_single(self.gone_on(words[4], ran, end), ran, plain):
                    return False


def in_python(name: str, handed):
    """What the module's function answers: what is told, the numbers, the circles where it leaves some, and the state where it hands one out."""
    try:
        answer = getattr(rt, re.sub("_cell$", "", name))(*handed)
    except rt.Refused as refused:
        return [refused.number] + [0] * (TOLD - 1), [], None, None
    if isinstance(answer, rt.Piece):
        return [0, len(answer.numbers) // 2, int(answer.is_closed), answer.given, 0, 0], answer.numbers, None, None
    if name.startswith("split_"):
        a, b = answer
        return [0, len(a.numbers) // 2, len(b.numbers) // 2, a.given, b.given, a.is_closed + 2 * b.is_closed], [*a.numbers, *b.numbers], None, None
    edges = getattr(answer, "edges", None)
    told, numbers, circles = answered(name, answer)
    return told + ([1, *edges] if edges else [0, 0, 0]), numbers, circles, getattr(answer, "state", None)


def answered(name: str, answer):
    """The same of an answer, edges aside."""
    if isinstance(answer, rt.Crossing):
        return [0, 0, 0], list(answer.line), None
    if isinstance(answer, rt.CircleOnLine):
        return [0, 0, 0], list(answer.circle), None
    if isinstance(answer, (rt.Run, rt.Fit)):
        return [answer.number, len(answer.circles), answer.units], list(getattr(answer, "point", None) or ()), [x for c in answer.circles for x in c]
    if isinstance(answer, rt.Curve2):
        return [0, len(answer.numbers) // 2, int(answer.is_closed)], answer.numbers, None
    if isinstance(answer, rt.CurveStation2):
        return [0, answer.index, 0], [answer.x, answer.y, answer.dx, answer.dy, answer.fraction], None
    if answer is None:
        return [99, 0, 0], [], None
    if isinstance(answer, (rt.Inscribed, rt.Line2)):
        return [0, 0, 0], list(answer), None
    if isinstance(answer, (bool, int)):
        return [0, int(answer), 0], [], None
    if isinstance(answer, float):
        return [0, 0, 0], [answer], None
    if len(answer) == 2 and isinstance(answer[1], bool):
        return [0, int(answer[1]), 0], [], [x for c in answer[0] for x in c]
    flat = [x for c in answer for x in c]
    if name.startswith("reverse_"):
        return [0, 0, 0], [], flat
    return [0, len(flat) if name == "circles_from" else 0, 0], flat, None


class Cases(unittest.TestCase):
    def test_names(self):
        self.assertEqual(set(IN_C), set(_arguments) - ON_BYTES)
        self.assertEqual(set(IN_PYTHON), set(_arguments) - ON_BYTES)

    def test_table(self):
        table, case, asked, passed, lines = Table(), "", set(), False, 0
        for at, text in enumerate((ROOT / "crates" / "cases" / "stdin").read_text(encoding="ascii").splitlines(), 1):
            words = text.split(" ")
            if not text or text.startswith("#"):
                continue
            if words[0] == "case":
                case, passed = text, False
                continue
            questions = {"ask": words[1:2], "bad": words[4:5], "limits": words[2:3], "fits": words[2:3], "thins": words[2:3], "agree": words[2:4], "slots": words[2:5:2], "pauses": words[2:5:2]}.get(words[0], [])
            if questions or words[0] in LEFT_OUT:
                passed = bool(LEFT_OUT.intersection([words[0], *questions]))
            if passed and words[0] not in ("section", "row", "args", "store", "room", "rank", "copies", "list", "state", "waiting"):
                continue
            asked.update(NAMES.get(q, q) for q in questions)
            lines += 1
            with self.subTest(case=case, line=at):
                self.assertTrue(table.line(words), text)
        self.assertEqual(asked, set(_arguments) - ON_BYTES, "the table asks every function")
        self.assertGreater(lines, 1000)


if __name__ == "__main__":
    unittest.main()

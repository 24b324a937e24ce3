"""Questions to `best` only by the calls of C, and by the independent model of tests/model/ways.cpp, which knows only the definition."""
from __future__ import annotations

import ctypes
import os
import subprocess
from itertools import product
from typing import Dict, List, NamedTuple, Sequence, Tuple

from cube import inverse_of
from notation import clean, read, to_faces, words_of
from questions import Question

STEPS = ("eofb", "eorl", "eoud", "drud-eofb", "drrl-eofb", "drud-eorl", "drfb-eorl", "drrl-eoud", "drfb-eoud")
TURNS = [face + suffix for face in "UDRLFB" for suffix in ("", "2", "'")]
DONE, FAULT, CUT = 0, 1, 5
AXES = (1, 2, 4)
NO_STEP, MOST_TURNS = 255, 20
# rows that a room of one call has place for
MOST_ROWS = 100_000
# more moves in all than a row has
MOST_TOTAL = 1000


class Side(ctypes.Structure):
    """`nissy_side_turns` of nissy.h."""

    _fields_ = [("count", ctypes.c_uint8), ("free", ctypes.c_uint8), ("turns", ctypes.c_uint8 * 20)]

    def moves(self) -> str:
        """Its moves."""
        return " ".join(TURNS[turn] for turn in self.turns[: self.count])

    def ends(self) -> List[str]:
        """Its last turns in any direction that they may have, their own first."""
        last = [TURNS[turn] for turn in self.turns[self.count - self.free : self.count]]
        others = {"": "'", "'": "", "2": "2"}
        return [" ".join(end) for end in product(*(dict.fromkeys([turn, turn[0] + others[turn[1:]]]) for turn in last))]


class Part(ctypes.Structure):
    """`nissy_way_part` of nissy.h."""

    _fields_ = [("step", ctypes.c_uint8), ("normal", Side), ("inverse", Side)]

    def said(self, is_first: bool) -> str:
        """It as hosts.py writes a step of a row: the first one with its twins."""
        normal, inverse = self.normal.moves(), self.inverse.moves()
        twins = [bracketed(*end) for end in product(self.normal.ends(), self.inverse.ends())][1:] if is_first else []
        return f"{STEPS[self.step]};{bracketed(normal, inverse)};{normal};{inverse};{self.normal.count + self.inverse.count};{','.join(twins)}"


class Way(ctypes.Structure):
    """`nissy_way` of nissy.h."""

    _fields_ = [
        ("total", ctypes.c_uint16),
        ("corners", ctypes.c_uint8),
        ("edges", ctypes.c_uint8),
        ("on_normal", ctypes.c_uint8),
        ("on_inverse", ctypes.c_uint8),
        ("eo", Part),
        ("dr", Part),
    ]

    def said(self) -> str:
        """It as hosts.py writes a row."""
        parts = [part for part in (self.eo, self.dr) if part.step != NO_STEP]
        line = ""
        for moves, on in (
            (side.moves(), on) for part in parts for on, side in (("", part.normal), ("(", part.inverse))
        ):
            if moves:
                line = (
                    f"{line[:-1]} {moves})"
                    if on and line.endswith(")")
                    else f"{line} ({moves})"
                    if on
                    else f"{line} {moves}"
                )
        lengths = ["none" if length > MOST_TURNS else str(length) for length in (self.on_normal, self.on_inverse)]
        eo = "none" if self.eo.step == NO_STEP else self.eo.said(True)
        return ";".join(
            [str(self.total), line.strip(), eo, self.dr.said(eo == "none"), *lengths, f"{self.corners}c{self.edges}e"]
        )


class Wanted(ctypes.Structure):
    """`nissy_ways_wanted` of nissy.h."""

    _fields_ = [
        ("slack", ctypes.c_uint8),
        ("axes", ctypes.c_uint8),
        ("least", ctypes.c_uint8),
        ("most", ctypes.c_uint8),
        ("most_nodes", ctypes.c_uint64),
        ("there", ctypes.c_uint64),
    ]


class Answer(ctypes.Structure):
    """`nissy_ways_answer` of nissy.h."""

    _fields_ = [
        ("status", ctypes.c_uint8),
        ("fault", ctypes.c_uint8),
        ("line", ctypes.c_uint8),
        ("next", ctypes.c_uint8),
        ("column", ctypes.c_uint32),
        ("rows", ctypes.c_uint64),
        ("tried", ctypes.c_uint64),
        ("nodes", ctypes.c_uint64),
    ]


class Tables(ctypes.Structure):
    """`nissy_tables` of nissy.h."""

    _fields_ = [("tables", ctypes.c_void_p), ("built", ctypes.c_uint8)]


def bracketed(normal: str, inverse: str) -> str:
    """Moves of both sides, those on the inverse in brackets."""
    return " ".join(filter(None, (normal, inverse and f"({inverse})")))


class C:
    """The library, by its calls."""

    def __init__(self) -> None:
        library = ctypes.CDLL(os.environ["NISSY_LIBRARY"])
        self.tables = (Tables * len(STEPS))()
        for at, step in enumerate(STEPS):
            place = ctypes.c_void_p(ctypes.addressof(self.tables) + at * ctypes.sizeof(Tables))
            assert library.nissy_build(place, step.encode(), ctypes.c_size_t(len(step))) == DONE
        self.best = library.nissy_best
        self.best.restype = Answer

    def call(self, question: Question, wanted: Wanted, room: ctypes.Array[Way]) -> Answer:
        """What one call tells."""
        lines = [given for text in question[:2] for given in (text.encode(), ctypes.c_size_t(len(text.encode())))]
        told: Answer = self.best(self.tables, *lines, ctypes.byref(wanted), room, ctypes.c_size_t(len(room)))
        return told

    def whole(self, question: Question) -> str:
        """What hosts answer to a question without a bound or a fault, by one call."""
        room = (Way * min(question.most, MOST_ROWS))()
        told = self.call(question, Wanted(question.slack, sum(AXES), 0, MOST_TURNS, 2**64 - 1, 0), room)
        return "".join(way.said() + "\n" for way in room[: told.rows])

    def in_pieces(self, question: Question, fault_text: str, cut_text: str) -> str:
        """The same of any question, in pieces of one length on one axis each, as all hosts ask. Of a fault or a cut it is
        a text in which `fault_text` has its line and column."""
        room, axes = (Way * min(question.most, MOST_ROWS))(), list(AXES)
        wanted = Wanted(question.slack, 0, 0, 0, question.nodes, 0)
        for length in range(MOST_TURNS + 1):
            for axis in tuple(axes):
                wanted.axes, wanted.least, wanted.most = axis, length, length
                told = self.call(question, wanted, room)
                if told.status == FAULT:
                    return fault_text % (told.line, told.column)
                wanted.there, wanted.most_nodes = told.rows, wanted.most_nodes - told.nodes
                if told.status == CUT:
                    return (
                        "".join(way.said() + "\n" for way in room[: told.rows]) + "cut\n"
                        if question.partial
                        else cut_text
                    )
                if not told.next:
                    axes.remove(axis)
        return "".join(way.said() + "\n" for way in room[: wanted.there])


class Asked(NamedTuple):
    """A question to the model: so many of its first rows at most, of those with at most so many moves in all."""

    question: Question
    rows: int
    total: int = MOST_TOTAL

    def line(self) -> Tuple[str, Dict[str, str]]:
        """It as the model reads it, by the names of the centres, and what each of these faces is called as the cube is held."""
        (outer, inner), (outside, inside) = read(self.question.scramble.encode()), read(self.question.so_far.encode())
        scramble = outer + inverse_of(inner)
        turned = to_faces(scramble + outside)[1]
        before = clean(to_faces(turned + inverse_of(inside))[0])
        normal = clean(to_faces(to_faces(scramble)[1] + outside)[0])
        line = before + to_faces(scramble)[0] + normal
        names = {to_faces([*turned, (face, 1)])[0][0][0]: face for face in "UDRLFB"}
        sides = map(words_of, (line, normal, inverse_of(before)))
        return ";".join([str(self.question.slack), *sides, str(self.rows), str(self.total)]), names


def by_model(program: str, asked: Sequence[Asked]) -> List[List[str]]:
    """The rows of each question by the model, as `as_model` writes them."""
    lines = [each.line() for each in asked]
    text = "".join(line + "\n" for line, _ in lines)
    out = subprocess.run([program], input=text, stdout=subprocess.PIPE, check=True, encoding="utf-8").stdout
    # an empty line ends the rows of a question
    rows = iter(out.splitlines())
    return [[renamed(row, names) for row in iter(rows.__next__, "")] for _, names in lines]


def renamed(row: str, names: Dict[str, str]) -> str:
    """A row of the model with the faces as the cube is held."""
    head, bar, moves = row.partition(" | ")
    return head + bar + moves.translate(str.maketrans("".join(names), "".join(names.values())))


def as_model(row: str) -> str:
    """A row of a host as the model writes it."""
    total, _, *fields = row.split(";")
    eo, dr = (fields[:6], fields[6:12]) if fields[0] != "none" else (["", "", "", "", "", ""], fields[1:7])
    first = eo if eo[0] else dr
    corners, edges = fields[-1][:-1].split("c")
    return f"{total} {first[4]} {corners} {edges} {dr[0][-2:]} {dr[0][2:4]} | {eo[2]} | {eo[3]} | {dr[2]} | {dr[3]}"

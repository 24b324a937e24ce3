"""Searches for the best ways on from a scramble and the moves so far, by calls of the library, and their rows as
values."""
from __future__ import annotations

import ctypes
from functools import lru_cache
from itertools import product
from typing import Any, List, NamedTuple, Tuple

from . import _library, _rooms
from ._continuations import Continuation, Continuations, Lengths, Orientation, Reduction
from ._facts import Case
from ._given import Progress, Step, Stop
from ._library import CUT, DONE, FAULT, WAY, KeptTables, WaysWanted
from ._lines import fault_of, fault_text, steps
from ._places import place_of
from ._values import Fault, named

MOST_TURNS = 20
_AXES, _NO_STEP = (1, 2, 4), 255
_TURNS = tuple(face + power for face in "UDRLFB" for power in ("", "2", "'"))
_STEPS = steps()[:9]
# what faults call the two lines
_NAMES = ("scramble", "moves so far")
Lines = Tuple[bytes, bytes]
"""A scramble and the moves so far."""


class Wanted(NamedTuple):
    """What is asked of a search, in numbers that were checked."""

    slack: int
    most: int
    nodes: int


@lru_cache(maxsize=None)
def _tables() -> ctypes.Array[KeptTables]:
    return (KeptTables * len(_STEPS))(*(place_of(step).built() for step in _STEPS))


def _line(turns: Tuple[int, ...]) -> str:
    return " ".join(_TURNS[turn] for turn in turns)


def _written(normal: str, inverse: str) -> str:
    """Returns the moves of both sides as a solver writes them."""
    return f"{normal} ({inverse})".strip() if inverse else normal


def moves_of(*sides: Any) -> str:
    """Returns the moves of a part, by the fields of its sides."""
    return _written(*(_line(turns[:count]) for count, _, turns in (sides[:3], sides[3:])))


def _ends(turns: bytes, free: int) -> List[str]:
    """Returns the last turns of a side, of which each quarter turn may go either way: first as they are."""
    ways = [(turn,) if turn % 3 == 1 else (turn, turn + 2 - 2 * (turn % 3)) for turn in turns[len(turns) - free :]]
    return [_line(end) for end in product(*ways)]


def _part(is_first: bool, step: int, *sides: Any) -> Tuple[Step, str, str, str, int, Tuple[str, ...]]:
    """Returns what an orientation and a reduction have in common, by the fields of a step: the first one with its
    twins."""
    (normal, normal_free), (inverse, inverse_free) = (
        (turns[:count], free) for count, free, turns in (sides[:3], sides[3:])
    )
    moves = _line(normal), _line(inverse)
    ends = product(_ends(normal, normal_free), _ends(inverse, inverse_free)) if is_first else ()
    twins = tuple(_written(*end) for end in ends)[1:]
    return (_STEPS[step], _written(*moves), *moves, len(normal) + len(inverse), twins)


def _continuation(way: Tuple[Any, ...]) -> Continuation:
    """Returns what the fields of a way say."""
    total, corners, edges, *lengths = way[:5]
    eo = None if way[5] == _NO_STEP else Orientation(*_part(True, *way[5:12]))
    dr = Reduction(*_part(eo is None, *way[12:]), Lengths(*(None if each > MOST_TURNS else each for each in lengths)))
    line = f"{eo.moves if eo else ''} {dr.moves}".strip().replace(") (", " ")
    return Continuation(total, line, eo, dr, Case(f"{corners}c{edges}e"))


def fault_on(answer: Any, lines: Lines) -> Fault:
    """Returns what is wrong with one of the lines, or with both together, which has no column."""
    line = answer.line
    if answer.status == FAULT and not answer.column:
        return named(Fault(fault_text(answer.fault), line), _NAMES[line - 1])
    return named(fault_of(answer.status, answer.fault, answer.column, lines[line - 1], line), _NAMES[line - 1])


class _Search:
    """A search whose rows come into a room."""

    def __init__(self, lines: Lines, wanted: Wanted) -> None:
        self._lines, self._most, self._room = lines, wanted.most, _rooms.take()
        self._asked = WaysWanted(wanted.slack, 0, 0, 0, wanted.nodes, 0)
        self.tried = self.nodes = 0
        self.cut = False

    def _places(self) -> int:
        """Returns how many rows have place."""
        return min(self._most, self._room.size // WAY.size)

    def _rows(self) -> bytes:
        return self._room.memory[: self._asked.there * WAY.size]

    def _answer(self) -> Any:
        """Returns what the library says of what is asked. Raises Fault."""
        scramble, so_far = self._lines
        answer = _library.nissy_best(
            ctypes.addressof(_tables()),
            scramble,
            len(scramble),
            so_far,
            len(so_far),
            ctypes.addressof(self._asked),
            self._room.address,
            self._places(),
        )
        if answer.status not in (DONE, CUT):
            raise fault_on(answer, self._lines)
        return answer

    def begin(self) -> None:
        """Reads both lines, and looks for nothing. Raises Fault."""
        self._answer()

    def look(self, axis: int, length: int) -> bool:
        """Looks for ways whose first steps have this axis and this length. Returns whether longer ones are let in."""
        asked = self._asked
        asked.axes, asked.least, asked.most = axis, length, length
        before = self._rows() if self._places() < self._most else b""
        answer = self._answer()
        # there may be more than have place
        while answer.rows == self._places() < self._most:
            self._room = _rooms.larger(self._room)
            self._room.memory[: len(before)] = before
            answer = self._answer()
        asked.there, asked.most_nodes = answer.rows, asked.most_nodes - answer.nodes
        self.tried, self.nodes, self.cut = self.tried + answer.tried, self.nodes + answer.nodes, answer.status == CUT
        return bool(answer.next)

    def found(self) -> Continuations:
        """Returns the rows as values, and gives the room back."""
        rows = Continuations(map(_continuation, WAY.iter_unpack(self._rows())))
        rows.nodes, rows.cut = self.nodes, self.cut
        if self._room.size == _rooms.ORDINARY:
            _rooms.put_back(self._room)
        return rows


def found(lines: Lines, wanted: Wanted, progress: Progress, stop: Stop) -> Continuations:
    """Returns what a search finds, which goes in pieces: of each length of the first step, on each axis, as far as
    there are longer ones. Raises Fault."""
    search, axes, length = _Search(lines, wanted), list(_AXES), 0
    search.begin()
    while axes and not search.cut:
        for axis in tuple(axes):
            progress(search.tried, None)
            if stop():
                search.cut = True
            elif not search.look(axis, length):
                axes.remove(axis)
            if search.cut:
                break
        length += 1
    if not search.cut:
        progress(search.tried, search.tried)
    return search.found()

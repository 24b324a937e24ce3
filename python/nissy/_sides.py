"""Solutions of a step on the inverse of a line, or over both sides of it, by calls of the library."""
from __future__ import annotations

import ctypes
import sys
from typing import Any, Dict, Tuple

from . import _library, _rooms
from ._library import CUT, DONE, PART, SidesWanted
from ._lines import cleanup, unniss
from ._values import Solution, Solutions
from ._ways import moves_of

if sys.version_info >= (3, 8):
    from typing import Literal

    Sides = Literal["normal", "inverse", "both"]
else:
    Sides = str

_NUMBERS: Dict[str, int] = {"normal": 1, "inverse": 2, "both": 3}


def sides_of(sides: Sides) -> int:
    if sides not in _NUMBERS:
        raise ValueError(f"the sides are one of {', '.join(_NUMBERS)}")
    return _NUMBERS[sides]


def _turns(line: bytes) -> bytes:
    """Returns the face turns of a line, named by the centres."""
    return " ".join(move for move in cleanup(unniss(line)).split() if move[0] not in "xyz").encode()


def solve_sides(tables: int, sides: int, numbers: Tuple[int, int, int, int], line: bytes) -> Tuple[Solutions, Any]:
    """Returns the solutions of a line on some sides, length by length, and what the library told at last, which may be
    that the step may not start. Raises LineFault."""
    (limit, slack, most, nodes), turns, found = numbers, _turns(line), Solutions()
    room, wanted = _rooms.take(), SidesWanted(sides, 0, 0, 0, nodes)
    while True:
        places = min(most - len(found), room.size // PART.size)
        answer = _library.nissy_solve_sides(
            tables, turns, len(turns), b"", 0, ctypes.addressof(wanted), room.address, places
        )
        if answer.status not in (DONE, CUT):
            break
        if not found and answer.rows:
            limit = min(limit, wanted.length + slack)
        found += (Solution(moves_of(*part[1:])) for part in PART.iter_unpack(room.memory[: answer.rows * PART.size]))
        found.nodes, found.cut = found.nodes + answer.nodes, answer.status == CUT
        found.more, wanted.most_nodes = bool(answer.more) or found.cut, wanted.most_nodes - answer.nodes
        if found.cut or found.more and len(found) == most:
            break
        # after those that filled the room, or on with those of the next length
        wanted.passed = wanted.passed + answer.rows if answer.more else 0
        wanted.length += not answer.more
        if wanted.length > limit:
            break
    _rooms.put_back(room)
    return found, answer

"""The names of axes and places, and where the stickers of a cube are: among the 54 letters of `facelets`, and in a net.
"""
from __future__ import annotations

import sys
from typing import Dict, Iterable, List, Optional, Tuple

from ._given import each_of

if sys.version_info >= (3, 8):
    from typing import Literal

    Axis = Literal["fb", "rl", "ud"]
else:
    Axis = str

AXES: Tuple[Axis, ...] = ("fb", "rl", "ud")
"""The axes, each named by its two faces."""

EDGE_PLACES: Tuple[str, ...] = ("UR", "UF", "UL", "UB", "DR", "DF", "DL", "DB", "FR", "FL", "BL", "BR")
"""The places of edges, in the order of the bits of the library's masks."""

CORNER_PLACES: Tuple[str, ...] = ("URF", "UFL", "ULB", "UBR", "DFR", "DLF", "DBL", "DRB")
"""The places of corners, in the same order."""

# the numbers of their letters, in the order of the names
_OF_EDGES = (
    (5, 10),
    (7, 19),
    (3, 37),
    (1, 46),
    (32, 16),
    (28, 25),
    (30, 43),
    (34, 52),
    (23, 12),
    (21, 41),
    (50, 39),
    (48, 14),
)
_OF_CORNERS = (
    (8, 9, 20),
    (6, 18, 38),
    (0, 36, 47),
    (2, 45, 11),
    (29, 26, 15),
    (27, 44, 24),
    (33, 53, 42),
    (35, 17, 51),
)
_STICKERS: Dict[str, Tuple[int, ...]] = dict(zip(EDGE_PLACES + CORNER_PLACES, _OF_EDGES + _OF_CORNERS))

# the same by each name that begins with another face and goes on around the piece as its own name does
_AROUND: Dict[str, Tuple[int, ...]] = {
    name[begin:] + name[:begin]: stickers[begin:] + stickers[:begin]
    for name, stickers in _STICKERS.items()
    for begin in range(len(name))
}

# the faces in the order of `facelets`, and the numbers of their centres there
_FACES = "URFDLB"
_CENTRES = range(4, 54, 9)

# the row and the column at which each face of the net begins, in the order of the letters: U, R, F, D, L, B
_FACES_OF_NET = ((0, 3), (3, 6), (3, 3), (6, 3), (3, 0), (3, 9))

NET: Tuple[Tuple[int, int], ...] = tuple(
    (row + at // 3, column + at % 3) for row, column in _FACES_OF_NET for at in range(9)
)
"""The row and the column, from 0, of each letter of `facelets` in the usual net of 9 rows and 12 columns: U above F,
L F R B in a row, and D below F."""


def stickers_of(places: Iterable[str], letters: Optional[str] = None) -> List[int]:
    """The stickers of some places, such as ("UF", "DBL"): the numbers of their letters in what `facelets` returns, from
    0, those of a place in the order of its name. Places are named by the centres, as `facts` names them: give the
    `letters` that `facelets` returns of a cube that slices or rotations may have turned; without them it is an unturned
    one. Raises ValueError for a name that is none, and for letters that aren't 54 of a cube."""
    centres = _FACES if letters is None else _centres_of(letters)
    return [sticker for place in each_of(places, "the places") for sticker in _stickers_at(place, centres)]


def _stickers_at(place: str, centres: str) -> Tuple[int, ...]:
    if place not in _STICKERS:
        raise ValueError(f"no place is called {place}")
    return _AROUND[_unturned(place, centres)]


def _unturned(place: str, centres: str) -> str:
    """What a place of a turned cube is called by the faces of an unturned one."""
    return "".join(_FACES[centres.index(face)] if face in centres else "?" for face in place)


def _centres_of(letters: str) -> str:
    """Returns the centres, which are on the faces as those of a cube."""
    centres = "".join(letters[at : at + 1] for at in _CENTRES)
    # corners that are corners again, and none as in a mirror, leave no other way than to turn the whole cube
    is_turned = all(_unturned(name, centres) in _AROUND for name in CORNER_PLACES)
    if len(letters) != 54 or not set(letters) <= set(_FACES) or not is_turned:
        raise ValueError("these are not the 54 letters of a cube")
    return centres

"""What the independent model sees of a line without a search: bad pieces with their places, moves, steps, and whether lines solve."""
from collections.abc import Iterable
from typing import NamedTuple

from cube import (
    DIRECTION_OF_FACE,
    NUMBER_OF_PLACE,
    ROTATION_BY_CENTRES,
    Effect,
    Move,
    brought_home,
    effect_of,
    inverse_effect,
    inverse_of,
    then,
)
from notation import clean, meaning, read, to_faces
from solving import AXIS, STEPS, Domino, Places, flip_set, slice_set, twist_set

EDGES = "UR UF UL UB DR DF DL DB FR FL BL BR".split()
CORNERS = "URF UFL ULB UBR DFR DLF DBL DRB".split()
ROTATIONS = [effect_of(rotation) for rotation in ROTATION_BY_CENTRES.values()]


def stickers(piece: str) -> list[int]:
    """The places of the stickers of a piece that is named by its faces."""
    directions = [DIRECTION_OF_FACE[face] for face in piece]
    x, y, z = (sum(parts) for parts in zip(*directions))
    return [NUMBER_OF_PLACE[(x, y, z), direction] for direction in directions]


STICKERS = {piece: stickers(piece) for piece in EDGES + CORNERS}


def misfits(pieces: Iterable[str], kept: Places, effect: Effect) -> tuple[str, ...]:
    """The places to which a cube has brought a sticker out of a set, or one into it that was outside."""
    origin = inverse_effect(effect)
    return tuple(
        piece for piece in pieces if any((origin[place] in kept) != (place in kept) for place in STICKERS[piece])
    )


class OfAxis(NamedTuple):
    """The bad pieces on an axis."""

    bad_edges: tuple[str, ...]
    bad_corners: tuple[str, ...]
    misplaced_edges: tuple[str, ...]


class Seen(NamedTuple):
    """All that is seen of a line."""

    solved: bool
    moves: int
    clean_moves: int
    holds: frozenset[str]
    axes: dict[str, OfAxis]


def of_axis(axis: str, effect: Effect) -> OfAxis:
    """The bad pieces of a cube on an axis."""
    number = AXIS[axis]
    return OfAxis(
        misfits(EDGES, flip_set(number), effect),
        misfits(CORNERS, twist_set(number), effect),
        misfits(EDGES, slice_set(number), effect),
    )


def is_reached(name: str, axes: dict[str, OfAxis]) -> bool:
    """Whether one of a step's goals is there."""
    start, _, goals = STEPS[name]
    return any(
        not (axes[axis].bad_corners or axes[axis].misplaced_edges or axes[str(start)].bad_edges)
        if kind is Domino
        else not axes[axis].bad_edges
        for kind, axis in goals
    )


def weight(move: Move) -> int:
    """What a move counts."""
    return 0 if move[0] in "xyz" else 2 if move[0] in "MES" else 1


def seen(line: bytes) -> Seen:
    """What is seen of a line that is spelled."""
    normal, bracketed = read(line)
    whole, effect = normal + inverse_of(bracketed), meaning(normal, bracketed)
    axes = {axis: of_axis(axis, brought_home(effect)) for axis in AXIS}
    return Seen(
        effect in ROTATIONS,
        sum(map(weight, whole)),
        len(clean(to_faces(whole)[0])),
        frozenset(name for name in STEPS if is_reached(name, axes)),
        axes,
    )


def forms(line: bytes) -> tuple[str, ...]:
    """The forms of a line that the WCA's notation for solutions hasn't."""
    text = line.decode()
    has = {
        "slices": set(text) & set("MES"),
        "lower_case": set(text) & set("udrlfb"),
        "brackets": "(" in text,
        "apostrophe": "\u2019" in text,
        "half_prime": "2'" in text or "2\u2019" in text,
    }
    return tuple(form for form, there in has.items() if there)


def is_solution(scramble: bytes, solution: bytes) -> bool:
    """Whether the cube is solved, however it is held, by the one line after the other."""
    return then(meaning(*read(scramble)), meaning(*read(solution))) in ROTATIONS

"""Whether a row of `best` goes on as it says, by the model of tests/model: both its steps are reached, also by each twin of the first, from a cube
of its case, with as many moves in all."""
from __future__ import annotations

import os
import sys
from typing import Iterator, List, Tuple, Union

HERE = os.path.dirname(os.path.abspath(__file__))
sys.path[:0] = [os.path.join(HERE, "..", folder) for folder in ("model", "", os.path.join("..", "python"))]

import nissy  # noqa: E402
from bad_pieces import EDGES, is_reached, is_solution, misfits, of_axis  # noqa: E402
from cube import UNMOVED, Move, brought_home, effect_of, inverse_of  # noqa: E402
from notation import clean, read, to_faces  # noqa: E402
from questions import Question  # noqa: E402
from solving import AXIS, flip_set  # noqa: E402

Moves = List[Move]


def is_oriented(moves: Moves, axis: str) -> bool:
    """Whether the edges are oriented on an axis."""
    return not misfits(EDGES, flip_set(AXIS[axis]), brought_home(effect_of(moves)))


def holds(moves: Moves, step: str) -> bool:
    """Whether a cube has reached a step."""
    return is_oriented(moves, step[-2:]) and (
        len(step) == 4 or is_reached(step, {axis: of_axis(axis, effect_of(moves)) for axis in AXIS})
    )


def pieces(moves: Moves, step: str) -> Tuple[int, int]:
    """The bad corners and the misplaced edges before a reduction."""
    seen = of_axis(step[2:4], effect_of(moves))
    return len(seen.bad_corners), len(seen.misplaced_edges)


def as_held(scramble: Moves, outside: Moves, inside: Moves) -> Moves:
    """The cube on which steps are judged: with the inverse of what stands in brackets before the scramble, and not after all, and by the
    same faces, which are those of a cube as the moves outside leave it."""
    turned = to_faces(scramble + outside)[1]
    before = to_faces(turned + inverse_of(inside))[0]
    return to_faces(before + scramble + outside)[0]


def twins(part: Union[nissy.Orientation, nissy.Reduction]) -> Iterator[str]:
    """The moves of the twins."""
    for end in part.twins:
        normal, _, inverse = end.partition("(")
        sides = zip((part.normal, part.inverse), (normal, inverse.rstrip(")")))
        kept = [moves.split()[: len(moves.split()) - len(last.split())] + last.split() for moves, last in sides]
        yield f"{' '.join(kept[0])} ({' '.join(kept[1])})"


def goes_on(question: Question, row: nissy.Continuation) -> bool:
    """Whether what a solver writes on reaches the steps, from a cube of this case, with as many moves as is said; and whether the cube
    is solved then exactly if the whole line solves the scramble."""
    start = read(question.scramble.encode())
    scramble, first = start[0] + inverse_of(start[1]), row.eo or row.dr

    def after(moves: str) -> Moves:
        return as_held(scramble, *read(f"{question.so_far} {moves}".encode()))

    line = f"{question.so_far} {row.line}"
    count = sum(len(clean(to_faces(moves)[0])) for moves in read(line.encode()))
    is_long = all(part.length == len(part.moves.split()) for part in (row.eo, row.dr) if part)
    is_so = (effect_of(after(row.line)) == UNMOVED) == is_solution(question.scramble.encode(), line.encode())
    are_reached = all(holds(after(moves), first.step) for moves in (first.moves, *twins(first))) and holds(
        after(row.line), row.dr.step
    )
    case = "{}c{}e".format(*pieces(after(row.eo.moves if row.eo else ""), row.dr.step))
    return is_so and is_long and are_reached and count == row.total and row.case == case

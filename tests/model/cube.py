"""The cube by its stickers in space, for the independent model.

A place is a cell of the 3 by 3 by 3 cube and the direction in which its sticker looks, with x to the right, y up and z
towards the viewer. A move is a pair (letters, quarters), such as ("Rw", 3) for Rw'. The effect of moves is a list that says
for each of the 54 places where its sticker goes.
"""
from collections.abc import Callable, Iterable, Sequence

Vector = tuple[int, int, int]
Move = tuple[str, int]
Effect = list[int]

CELLS = [(x, y, z) for x in (-1, 0, 1) for y in (-1, 0, 1) for z in (-1, 0, 1)]
DIRECTIONS = [(1, 0, 0), (-1, 0, 0), (0, 1, 0), (0, -1, 0), (0, 0, 1), (0, 0, -1)]
PLACES = [
    (cell, direction) for cell in CELLS for direction in DIRECTIONS if sum(a * b for a, b in zip(cell, direction)) == 1
]
NUMBER_OF_PLACE = {place: number for number, place in enumerate(PLACES)}
UNMOVED = list(range(54))

# A clockwise quarter turn about each axis, as one looks from its positive end.
QUARTER_TURN: list[Callable[[Vector], Vector]] = [
    lambda v: (v[0], v[2], -v[1]),
    lambda v: (-v[2], v[1], v[0]),
    lambda v: (v[1], -v[0], v[2]),
]
DIRECTION_OF_FACE = {"U": (0, 1, 0), "D": (0, -1, 0), "R": (1, 0, 0), "L": (-1, 0, 0), "F": (0, 0, 1), "B": (0, 0, -1)}
FACE_OF_DIRECTION = {direction: face for face, direction in DIRECTION_OF_FACE.items()}

# letters: the axis, the layers that turn, and how many clockwise quarters about the axis one quarter of the move is
LAYERS: dict[str, tuple[int, tuple[int, ...], int]] = {
    "R": (0, (1,), 1),
    "L": (0, (-1,), 3),
    "U": (1, (1,), 1),
    "D": (1, (-1,), 3),
    "F": (2, (1,), 1),
    "B": (2, (-1,), 3),
    "Rw": (0, (0, 1), 1),
    "Lw": (0, (-1, 0), 3),
    "Uw": (1, (0, 1), 1),
    "Dw": (1, (-1, 0), 3),
    "Fw": (2, (0, 1), 1),
    "Bw": (2, (-1, 0), 3),
    "M": (0, (0,), 3),
    "E": (1, (0,), 3),
    "S": (2, (0,), 1),
    "x": (0, (-1, 0, 1), 1),
    "y": (1, (-1, 0, 1), 1),
    "z": (2, (-1, 0, 1), 1),
}


def effect_by_geometry(letters: str, quarters: int) -> Effect:
    """Where one move brings each place."""
    axis, layers, clockwise = LAYERS[letters]
    effect = []
    for cell, direction in PLACES:
        if cell[axis] in layers:
            for _ in range(clockwise * quarters % 4):
                cell, direction = QUARTER_TURN[axis](cell), QUARTER_TURN[axis](direction)
        effect.append(NUMBER_OF_PLACE[(cell, direction)])
    return effect


EFFECTS = {(letters, quarters): effect_by_geometry(letters, quarters) for letters in LAYERS for quarters in (1, 2, 3)}


def then(first: Effect, second: Effect) -> Effect:
    """The effect of the first and then the second."""
    return [second[place] for place in first]


def inverse_effect(effect: Effect) -> Effect:
    """The effect that brings each sticker back."""
    inverse = [0] * 54
    for place, target in enumerate(effect):
        inverse[target] = place
    return inverse


def effect_of(moves: Iterable[Move]) -> Effect:
    """The effect of moves, one after another."""
    effect = UNMOVED
    for move in moves:
        effect = then(effect, EFFECTS[move])
    return effect


def inverse_of(moves: Sequence[Move]) -> list[Move]:
    """The moves backwards, each turned back."""
    return [(letters, 4 - quarters) for letters, quarters in reversed(moves)]


# The 24 rotations in their one spelling: first nothing, x or z, then nothing or y.
TILTS: list[list[Move]] = [[], [("x", 1)], [("x", 2)], [("x", 3)], [("z", 1)], [("z", 3)]]
SPINS: list[list[Move]] = [[], [("y", 1)], [("y", 2)], [("y", 3)]]
CENTRES = [NUMBER_OF_PLACE[(direction, direction)] for direction in DIRECTIONS]


def centres_of(effect: Effect) -> tuple[int, ...]:
    """Where the six centres are, which says how the cube is held."""
    return tuple(effect[centre] for centre in CENTRES)


ROTATION_BY_CENTRES = {centres_of(effect_of(tilt + spin)): tilt + spin for tilt in TILTS for spin in SPINS}
HOMEWARD = {centres: inverse_effect(effect_of(rotation)) for centres, rotation in ROTATION_BY_CENTRES.items()}


def rotation_of(effect: Effect) -> list[Move]:
    """The rotation that the effect leaves the centres in, in its one spelling."""
    return ROTATION_BY_CENTRES[centres_of(effect)]


def brought_home(effect: Effect) -> Effect:
    """The effect with the centres brought home by a rotation of the whole cube."""
    return then(effect, HOMEWARD[centres_of(effect)])


# The cells of each face at its first, third and seventh facelet, as one looks at it (U with B above, D with F above).
FACE_CORNERS = {
    "U": ((-1, 1, -1), (1, 1, -1), (-1, 1, 1)),
    "R": ((1, 1, 1), (1, 1, -1), (1, -1, 1)),
    "F": ((-1, 1, 1), (1, 1, 1), (-1, -1, 1)),
    "D": ((-1, -1, 1), (1, -1, 1), (-1, -1, -1)),
    "L": ((-1, 1, -1), (-1, 1, 1), (-1, -1, -1)),
    "B": ((1, 1, -1), (-1, 1, -1), (1, -1, -1)),
}


def facelet_places() -> list[int]:
    """The places in the order in which they are printed: U, R, F, D, L, B, each row by row."""
    places = []
    for face in "URFDLB":
        first, third, seventh = FACE_CORNERS[face]
        for row, column in [(row, column) for row in range(3) for column in range(3)]:
            x, y, z = (a + (b - a) * column // 2 + (c - a) * row // 2 for a, b, c in zip(first, third, seventh))
            places.append(NUMBER_OF_PLACE[((x, y, z), DIRECTION_OF_FACE[face])])
    return places


FACELETS = facelet_places()
COLOURS = [FACE_OF_DIRECTION[direction] for _, direction in PLACES]


def facelet_text(effect: Effect) -> str:
    """The 54 letters of the cube that the effect makes of a solved one."""
    origin = inverse_effect(effect)
    return "".join(COLOURS[origin[place]] for place in FACELETS)

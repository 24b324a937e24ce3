#!/usr/bin/env python3
"""Where the stickers of a cube are, by each host beside the geometry of the independent model: the letters of each place, also of a cube
that is turned, and the net, which must fold to a cube.

    tests/hosts/net.py HOST..

A host is one of hosts.py, with the library of NISSY_LIBRARY. The last line is `N passed, M failed`, and the status is 1 if M isn't 0.
"""
from __future__ import annotations

import sys
from itertools import combinations

from hosts import Host, hosts_of, told  # isort: skip

from bad_pieces import CORNERS, EDGES, STICKERS
from cube import (
    DIRECTION_OF_FACE,
    FACELETS,
    NUMBER_OF_PLACE,
    PLACES,
    ROTATION_BY_CENTRES,
    Move,
    effect_of,
    facelet_text,
)
from tally import Tally

Square = tuple[int, int]
# the middle of each face in the net that is meant
MIDDLES: dict[str, Square] = {"U": (1, 4), "L": (4, 1), "F": (4, 4), "R": (4, 7), "B": (4, 10), "D": (7, 4)}
# pairs of neighbours: twelve in each face, and three where two faces meet
NEIGHBOURS = 6 * 12 + 5 * 3


def distance(one: tuple[int, ...], other: tuple[int, ...]) -> int:
    """How many steps are between two squares, or two cells."""
    return sum(abs(a - b) for a, b in zip(one, other))


def stickers(tally: Tally, host: Host) -> None:
    """The letters of each place, and of all together."""
    of_each = {name: [str(FACELETS.index(at)) for at in places] for name, places in STICKERS.items()}
    for name, wanted in of_each.items():
        tally.equal(f"the stickers of {name} in {host.name}", told(host, "stickers", name.encode()), " ".join(wanted))
    together = " ".join(sticker for wanted in of_each.values() for sticker in wanted)
    tally.equal(f"those of all in {host.name}", told(host, "stickers", ",".join(of_each).encode()), together)
    tally.equal(f"those of none in {host.name}", told(host, "stickers", b""), "")


# slices with and without face turns, and wide turns, after each of which the whole cube is turned in each of the 24 ways
TURNED: list[list[Move]] = [
    [],
    [("M", 1)],
    [("E", 3), ("S", 2)],
    [("R", 1), ("U", 1), ("F", 1)],
    [("R", 1), ("M", 1), ("D", 3), ("E", 1), ("B", 2)],
    [("Rw", 1), ("F", 1)],
]


def turned_stickers(moves: list[Move]) -> tuple[str, dict[str, str]]:
    """The letters of a cube after moves, and the numbers of the stickers of each place between the faces that its centres name."""
    effect = effect_of(moves)
    looks = {face: PLACES[effect[NUMBER_OF_PLACE[centre, centre]]][1] for face, centre in DIRECTION_OF_FACE.items()}

    def numbers(name: str) -> str:
        x, y, z = (sum(parts) for parts in zip(*(looks[face] for face in name)))
        return " ".join(str(FACELETS.index(NUMBER_OF_PLACE[(x, y, z), looks[face]])) for face in name)

    return facelet_text(effect), {name: numbers(name) for name in EDGES + CORNERS}


def stickers_of_turned(tally: Tally, host: Host) -> None:
    """The letters of the places of cubes that are held in any way, and have turned slices."""
    for moves in (first + rotation for first in TURNED for rotation in ROTATION_BY_CENTRES.values()):
        letters, of_each = turned_stickers(moves)
        seen = told(host, "stickers", ",".join(of_each).encode(), letters.encode())
        tally.equal(f"the stickers after {moves} in {host.name}", seen, " ".join(of_each.values()))


def folds(tally: Tally, host: Host, net: list[Square]) -> None:
    """Neighbours of the net are neighbours of one face, or stickers of one piece, and each face is where it belongs."""
    tally.equal(f"the squares in {host.name}", (len(net), len(set(net))), (54, 54))
    tally.holds(
        "they are in 9 rows and 12 columns", all(row in range(9) and column in range(12) for row, column in net)
    )
    for face, middle in MIDDLES.items():
        centre = NUMBER_OF_PLACE[DIRECTION_OF_FACE[face], DIRECTION_OF_FACE[face]]
        tally.equal(f"the middle of {face}", net[FACELETS.index(centre)], middle)
    pairs = [
        (PLACES[FACELETS[one]], PLACES[FACELETS[other]])
        for one, other in combinations(range(54), 2)
        if distance(net[one], net[other]) == 1
    ]
    tally.equal("the neighbours", len(pairs), NEIGHBOURS)
    for (cell, direction), (other, others) in pairs:
        tally.equal(f"neighbours at {cell} and {other}", distance(cell, other), 1 if direction == others else 0)


def main() -> None:
    """All of it, by each host."""
    tally = Tally()
    for host in hosts_of(sys.argv[1:]):
        axes, edges, corners, *net = told(host, "net").split("\n")
        tally.equal(
            f"the names in {host.name}", (axes, edges, corners), ("fb,rl,ud", ",".join(EDGES), ",".join(CORNERS))
        )
        squares = [tuple(map(int, square.split(","))) for square in net]
        folds(tally, host, [(row, column) for row, column in squares])
        stickers(tally, host)
        stickers_of_turned(tally, host)
        tally.equal(f"{host.name} ends, and has said no more", host.end(), 0)
    tally.end()


if __name__ == "__main__":
    main()

#!/usr/bin/env python3
"""The line after a scramble and the moves so far, by each host: on rows that were made by hand, and on drawn pairs beside the model of tests/model.

    tests/hosts/after.py SEED COUNT HOST..

A host is one of hosts.py, with the library of NISSY_LIBRARY. The last line is `N passed, M failed`, and the status is 1 if M isn't 0.
"""
from __future__ import annotations

import sys
from typing import Iterator, List, Tuple

from hosts import Host, fault_of, hosts_of, told  # isort: skip

from goes_on import as_held
from cube import effect_of, inverse_of
from notation import MOST_MOVES, TOO_LONG, ReadFault, read
from questions import FAULTS, TURNING, Drawing
from tally import Tally

# scramble, moves so far, and the line
ROWS = [
    ("", "", ""),
    ("R U", "", "R U"),
    ("", "R U", "R U"),
    ("R", "U F", "R U F"),
    # what stands in brackets is undone before the scramble, one bracket after another; both together are clean, in the order of cleanup
    ("R U F", "(L2 B)", "B' R L2 U F"),
    ("R U F", "D (L2) U (B)", "B' R L2 U F U D"),
    ("", "(R)", "R'"),
    ("R", "(R)", ""),
    # so is the scramble with what stands outside
    ("R U F", "F", "R U F2"),
    ("R U F", "F' U' (R)", ""),
    # that of a scramble is undone after it, as a line has it
    ("U (R)", "F", "U R' F"),
    ("(R) U", "F (D)", "U D' R' F"),
    # after x the face F is called U, and stays it for what is made on the inverse
    ("R x", "U", "R F"),
    ("x R", "U", "R F"),
    ("R", "x U", "R F"),
    ("R x", "(U)", "F' R"),
    ("R", "x (U)", "F' R"),
    ("R", "(U) x", "F' R"),
    # after y the face R is called F, and after z2 each of L and R has the other's name
    ("U y", "F2 (F)", "R' U R2"),
    ("F z2", "L (R)", "L' F R"),
    # a wide turn is one of the other face and a rotation: Rw is L x, and M of both is R L' x'
    ("Rw", "U", "L F"),
    ("R", "Rw (U)", "F' R L"),
    ("M", "U", "R L' B"),
    # within brackets x U is undone by U' x', and U x F by F' x' U', which is F' B' x'
    ("R", "(x U) F", "U' R F"),
    ("R", "(U x F) F", "F' B' R F"),
]


def faulty(draw: Drawing) -> Tuple[str, str]:
    """A pair of which one has a fault, or both."""
    pair = [" ".join(draw.turns(2)), draw.both_sides()]
    for at in draw.choice(((0,), (1,), (0, 1))):
        pair[at] = draw.choice(FAULTS)
    return pair[0], pair[1]


def drawn(seed: int, count: int) -> Iterator[Tuple[str, str]]:
    """Yields pairs, most of them with moves that leave the centres elsewhere on one side or on both."""
    draw = Drawing(seed)
    kinds = [
        lambda: (draw.scramble(), draw.both_sides()),
        lambda: (f"{draw.scramble()} {draw.choice(TURNING)}", draw.turning()),
        lambda: (
            f"{draw.choice(TURNING)} {' '.join(draw.turns(3))} ({draw.choice(TURNING)} {' '.join(draw.turns(2))})",
            draw.turning(),
        ),
        lambda: (
            draw.turning(),
            f"{draw.choice(TURNING)} ({draw.choice(TURNING)} {' '.join(draw.turns(2))}) {draw.both_sides()}",
        ),
        lambda: (draw.turning(), " ".join(draw.turns(draw.randrange(3)))),
        lambda: faulty(draw),
        # with fewer than so many moves each, and more together
        lambda: (" ".join(draw.turns(draw.choice((130, 240, 256)))), " ".join(draw.turns(draw.choice((0, 20, 130))))),
    ]
    for at in range(count):
        yield kinds[at % len(kinds)]()


def compare(tally: Tally, host: Host, pair: Tuple[str, str]) -> str:
    """Compares a pair with the model: the cube, that the line has face turns alone, and a fault. Returns what came of it."""
    got, given = told(host, "line_after", *(it.encode() for it in pair)), []
    for number, text in enumerate(pair, 1):
        try:
            given.append(read(text.encode()))
        except ReadFault as fault:
            tally.equal(f"{pair} in {host.name}", got, fault_of(number, fault.column, fault.kind))
            return f"a fault in line {number}"
    (scramble, undone), (outside, inside) = given
    cube = as_held(scramble + inverse_of(undone), outside, inside)
    if got.startswith("fault"):
        tally.holds(f"{pair} in {host.name}: {got}", len(cube) > MOST_MOVES and got == fault_of(2, 0, TOO_LONG))
        return "too long together"
    tally.holds(f"{pair} in {host.name}: {got}", set(got) <= set("UDRLFB2' "))
    tally.equal(f"{pair} in {host.name}: the cube", effect_of(read(got.encode())[0]), effect_of(cube))
    return "a line"


def main() -> None:
    """All pairs, by each host."""
    tally, (seed, count) = Tally(), map(int, sys.argv[1:3])
    hosts: List[Host] = hosts_of(sys.argv[3:])
    for host in hosts:
        for scramble, so_far, line in ROWS:
            tally.equal(
                f"{scramble!r}, {so_far!r} in {host.name}",
                told(host, "line_after", scramble.encode(), so_far.encode()),
                line,
            )
        came = {compare(tally, host, pair) for pair in drawn(seed, count)}
        tally.equal(
            f"what came in {host.name}",
            sorted(came),
            ["a fault in line 1", "a fault in line 2", "a line", "too long together"],
        )
        tally.equal(f"{host.name} ends, and has said no more", host.end(), 0)
    tally.end()


if __name__ == "__main__":
    main()

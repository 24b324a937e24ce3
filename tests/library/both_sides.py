#!/usr/bin/env python3
"""`best` and `best_all` of the Python package, with bounds, progress, stops and many rows; and solutions over both sides, beside an enumeration.

    tests/library/both_sides.py

The library is that of NISSY_LIBRARY. Which rows `best` has is tried by tests/hosts. The last line is `N passed, M failed`, and the status is 1 if M
isn't 0.
"""
import itertools
import sys
import threading
from pathlib import Path
from typing import Any, Callable, Iterator, List, Sequence, Tuple

TOP = Path(__file__).resolve().parents[2]
sys.path[:0] = [str(TOP / "python"), str(TOP / "tests")]

import nissy
from tally import Tally, raised, tried

# the package as one calls it who looks at no types
untyped: Any = nissy
MOST = 2**64 - 1


def best(tally: Tally) -> None:
    """Its bound, and its progress, which goes from none to all; what that raises ends the call. The rows are tried by tests/hosts."""
    rows = nissy.best("U R F")
    for nodes in (0, 1, 20, 500):
        cut = raised(nissy.Cut, lambda: nissy.best("U R F L D", nodes=nodes))
        tally.holds(f"it is cut by {nodes}", cut and cut.count.cut and cut.count.nodes <= nodes and cut.solutions == [])
    tally.equal(
        "and not by many",
        [(it, it.nodes) for it in (nissy.best("U R F", nodes=nodes) for nodes in (10**7, MOST))],
        [(rows, rows.nodes)] * 2,
    )
    tally.equal(
        "a reduction is reached without a search",
        (nissy.best("U R F", "F' R", nodes=0), nissy.best("", nodes=0)),
        ([], []),
    )
    tally.equal(
        "as many as are wanted",
        [nissy.best("U R F", most=most) for most in (0, 1, len(rows), None)],
        [[], rows[:1], rows, rows],
    )
    pairs: List[Any] = []
    tally.equal(
        "the same rows", nissy.best("U R F L D", progress=lambda *told: pairs.append(told)), nissy.best("U R F L D")
    )
    tally.equal(
        "it begins with none, and never goes back",
        (pairs[0], [it for it, _ in pairs]),
        ((0, None), sorted(it for it, _ in pairs)),
    )
    tally.holds("it ends with all", 0 < pairs[-1][0] == pairs[-1][1] and all(total is None for _, total in pairs[:-1]))

    def stop(done: int, _: object) -> None:
        if done > 0:
            raise InterruptedError

    for line in ("U R F L D", "R U"):
        tally.holds(f"what it raises, of {line}", raised(InterruptedError, lambda: nissy.best(line, progress=stop)))
    tally.equal("bytes and wide turns", nissy.best(b"U R F x", bytearray(b"")), nissy.best("U R F x"))
    for name, value, kind in (
        ("most", -1, ValueError),
        ("most", 1.5, TypeError),
        ("slack", None, TypeError),
        ("progress", 1, TypeError),
    ):
        tally.holds(f"{name} {value}", raised(kind, lambda: untyped.best("R", **{name: value})))
    tally.says(TypeError, "the stop is a function or None, not bool", lambda: untyped.best("R", stop=True))


def many_rows(tally: Tally) -> None:
    """More rows than a room holds at first come all."""
    room = untyped._rooms.ORDINARY
    whole = nissy.best("U R F L D", slack=1, most=None)
    untyped._rooms.ORDINARY, untyped._rooms._kept[:] = 7 * untyped._library.WAY.size, []
    some = nissy.best("U R F L D", slack=1, most=None), nissy.best("U R F L D", slack=1, most=50)
    untyped._rooms.ORDINARY, untyped._rooms._kept[:] = room, []
    tally.equal("they are the same", some, (whole, whole[:50]))
    tally.holds("some of them", len(whole) > 50)


def all_best(tally: Tally) -> None:
    """Of many scrambles each has its rows, and what is wrong with one stands in its place; by threads too."""
    scrambles = ["U R F", "R q", "", "U R F L D", "U R F x"] * 5
    wanted = [None if it == "R q" else nissy.best(it, most=3) for it in scrambles]
    for threads in (1, 3):
        told = list(nissy.best_all(scrambles, most=3, threads=threads))
        tally.equal("the rows", [None if isinstance(it, nissy.Fault) else it for it in told], wanted)
        tally.equal(
            "what is wrong",
            [str(it) for it in told if isinstance(it, nissy.Fault)],
            [f"line {at + 2}, column 3: not a move" for at in range(0, 25, 5)],
        )
        cut = list(nissy.best_all(["U R F", "R U F"], nodes=5, threads=threads))
        tally.equal(
            "those that are cut",
            [(type(it), it.line) for it in cut if isinstance(it, nissy.Cut)],
            [(nissy.Cut, 1), (nissy.Cut, 2)],
        )
        some = list(nissy.raising(nissy.best_all(["U R F"], nodes=5, partial=True, threads=threads)))
        tally.holds("what there is of one that is cut", some[0].cut and len(some) == 1)
    pairs: List[Any] = []
    list(nissy.best_all(["U R F", "R"], progress=lambda *said: pairs.append(said)))
    tally.equal("the progress", pairs[-1], (2, 2))


def sequences(count: int, turns: List[str]) -> Iterator[Tuple[str, ...]]:
    """All sequences of that many of some turns, none of a face that was turned just before, and of two opposite faces the first one first."""
    if count == 0:
        yield ()
        return
    for before in sequences(count - 1, turns):
        last = before[-1][0] if before else ""
        yield from (
            (*before, turn)
            for turn in turns
            if turn[0] != last and (turn[0], last) not in (("U", "D"), ("R", "L"), ("F", "B"))
        )


def reaches_earlier(step: nissy.Step, line: str, normal: Sequence[str], inverse: Sequence[str]) -> bool:
    """Whether fewer of the first turns on both sides reach the step already."""
    begun = (
        (normal[:at], inverse[:to])
        for at in range(len(normal) + 1)
        for to in range(len(inverse) + 1)
        if at + to < len(normal) + len(inverse)
    )
    return any(step in nissy.facts(f"{nissy.invert(' '.join(back))} {line} {' '.join(on)}").holds for on, back in begun)


def over_both(step: nissy.Step, line: str, length: int) -> Iterator[str]:
    """The solutions over both sides of so many turns, whose first turns don't reach the step."""
    halves = step[-2:].upper() if "-" in step else ""
    turns = [face + power for face in "UDRLFB" for power in ("", "2", "'") if power == "2" or face not in halves]
    for count in range(length + 1):
        for inverse in sequences(count, turns):
            found = nissy.solve(step, f"{nissy.invert(' '.join(inverse))} {line}", length - count, 20)
            pairs = ((tuple(it.split()), inverse) for it in found if it.length == length - count)
            for normal, _ in (pair for pair in pairs if not reaches_earlier(step, line, *pair)):
                yield " ".join([*normal, *([f"({' '.join(inverse)})"] if inverse else [])])


def sides(tally: Tally) -> None:
    """Solutions over both sides are all that there are, by their lengths; those on the inverse are those of its line."""
    asked: List[Tuple[nissy.Step, str]] = [
        ("eofb", "F U R F"),
        ("eofb", "R U F L"),
        ("eoud", "R U2 L"),
        ("drud-eofb", "R U R"),
        ("eofb", "R U"),
        ("eorl", "x R (U F)"),
    ]
    for step, given in asked:
        line = nissy.line_after(given)
        least = nissy.solve(step, line, sides="both")[0].length
        for slack in (0, 1):
            got = nissy.solve(step, line, 20, slack, sides="both")
            wanted = [it for length in range(least, least + slack + 1) for it in over_both(step, line, length)]
            tally.equal(f"{step} of {line} over both sides", sorted(got), sorted(wanted))
            order = [(it.length, len(it.partition("(")[0].split())) for it in got]
            tally.equal("their order", order, sorted(order))
        on_inverse = [f"({it})" if it else it for it in nissy.solve(step, nissy.invert(line))]
        tally.equal("on the inverse", nissy.solve(step, line, sides="inverse"), on_inverse)
        tally.equal("on the line", nissy.solve(step, line, sides="normal"), nissy.solve(step, line))
        tally.equal(
            "the same of a line that turns the cube",
            nissy.solve(step, given, sides="both"),
            nissy.solve(step, line, sides="both"),
        )
    whole = nissy.solve("eofb", "F U R F", 20, 1, sides="both")
    tally.holds("some are over both", any(it[0] != "(" and it[-1] == ")" for it in whole))
    some = [nissy.solve("eofb", "F U R F", 20, 1, most, sides="both") for most in (0, 1, len(whole) - 1, len(whole))]
    tally.equal("as many as are wanted", some, [whole[:most] for most in (0, 1, len(whole) - 1, len(whole))])
    tally.equal("there are others", [it.more for it in some], [True, True, True, False])
    cut = raised(nissy.Cut, lambda: nissy.solve("eofb", "R U F L", nodes=3, sides="both"))
    tally.holds(
        "it is cut",
        cut and cut.count.nodes <= 3 and nissy.solve("eofb", "R U F L", nodes=3, partial=True, sides="both").cut,
    )
    tally.says(nissy.LineFault, "column 3: not a move", lambda: nissy.solve("eofb", "R q", sides="both"))
    tally.says(nissy.StartFault, "eorl does not hold", lambda: nissy.solve("drfb-eorl", "R", sides="both"))
    tally.says(
        ValueError, "the sides are one of normal, inverse, both", lambda: untyped.solve("eofb", "R", sides="all")
    )


def cut_best(tally: Tally) -> None:
    """What a cut `best` found is told as such. What it is, tests/hosts tries."""
    some, most, whole = (nissy.best("U R F L D", nodes=nodes, partial=True) for nodes in (500, MOST, None))
    tally.equal(
        "what is told of each",
        [(it.cut, type(it)) for it in (some, most, whole)],
        [(it, nissy.Continuations) for it in (True, False, False)],
    )
    tally.holds("without a cut there are all", most == whole == nissy.best("U R F L D") and len(some) < len(whole))

    def own(*_: object) -> None:
        nissy.count("eofb", "R U F", nodes=0)

    tally.equal(
        "a cut of the progress",
        raised(nissy.Cut, lambda: nissy.best("U R F", nodes=100, partial=True, progress=own)).count.nodes,
        0,
    )
    tally.holds("a fault is no cut", raised(nissy.LineFault, lambda: nissy.best("U R Q", nodes=0, partial=True)))


def stopped_best(tally: Tally) -> None:
    """A `best` that is stopped ends as one that is cut. What it found until then, tests/hosts tries."""
    asked, whole = itertools.count(), nissy.best("U R F")
    tally.equal("never", nissy.best("U R F", stop=lambda: next(asked) < 0), whole)
    half = iter(range(next(asked) // 2))
    at_once = raised(nissy.Cut, lambda: nissy.best("U R F", stop=lambda: True))
    tally.equal("at once", (at_once.count, at_once.solutions), (nissy.Count(None, 0, 0, True), []))
    some = nissy.best("U R F", partial=True, stop=lambda: next(half, None) is None)
    tally.holds("after half of the searches", some.cut and 0 < len(some) < len(whole))
    tally.holds(
        "it is asked also if a reduction is reached",
        raised(nissy.Cut, lambda: nissy.best("U R F", "F' R", stop=lambda: True)),
    )
    tally.holds(
        "what it raises",
        raised(ZeroDivisionError, lambda: nissy.best("U R F", partial=True, stop=lambda: bool(1 // 0))),
    )
    own: Callable[[], bool] = lambda: nissy.count("eofb", "F", nodes=7).cut
    tally.holds("a cut of its own", raised(nissy.Cut, lambda: nissy.best("U R F", partial=True, stop=own)))


def stopped_all(tally: Tally) -> None:
    """Once many are stopped, all that aren't found are cut, by threads too; what can't be read is told as before."""
    scrambles, whole = ["U R F", "R q", "U R F L D"], nissy.best("U R F")
    for threads in (1, 3):
        told = list(nissy.best_all(scrambles, threads=threads, stop=lambda: True))
        wanted = [(nissy.Cut, 1), (nissy.LineFault, 2), (nissy.Cut, 3)]
        tally.equal("at once", [(type(it), getattr(it, "line", None)) for it in told], wanted)
        rows = list(nissy.best_all(["R U F"], partial=True, threads=threads, stop=lambda: True))
        tally.equal("nothing is found", [(it, isinstance(it, list) and it.cut) for it in rows], [([], True)])
        tally.equal("never", list(nissy.best_all(["U R F"], threads=threads, stop=lambda: False)), [whole])
        own: Callable[[], bool] = lambda: nissy.count("eofb", "F", nodes=7).cut
        answers = nissy.best_all(["U R F"], threads=threads, stop=own)
        tally.holds("what it raises ends them", raised(nissy.Cut, lambda: next(answers)))
    enough = threading.Event()
    answers = nissy.best_all(scrambles, stop=enough.is_set)
    tally.equal("the first one is found", next(answers), whole)
    enough.set()
    tally.equal("and no other", [type(it) for it in answers], [nissy.LineFault, nissy.Cut])
    tally.says(TypeError, "the stop is a function or None, not int", lambda: untyped.best_all([], stop=1))


if __name__ == "__main__":
    tried(sides, best, many_rows, all_best, cut_best, stopped_best, stopped_all)

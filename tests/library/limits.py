#!/usr/bin/env python3
"""Values of a type that a call of the Python package doesn't take, numbers out of their ranges, and searches with a bound.

    tests/library/limits.py

The library is that of NISSY_LIBRARY.
"""
import array
import sys
from pathlib import Path
from typing import Any, Callable, Iterator, List, Tuple, Union

TOP = Path(__file__).resolve().parents[2]
sys.path[:0] = [str(TOP / "python"), str(TOP / "tests")]

import nissy
from tally import Tally, raised, tried
from values import MOST, ON_A_LINE, ON_MANY, ON_TWO, STEPS, untyped


def wrong_types(tally: Tally) -> None:
    """Values of a type that a call doesn't take, told in words of the caller's."""
    wide: Any = array.array("H", [82, 0x155])
    kinds: List[Any] = [
        (None, "None"),
        (3, "int"),
        (["R"], "list"),
        (3.5, "float"),
        (wide, "items of 2 bytes each"),
        (memoryview(wide), "items of 2 bytes each"),
    ]
    for value, named in kinds:
        for call in ON_A_LINE.values():
            tally.says(TypeError, f"the line is a str or bytes, not {named}", lambda: call(value))
        for many, _ in ON_MANY:
            tally.says(TypeError, f"line 2: the line is a str or bytes, not {named}", lambda: list(many(["R", value])))
        tally.says(TypeError, f"the input is a str or bytes, not {named}", lambda: untyped.run(["invert"], value))
        tally.says(TypeError, f"a word is a str or bytes, not {named}", lambda: untyped.run(["invert", value]))
        tally.holds(
            "nor of two",
            all(raised(TypeError, lambda: pair(*given)) for pair in ON_TWO for given in ((value, "R"), ("R", value))),
        )
    tally.says(TypeError, "the line so far is a str or bytes, not int", lambda: untyped.best("R", 3))
    for value, named in (
        ("R", "str"),
        (b"R", "bytes"),
        (bytearray(b"R"), "bytearray"),
        (memoryview(b"R"), "memoryview"),
        (3, "int"),
        (None, "None"),
    ):
        for many, _ in ON_MANY:
            tally.says(TypeError, f"the lines are a list or another iterable, not {named}", lambda: many(value))
        tally.says(TypeError, f"the words are a list or another iterable, not {named}", lambda: untyped.run(value))
    by_step: List[Callable[[Any], object]] = [
        lambda it: untyped.solve(it, "R"),
        lambda it: untyped.count_all(it, []),
        untyped.start_of,
    ]
    for call in by_step:
        for value, named in ((3, "int"), (b"eofb", "bytes"), (None, "None"), (["eofb"], "list")):
            tally.says(TypeError, f"the step is a str, not {named}", lambda: call(value))
        for step in ("", "EOFB", "eofb\0", "eofb ", "htr", "\ud800", "x" * 10**6):
            tally.says(ValueError, "no step has this name; the steps are " + ", ".join(STEPS), lambda: call(step))


def numbers(tally: Tally) -> None:
    """Numbers out of their ranges, and what is no number."""
    calls: List[Tuple[str, int, Callable[[Any], object]]] = [
        ("the limit", 20, lambda it: untyped.solve("eofb", "", it)),
        ("the limit", 20, lambda it: untyped.count("eofb", "", it)),
        ("the limit", 20, lambda it: untyped.solve_all("eofb", [], it)),
        ("the limit", 20, lambda it: untyped.solutions("eofb", "", limit=it)),
        ("the slack", 20, lambda it: untyped.solutions("eofb", "", slack=it)),
        ("the slack", 20, lambda it: untyped.solve("eofb", "", 0, it)),
        ("the slack", 20, lambda it: untyped.count_all("eofb", [], 3, it)),
        ("the slack", 20, lambda it: untyped.best("", slack=it)),
        ("nodes", MOST, lambda it: untyped.best("", nodes=it)),
        ("most", MOST, lambda it: untyped.solve("eofb", "", most=it)),
        ("nodes", MOST, lambda it: untyped.count("eofb", "", nodes=it, partial=True)),
        ("nodes", MOST, lambda it: untyped.solve_all("eofb", [], nodes=it)),
        ("most", MOST, lambda it: untyped.count_all("eofb", [], most=it)),
        ("the state", MOST, lambda it: untyped.scramble(it, 1, 1)),
        ("the stream", MOST, lambda it: untyped.scrambles(1, it, 1, 1)),
        ("the length", 256, lambda it: untyped.scramble(1, 1, it)),
        ("the length", 256, lambda it: untyped.scrambles(1, 1, it, 1)),
        ("the count", 10_000, lambda it: untyped.scrambles(1, 1, 1, it)),
    ]
    for what, most, call in calls:
        tally.holds(
            f"{what} may be {most:,}, 0 and True",
            not any(raised(ValueError, lambda: call(it)) for it in (most, 0, True)),
        )
        for number in (-1, most + 1, most + 257, 2**64, 2**64 + 1, 2**70, 10**5000, -(10**5000)):
            tally.says(ValueError, f"{what} is a number from 0 to {most:,}", lambda: call(number))
        for it, named in (("3", "str"), (3.0, "float"), (b"3", "bytes"), ([3], "list")):
            tally.says(TypeError, f"{what} is an int, not {named}", lambda: call(it))
    tally.says(TypeError, "the limit is an int, not None", lambda: untyped.solve("eofb", "", None))
    by_threads: List[Callable[[Any], Any]] = [
        lambda it: untyped.count_all("eofb", [], threads=it),
        lambda it: untyped.facts_all([], it),
    ]
    for call in by_threads:
        tally.equal("threads", list(untyped.facts_all([], 1024)), [])
        tally.says(ValueError, "threads is a number from 1 to 1,024", lambda: call(0))
        tally.says(ValueError, "threads is a number from 1 to 1,024", lambda: call(1025))
        tally.says(TypeError, "threads is an int, not float", lambda: call(2.0))


def bounds(tally: Tally) -> None:
    """Searches with a bound on the positions."""
    whole, found = nissy.count("eofb", "R U F", slack=2), nissy.solve("eofb", "R U F", slack=2)
    tally.equal("a whole search", (whole.cut, found.cut, found.more, found.nodes), (False, False, False, whole.nodes))
    tally.equal("a bound that is just enough", nissy.count("eofb", "R U F", slack=2, nodes=whole.nodes), whole)
    for nodes in (0, 1, 7, 19, 20, 100, whole.nodes - 1):
        part = nissy.count("eofb", "R U F", slack=2, nodes=nodes, partial=True)
        some = nissy.solve("eofb", "R U F", slack=2, nodes=nodes, partial=True)
        tally.holds(f"{nodes} nodes aren't passed", part.cut and part.nodes <= nodes and part.length in (None, 1))
        tally.equal(
            "what was found until then",
            (some, some.cut, some.more, some.nodes),
            (found[: part.solutions], True, True, part.nodes),
        )
        cut = raised(nissy.Cut, lambda: nissy.count("eofb", "R U F", slack=2, nodes=nodes))
        tally.equal("the same raised", (cut.count, cut.solutions, cut.line), (part, [], None))
        cut = raised(nissy.Cut, lambda: nissy.solve("eofb", "R U F", 20, 2, nodes=nodes))
        tally.equal(
            "with solutions",
            (cut.count, cut.solutions, str(cut)),
            (part, some, f"the search was cut after {part.nodes:,} nodes"),
        )
    longest = tally.soon(
        "the longest search of all",
        20,
        lambda: raised(nissy.Cut, lambda: nissy.count("eofb", "R", slack=20, nodes=1_000_000)),
    )
    tally.holds("it is cut", longest)
    many = list(nissy.count_all("eofb", ["R U F", "F", "R Q", "L D B"], slack=2, nodes=50))
    tally.equal(
        "many lines",
        [(type(it), getattr(it, "line")) for it in many],
        [(nissy.Cut, 1), (nissy.Cut, 2), (nissy.LineFault, 3), (nissy.Cut, 4)],
    )
    tally.equal(
        "in part", [it.cut for it in untyped.count_all("eofb", ["R U F", ""], nodes=15, partial=True)], [True, False]
    )
    tally.equal(
        "solutions of many",
        [type(it) for it in nissy.solve_all("eofb", ["R U F", "", "R Q"], nodes=15)],
        [nissy.Cut, nissy.Solutions, nissy.LineFault],
    )
    # by their types these have no cuts, and the last ones may have
    counts: Iterator[Union[nissy.Count, nissy.Fault]] = nissy.count_all("eofb", ["R U F"], nodes=15, partial=True)
    lists: Iterator[Union[nissy.Solutions, nissy.Fault]] = nissy.solve_all("eofb", ["R U F"], nodes=15, partial=True)
    tally.equal("no cuts", [type(next(counts)), type(next(lists))], [nissy.Count, nissy.Solutions])
    counts = nissy.count_all("eofb", ["R U F"], nodes=15)  # type: ignore[assignment]
    lists = nissy.solve_all("eofb", ["R U F"], nodes=15)  # type: ignore[assignment]
    tally.equal("cuts", [type(next(counts)), type(next(lists))], [nissy.Cut, nissy.Cut])
    first = nissy.count("eofb", "R U F", slack=2, most=1)
    tally.equal("the first one alone", (first.length, first.solutions, first.cut), (1, 1, False))


if __name__ == "__main__":
    tried(wrong_types, numbers, bounds)

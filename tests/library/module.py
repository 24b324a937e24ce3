#!/usr/bin/env python3
"""The Python package by itself: runs, names and types, forms of values, and room that grows. What the calls return and raise is tried by values.py,
copies by copies.py, many lines by many.py.

    tests/library/module.py [large]

The library is that of NISSY_LIBRARY. With `large` an output of more than 2 GiB is taken too: half a minute, and 5 GB of memory.
"""
import copy
import dataclasses
import doctest
import sys
import typing
from pathlib import Path
from typing import Any, Dict, Iterator, List, Optional, Tuple, Union, get_type_hints

TOP = Path(__file__).resolve().parents[2]
sys.path[:0] = [str(TOP / "python"), str(TOP / "tests")]

import nissy
from tally import Tally, raised, tried

# the package as one calls it who looks at no types
untyped: Any = nissy
MOST_INPUT = 16_777_216
USAGE = b"usage: nissy COMMAND [ARGUMENTS]\n"
TOO_LONG = b"nissy: input longer than 16777216 bytes\n"
# methods of a class that doesn't say what its values hold
LYING = {
    "__eq__": lambda it, other: True,
    "__hash__": lambda it: hash("eorl"),
    "__len__": lambda it: 10**6,
    "__index__": lambda it: 3,
    "encode": lambda it, *how: b"F" * 10,
    "__bytes__": lambda it: b"F",
    "__add__": lambda it, other: 0,
    "__lt__": lambda it, other: True,
    "__le__": lambda it, other: True,
    "__ge__": lambda it, other: True,
}


def runs(tally: Tally) -> None:
    """Runs by words: their answers and what is no run."""
    rows: List[Any] = [
        (["invert"], "R\u2019", (0, b"R\n", b"")),
        (("invert", "R"), b"q", (0, b"R'\n", b"")),
        (["invert", "\udcff"], b"", (2, b"", USAGE)),
        (["invert", "\ud800"], b"", (2, b"", USAGE)),
        (["invert"], "R\ud800", (1, b"", b"nissy: line 1, column 2: not a move\n")),
        (["invert"], b" " * (MOST_INPUT + 1), (3, b"", TOO_LONG)),
    ]
    for words, data, wanted in rows:
        answer = nissy.run(words, data)
        tally.equal(f"run of {words}", (answer.status, answer.out, answer.err, answer.full), wanted + (False,))
    most = b" " * MOST_INPUT
    tally.equal("16,777,216 blanks are read", (nissy.invert(most), nissy.count("eofb", most).solutions), ("", 1))
    tally.holds("and judged", nissy.facts(most).solved and nissy.check(most, most).solved)
    tally.holds("a word with a zero byte is a ValueError", raised(ValueError, lambda: nissy.run(["invert", "R\0U"])))
    tally.holds(
        "an answer can't be changed",
        raised(dataclasses.FrozenInstanceError, lambda: setattr(nissy.run(["steps"]), "status", 1)),
    )


def names(tally: Tally) -> None:
    """What an import of all names brings, and the examples in the package's own text."""
    brought: typing.Dict[str, object] = {}
    exec("from nissy import *", brought)
    del brought["__builtins__"]
    wanted = set(
        """invert unniss cleanup facelets run Answer LineFault solve solve_all count count_all scramble scrambles steps
        Solution Count StartFault Fault Cut Solutions raising facts facts_all check Facts Check Case Pieces tokens
        Token solutions best best_all Continuation Continuations Orientation Reduction Lengths form_places FormPlace
        start_of plain_line PlainLine AXES EDGE_PLACES CORNER_PLACES NET stickers_of read_attempts Attempt
        AttemptCandidate place_of TextPlace line_after check_attempts AttemptCheck AttemptDoubt FormInText
        check_all""".split()
    )
    tally.equal("what an import of all brings", set(brought), wanted)
    public = [getattr(nissy, name) for name in nissy.__all__ if callable(getattr(nissy, name))]
    tally.holds("each function and each class says what it does", len(public) > 10 and all(it.__doc__ for it in public))
    tried = doctest.testmod(nissy)
    tally.holds("the examples of the package's own text hold", tried.attempted and not tried.failed)


def classes(tally: Tally) -> None:
    """What tools ask of the classes."""
    hints: List[Any] = [
        (nissy.Count, {"length": Optional[int], "solutions": int, "nodes": int, "cut": bool, "more": bool}),
        (nissy.Answer, {"status": int, "out": bytes, "err": bytes, "full": bool}),
        (
            nissy.Continuation,
            {"total": int, "line": str, "eo": Optional[nissy.Orientation], "dr": nissy.Reduction, "case": nissy.Case},
        ),
        (
            nissy.Orientation,
            {"step": nissy.Step, "moves": str, "normal": str, "inverse": str, "length": int, "twins": Tuple[str, ...]},
        ),
        (nissy.Check, {"solved": bool, "moves": int, "clean_moves": int, "forms": Tuple[str, ...]}),
        (nissy.PlainLine, {"line": str, "places": Tuple[int, ...], "left_out": Tuple[str, ...]}),
        (nissy.TextPlace, {"at": int, "line": int, "column": int}),
        (nissy.AttemptCandidate, {"steps": Tuple[nissy.PlainLine, ...], "solution": nissy.PlainLine, "note": str}),
        (
            nissy.Attempt,
            {
                "name": str,
                "scramble": nissy.PlainLine,
                "steps": Tuple[nissy.PlainLine, ...],
                "solution": Optional[nissy.PlainLine],
                "candidates": Tuple[nissy.AttemptCandidate, ...],
                "before": int,
                "doubt": Optional[nissy.AttemptDoubt],
                "is_labelled": bool,
            },
        ),
        (nissy.AttemptDoubt, {"reason": str, "place": nissy.TextPlace}),
        (nissy.FormInText, {"text": str, "forms": Tuple[str, ...], "place": nissy.TextPlace}),
        (
            nissy.AttemptCheck,
            {
                "attempt": nissy.Attempt,
                "check": Optional[nissy.Check],
                "fault": Optional[nissy.LineFault],
                "place": Optional[nissy.TextPlace],
                "forms": Tuple[nissy.FormInText, ...],
                "doubt": Optional[nissy.AttemptDoubt],
            },
        ),
        (nissy.FormPlace, {"text": str, "forms": Tuple[str, ...], "column": int, "character": int}),
        (nissy.solve_all, {"return": Iterator[Union[nissy.Solutions, nissy.Fault, nissy.Cut]]}),
        (nissy.run, {"return": nissy.Answer}),
        (nissy.check_all, {"return": Iterator[Union[nissy.Check, nissy.Fault]]}),
    ]
    for of, wanted in hints:
        got = get_type_hints(of)
        tally.equal(
            f"the types of {of.__name__}", {name: got[name] for name in (wanted if "return" in wanted else got)}, wanted
        )
    for name in nissy.__all__:
        if isinstance(getattr(nissy, name), type):
            tally.equal(f"the place of {name}", getattr(nissy, name).__module__, "nissy")
    named = tuple(nissy.steps()) if sys.version_info >= (3, 8) else None
    tally.equal("the names of the type of a step", getattr(nissy.Step, "__args__", None), named)
    for value, name in ((nissy.facts("R"), "solved"), (nissy.count("eofb", "R"), "nodes")):
        tally.holds(f"{name} can't be changed", raised(AttributeError, lambda: setattr(value, name, "eorl")))
    tally.holds("nor a row", raised(dataclasses.FrozenInstanceError, lambda: setattr(nissy.best("R U")[0], "total", 1)))


def liars(tally: Tally) -> None:
    """Values of classes that say of themselves what isn't so: what they hold counts."""
    text, data, number = type("T", (str,), LYING), type("B", (bytes,), LYING), type("N", (int,), LYING)
    tally.equal("a bytes that lies about its length", nissy.invert(data(b"R U")), "U' R'")
    tally.equal("a str that lies about its bytes", nissy.invert(text("R U")), "U' R'")
    tally.holds("a number that lies about its order", raised(ValueError, lambda: nissy.solve("eofb", "F", number(276))))
    tally.holds(
        "a room that lies about its size", raised(MemoryError, lambda: nissy.run(["steps"], room=number(2**62)))
    )
    tally.equal("a name that says that it is another one", nissy.solve(text("eoud"), "R"), ["R", "R'"])
    tally.equal("that step for others", nissy.solve("eorl", "R"), ["R", "R'"])
    tally.equal("words that lie", nissy.run([text("invert"), data(b"R")]).out, b"R'\n")


def stickers(tally: Tally) -> None:
    """Places that have no stickers, and what is no cube. Where the stickers of places are, also of cubes that are turned, tests/hosts tries."""
    tally.equal(
        "several", nissy.stickers_of(iter(("UF", "URF"))), [*nissy.stickers_of(["UF"]), *nissy.stickers_of(("URF",))]
    )
    for name in ("FU", "uf", "", "U", "RUF", "UF "):
        tally.equal(
            f"no place {name!r}",
            str(raised(ValueError, lambda: nissy.stickers_of([name]))),
            f"no place is called {name}",
        )
    tally.equal(
        "a name alone",
        str(raised(TypeError, lambda: nissy.stickers_of("UF"))),
        "the places are a list or another iterable, not str",
    )
    for what, wrong in no_letters(nissy.facelets("")).items():
        said = str(raised(ValueError, lambda: nissy.stickers_of([], wrong)))
        tally.equal(f"no letters of a cube: {what}", said, "these are not the 54 letters of a cube")


def no_letters(letters: str) -> Dict[str, str]:
    """What the letters of no cube are, which has its centres at 4, 13, and so on."""

    def with_centres(centres: str) -> str:
        return "".join(centres[at // 9] if at % 9 == 4 else letter for at, letter in enumerate(letters))

    return {
        "none": "",
        "one less": letters[1:],
        "one more": letters + "B",
        "another letter": "u" + letters[1:],
        "a line feed": letters[1:] + "\n",
        "a centre twice": with_centres("URFULB"),
        "a mirror's": with_centres("ULFDRB"),
        "U beside D": with_centres("UDFRLB"),
    }


def rooms(tally: Tally) -> None:
    """Room that is given, and room that grows."""
    small = nissy.Answer(3, b"eofb\neo", b"nissy: cannot write\n", True)
    tally.equal(
        "a room that is too small is full",
        (nissy.run(["steps"], room=7), nissy.run(["steps"], room=0).full),
        (small, True),
    )
    for room in (b"abc", "7", 7.0, [7]):
        tally.holds(f"{room!r} is no room", raised(TypeError, lambda: untyped.run(["steps"], room=room)))
    tally.holds("nor are less than no bytes", raised(ValueError, lambda: nissy.run(["steps"], room=-1)))
    tally.holds(
        "more than there is memory for can't be had", raised(MemoryError, lambda: nissy.run(["steps"], room=2**62))
    )
    few, long_run = (nissy.run(["scramble", "7", "9", "256", count]) for count in ("3", "10000"))
    tally.holds(
        "an output of 7 MB comes whole", long_run.out.count(b"\n") == 10_000 and long_run.out.startswith(few.out)
    )
    solved = b"".join(bytes([letter]) * 9 for letter in b"URFDLB") + b"\n"
    tally.holds(
        "55 bytes for each byte of the input come whole", nissy.run(["print"], b"\n" * 300_000).out == solved * 300_000
    )
    asked: List[Any] = []
    library, growth = untyped._library, untyped._rooms._GROWTH
    run, solve = library.nissy_run, library.nissy_solve

    def noted(call: Any) -> Any:
        def made(*given: Any) -> Any:
            asked.append(given)
            return call(*given)

        return made

    library.nissy_run, library.nissy_solve = noted(run), noted(solve)
    written = nissy.run(["near", "eofb", "5", "20"], b"\n").out.decode().splitlines()[:-1]
    tally.equal("solutions of 2 MB come by one run", len(asked), 1)
    for larger, times in ((growth, 2), (2, 3)):
        untyped._rooms._GROWTH = larger
        asked.clear()
        found = nissy.solve("eofb", "", 5, 20)
        tally.holds("they come whole", [f"{it} ({it.length})".strip() for it in found] == written)
        tally.equal("searches that were made", len(asked), times)
    untyped._rooms._GROWTH = growth
    asked.clear()
    tally.equal("so many as there are", nissy.count("eofb", "", 5, 20).solutions, len(found))
    tally.holds("the first 10,000", nissy.solve("eofb", "", 5, 20, 10_000) == found[:10_000] and len(asked) == 1)
    tally.equal("a short one after it", nissy.solve("eofb", "F"), ["F", "F'"])
    library.nissy_run, library.nissy_solve = run, solve


def large_output(tally: Tally) -> None:
    """An output whose length has more than 31 bits."""
    room = 2**31 + 100
    answer = nissy.run(["near", "eofb", "20", "20"], b"\n", room=room)
    tally.holds(
        "an output of more than 2 GiB comes whole",
        answer.full and len(answer.out) == room and answer.out.startswith(b"(0)\nU (1)\n"),
    )


if __name__ == "__main__":
    further = [large_output] if "large" in sys.argv[1:] else []
    tried(runs, names, classes, liars, stickers, rooms, *further)

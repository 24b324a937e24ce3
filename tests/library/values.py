#!/usr/bin/env python3
"""The calls of the Python package that return values, by the rows of tests/calls.tsv and a few that only Python has; what they raise, and of what.

    tests/library/values.py

The library is that of NISSY_LIBRARY. Forms of values and rooms are tried by module.py, copies by copies.py, what is out of its range by limits.py,
iterators and threads by many.py, text as solvers write it by written.py, both sides by both_sides.py, drawn lines and the rows of `best` by tests/hosts. The last line is
`N passed, M failed`, and the status is 1 where M isn't 0.
"""
import ctypes
import functools
import itertools
import sys
from pathlib import Path
from typing import Any, Callable, Dict, Iterable, List, Tuple

TOP = Path(__file__).resolve().parents[2]
sys.path[:0] = [str(TOP / "python"), str(TOP / "tests")]

import called as shared
import nissy
from tally import Tally, raised

# the package as one calls it who looks at no types
untyped: Any = nissy
# the steps, each with the one that must hold before it
STEPS = dict(shared.rows("step"))
# a turn that flips edges on the axis
FLIPS = {"eofb": "F", "eorl": "R", "eoud": "U"}
AXES: Tuple[nissy.Axis, ...] = ("fb", "rl", "ud")
FORMS = ("slices", "lower_case", "brackets", "apostrophe", "half_prime")
EDGES = "UR UF UL UB DR DF DL DB FR FL BL BR".split()
CORNERS = "URF UFL ULB UBR DFR DLF DBL DRB".split()
# lines with a fault: the column in bytes, the character, and the fault
FAULTS: List[Any] = [
    (line, int(column), len(line.encode("utf-8", "surrogateescape")[: int(column) - 1].decode()) + 1, text)
    for line, column, text in shared.rows("fault")
]
FAULTS += [
    ("U" * 257, 257, 257, "more than 256 moves"),
    ("R\ud800", 2, 2, "not a move"),
    (b"R\0", 2, 2, "not a move"),
    ("R\u2019 U\u2019 Q", 11, 7, "not a move"),
    (b"R\xe2\x80\x99 Q", 6, 4, "not a move"),
    ("R\u2019\udcff", 5, 3, "not a move"),
]
MOST_INPUT = 16_777_216
BEYOND = b" " * (MOST_INPUT + 1)
TOO_LONG = "a line has at most 16,777,216 bytes"
MOST = 2**64 - 1


def told(fault: Any) -> Any:
    """What a fault says."""
    return fault and (fault.column, fault.character, fault.text, fault.line)


def by_each_call(call: str, step: Any, line: Any, *numbers: int) -> Iterable[Any]:
    """What the calls of a search answer: that on a line, and that on two, of which each answer comes."""
    yield getattr(nissy, call)(step, line, *numbers)
    yield from getattr(nissy, call + "_all")(step, [line] * 2, *numbers)


def searches(tally: Tally) -> None:
    """Solutions one after another and as a list, and counts."""
    rows: List[Any] = [((it.step, it.line, it.limit, it.slack), it.solutions, it.nodes) for it in shared.searches()]
    of_f = [("F", 1), ("F'", 1)]
    rows += [(("eofb", line), of_f, None) for line in (b"(F)", bytearray(b"F"), "F\u2019", (ctypes.c_ubyte * 1)(70))]
    rows += [(("eofb", line), [("", 0)], 1) for line in ("", memoryview(b"F F")[::2], (ctypes.c_ubyte * 0)())]
    for given, pairs, nodes in rows:
        wanted = [moves for moves, _ in pairs]
        for found in by_each_call("solve", *given):
            tally.equal(f"solve{given}", [(str(it), it.length) for it in found], pairs)
            tally.holds(
                "each is a Solution and a str", all(type(it) is nissy.Solution and isinstance(it, str) for it in found)
            )
        for most in range(len(wanted) + 2):
            some = untyped.solve(*given, most=most)
            tally.equal(f"at most {most}", (some, some.more), (wanted[:most], most < len(wanted)))
            few = [
                untyped.count(*given, most=most),
                *untyped.count_all(given[0], [given[1]] * 2, *given[2:], most=most),
            ]
            tally.equal(
                f"a count of at most {most}, which knows the length also if it counts none",
                [(it.length, it.solutions, it.more) for it in few],
                [(pairs[0][1] if pairs else None, min(most, len(wanted)), most < len(wanted))] * 3,
            )
        one_by_one = list(untyped.solutions(given[0], given[1], limit=(given + (20,))[2], slack=(given + (0, 0))[3]))
        tally.equal(
            "one by one",
            [(str(it), it.length, type(it)) for it in one_by_one],
            [(*pair, nissy.Solution) for pair in pairs],
        )
        for at in {0, len(pairs) // 2, len(pairs) - 1} & set(range(len(pairs))):
            left = untyped.solutions(
                given[0], given[1], limit=(given + (20,))[2], slack=(given + (0, 0))[3], after=pairs[at][0]
            )
            tally.equal(f"those after solution {at + 1}", list(map(str, left)), [moves for moves, _ in pairs[at + 1 :]])
        for count in by_each_call("count", *given):
            length = pairs[0][1] if pairs else None
            tally.equal(
                f"count{given}", count, nissy.Count(length, len(pairs), count.nodes if nodes is None else nodes)
            )
    longer = nissy.solve("drud-eofb", "", 1, 1)
    tally.equal(
        "longer ones",
        (len(longer), nissy.solve("drud-eofb", "", 1, 1, 3), nissy.count("drud-eofb", "", 1, 1)[:2]),
        (11, longer[:3], (0, 11)),
    )
    for moves in ("(F)", "x", "M", "Fw", "q"):
        left_off = functools.partial(nissy.solutions, "eofb", "F", after=moves)
        tally.says(ValueError, "after is no sequence of face turns", left_off)
    first = list(itertools.islice(nissy.solutions("eofb", "R U F", slack=9), 3))
    tally.equal("the first of very many", first, nissy.solve("eofb", "R U F", slack=9, most=3))
    tally.holds("many", sum(1 for _ in itertools.islice(nissy.solutions("eofb", "R U F", slack=5), 20_000)) == 20_000)


def lines(tally: Tally) -> None:
    """What is told of lines without a search."""
    for name, line, text in shared.rows("text"):
        for form in (line, line.encode(), bytearray(line.encode())):
            tally.equal(f"{name} of {form!r}", getattr(nissy, name)(form), text)
    for line, moves in shared.rows("tokens"):
        got = [
            "/".join([it.text, it.axis, ",".join(map(str, it.layers)), str(it.quarters), str(int(it.inverse))])
            for it in nissy.tokens(line)
        ]
        tally.equal(f"tokens of {line!r}", "|".join(got), moves)
    for line, solved, count, clean, steps, *masks in shared.rows("facts"):
        seen = nissy.facts(line)
        tally.equal(
            f"facts of {line!r}", (seen.solved, seen.moves, seen.clean_moves), (solved == "1", int(count), int(clean))
        )
        tally.equal(
            "the steps that hold", seen.holds, tuple(step for at, step in enumerate(STEPS) if int(steps) >> at & 1)
        )
        for axis, of_axis in zip(AXES, masks):
            wanted = [
                tuple(name for at, name in enumerate(names) if int(mask) >> at & 1)
                for mask, names in zip(of_axis.split(), (EDGES, CORNERS, EDGES))
            ]
            pieces = (seen.bad_edges[axis], seen.bad_corners[axis], seen.misplaced_edges[axis])
            tally.equal("its pieces", [(it, it.places) for it in pieces], [(len(it), it) for it in wanted])
            case = seen.case[axis]
            tally.equal(
                "its case", (str(case), case.corners, case.edges), (f"{pieces[1]}c{pieces[2]}e", pieces[1], pieces[2])
            )
    for scramble, solution, solved, count, clean, bits in shared.rows("check"):
        forms = tuple(form for at, form in enumerate(FORMS) if int(bits) >> at & 1)
        tally.equal(f"{solution!r} of {scramble!r} as a truth", bool(nissy.check(scramble, solution)), solved == "1")
        tally.equal(
            f"{solution!r} of {scramble!r}",
            nissy.check(scramble, solution),
            nissy.Check(solved == "1", int(count), int(clean), forms),
        )
    for line, places in shared.rows("forms"):
        at_places = nissy.form_places(line)
        got = [f"{it.column} {it.text} {sum(1 << FORMS.index(form) for form in it.forms)}" for it in at_places]
        tally.equal(f"form_places({line!r})", "|".join(got), places)
        tally.holds("the characters are there", all(line[it.character - 1 :].startswith(it.text) for it in at_places))
        tally.equal("the same of bytes", nissy.form_places(line.encode()), at_places)


def without_lines(tally: Tally) -> None:
    """Steps, scrambles and the version."""
    tally.equal("steps", nissy.steps(), list(STEPS))
    for step, start in STEPS.items():
        tally.equal(f"before {step}", untyped.start_of(step), start or None)
    for *words, text in shared.rows("scrambles"):
        state, stream, length, count = map(int, words)
        wanted = text.split("|") if count else []
        tally.equal(f"scrambles of {words}", nissy.scrambles(state, stream, length, count), wanted)
        tally.holds(f"the first of {words}", not count or nissy.scramble(state, stream, length) == wanted[0])
    tally.equal("the longest scramble", len(nissy.scramble(MOST, MOST, 256).split()), 256)
    tally.equal("the most scrambles", len(nissy.scrambles(7, 9, 1, 10_000)), 10_000)
    run = untyped._library.nissy_run
    untyped._library.nissy_run = lambda *given: untyped._library.RunAnswer(untyped._library.STOPPED)
    tally.says(MemoryError, "no memory for the scrambles", lambda: nissy.scrambles(1, 2, 3, 2))
    untyped._library.nissy_run = run
    header = (TOP / "include/nissy.h").read_text("utf-8")
    tally.holds("the version is that of the header", f'#define NISSY_VERSION "{nissy.__version__}"' in header)


ON_A_LINE: Dict[str, Callable[[Any], object]] = {
    "invert": untyped.invert,
    "unniss": untyped.unniss,
    "cleanup": untyped.cleanup,
    "facelets": untyped.facelets,
    "facts": untyped.facts,
    "tokens": untyped.tokens,
    "form_places": untyped.form_places,
    "solve": lambda it: untyped.solve("eofb", it),
    "count": lambda it: untyped.count("eofb", it),
    "solutions": lambda it: untyped.solutions("eofb", it),
}
# calls on a scramble and another line
ON_TWO: List[Callable[[Any, Any], object]] = [untyped.check, untyped.best, untyped.line_after]
# those on many lines, each with that on one
ON_MANY: List[Tuple[Callable[[Any], Any], Callable[[Any], object]]] = [
    (lambda it: untyped.solve_all("eofb", it), ON_A_LINE["solve"]),
    (lambda it: untyped.count_all("eofb", it), ON_A_LINE["count"]),
    (untyped.facts_all, untyped.facts),
    (untyped.best_all, untyped.best),
]


def faults(tally: Tally) -> None:
    """Lines with a fault: by each call on one line, on two, and on many, of which it ends none."""
    for line, *place, text in FAULTS:
        for name, call in ON_A_LINE.items():
            tally.equal(f"{name} of {line!r}", told(raised(nissy.LineFault, lambda: call(line))), (*place, text, None))
        for pair in ON_TWO:
            tally.equal(
                f"a first line {line!r}", told(raised(nissy.LineFault, lambda: pair(line, "R Q"))), (*place, text, 1)
            )
            tally.equal(
                f"a second line {line!r}", told(raised(nissy.LineFault, lambda: pair("R", line))), (*place, text, 2)
            )
        for many, one in ON_MANY:
            before, fault, behind = many(["F", line, "R"])
            tally.equal(f"one of many, {line!r}", (type(fault), told(fault)), (nissy.LineFault, (*place, text, 2)))
            tally.equal("the lines beside it", [before, behind], [one("F"), one("R")])
            answers: Any = nissy.raising(many(["F", line, "R"]))
            next(answers)
            tally.equal("the same raised", told(raised(nissy.LineFault, lambda: next(answers))), (*place, text, 2))
            tally.holds("it ends there", raised(StopIteration, lambda: next(answers)))
    tally.says(nissy.LineFault, "column 3: not a move", lambda: nissy.solve("eo", "R Q", 3, 1))
    told_twice: Callable[[], List[Any]] = lambda: list(untyped.count_all("eofb", ["R", "R q", "F B"], nodes=0))
    tally.holds(
        "faults of equal parts are equal, and cuts",
        told_twice() == told_twice() and len({*told_twice(), *told_twice()}) == 3,
    )
    first, second, start = (
        list(untyped.count_all(step, given))[-1]
        for step, given in (("eofb", ["q"]), ("eofb", ["", "q"]), ("drud-eofb", ["F"]))
    )
    tally.holds(
        "others differ",
        first != second and first != start and first != nissy.Fault(first.text, first.line) and first != "q",
    )
    shown = (second, start, told_twice()[2], raised(nissy.LineFault, lambda: nissy.check("R q", "")))
    tally.equal(
        "how faults and cuts are shown",
        list(map(repr, shown)),
        [
            "LineFault('line 2, column 1: not a move')",
            "StartFault('line 1: eofb does not hold')",
            "Cut('line 3: the search was cut after 0 nodes')",
            "LineFault('scramble, column 3: not a move')",
        ],
    )
    tally.says(
        nissy.LineFault, "line 2, column 3: not a move", lambda: list(nissy.raising(nissy.count_all("eo", ["", "R Q"])))
    )
    for pair, other in zip(ON_TWO, ("solution", "moves so far", "moves so far")):
        tally.says(nissy.LineFault, "scramble, column 3: not a move", lambda: pair("R Q", "U"))
        tally.says(nissy.LineFault, f"{other}, column 1: bracket not closed", lambda: pair("R", "(U"))
        tally.says(nissy.Fault, f"{other}, {TOO_LONG}", lambda: pair("", BEYOND))
        parts = [raised(nissy.LineFault, lambda: pair(*lines)).part for lines in (("R Q", "U"), ("R", "(U"))]
        tally.equal("the names of the lines", parts, ["scramble", other])
    for pair in ON_TWO[1:]:
        tally.says(
            nissy.Fault, "moves so far, more than 256 moves", lambda: pair("R U " * 128, "(" + "F R " * 128 + ")")
        )
    for call in (untyped.invert, ON_A_LINE["solve"], untyped.facts):
        tally.says(nissy.Fault, TOO_LONG, lambda: call(BEYOND))
    for many, one in ON_MANY:
        before, fault, _ = many(["F", BEYOND, "R"])
        tally.equal(
            "a line that is too long", (before, type(fault), str(fault)), (one("F"), nissy.Fault, "line 2: " + TOO_LONG)
        )
    tally.holds(
        "faults are ValueErrors",
        all(issubclass(it, ValueError) for it in (nissy.Fault, nissy.LineFault, nissy.StartFault)),
    )


def starts(tally: Tally) -> None:
    """Steps that may not start."""
    for step, start in STEPS.items():
        for name in ("solve", "count", "solutions") if start else ():
            fault = raised(nissy.StartFault, lambda: getattr(untyped, name)(step, FLIPS[start]))
            tally.equal(
                f"{step} may not start",
                fault and (fault.step, fault.start, fault.text),
                (step, start, start + " does not hold"),
            )
        tally.holds(
            f"{step} may start anywhere",
            start or all(untyped.count(step, line).solutions for line in ("F", "R", "U", "F R U B L D")),
        )
    tally.says(nissy.StartFault, "eorl does not hold", lambda: nissy.solve("drfb-eorl", "R"))
    for call in (untyped.solve_all, untyped.count_all):
        tally.says(
            nissy.StartFault,
            "line 3: eorl does not hold",
            lambda: list(nissy.raising(call("drfb-eorl", ["", "F", "R"]))),
        )


def main() -> None:
    """All of it."""
    tally = Tally()
    for part in (searches, lines, without_lines, faults, starts):
        part(tally)
    tally.end()


if __name__ == "__main__":
    main()

#!/usr/bin/env python3
"""The calls of the Python package that read text as solvers write it: forms of the text, copies, places of faults and forms, and values of a wrong type.

    tests/library/written.py

What is read of a text is tried by tests/hosts. The last line is `N passed, M failed`, and the status is 1 where M isn't 0.
"""
import array
import json
import pickle
import sys
from pathlib import Path
from typing import Any, Callable, List, Tuple

TOP = Path(__file__).resolve().parents[2]
sys.path[:0] = [str(TOP / "python"), str(TOP / "tests")]

import nissy
from tally import Tally, raised, tried

# the package as one calls it who looks at no types
untyped: Any = nissy
MARKED = "EO: R\u2019, U\u0301 q // to try"
SHEET = "Hello\n1. R U\r\nEO: F // \U0001f600 D q\r\n\nSolution:\rF U\u2019 q\n// a try\n2. D"
# attempts, each with what is told of it by hand: a check, a fault with the sign at which it stands, and such a sign of each form
CHECKED: List[Tuple[str, Any, Any, List[Any]]] = [
    (
        "1. R U F\nEO: F' U\u2032 R' // \U0001f600",
        (True, 3, 3, ("apostrophe",)),
        None,
        [("U\u2019", ("apostrophe",), "U\u2032", 2, 8)],
    ),
    ("2. R U\nU' R // \u00e9", (False, 2, 2, ()), None, []),
    ("3. D", None, None, []),
    ("4. D q", None, (1, "scramble", 3, 3, "not a move", "q", 6, 6), []),
    ("5. R (U\nU' M // not read", None, (1, "scramble", 3, 3, "bracket not closed", "(", 7, 6), []),
    ("6. R\nR\u2019 F\u2032 Q // more", None, (2, "solution", 11, 7, "not a move", "Q", 10, 7), []),
    # M' r is R and two of M's quarters back, so r' M is L2 R as faces
    (
        "7. M' r\nr' M // slices",
        (True, 3, 2, ("slices", "lower_case")),
        None,
        [("r'", ("lower_case",), "r' M", 12, 1), ("M", ("slices",), "M //", 12, 4)],
    ),
]
# the scramble and the solution of each, up to the comment
LINES = [
    ("R U F", "F' U\u2019 R' "),
    ("R U", "U' R "),
    ("D", None),
    ("D q", None),
    ("R (U", "U' M "),
    ("R", "R\u2019 F\u2019 Q "),
    ("M' r", "r' M "),
]


class Loud(str):
    """A string that says something else of itself."""

    def __str__(self) -> str:
        return "R"


def forms_of(text: str) -> List[Any]:
    """A text as each thing that may be one."""
    return [text, text.encode(), bytearray(text.encode()), memoryview(text.encode()), Loud(text)]


def line(tally: Tally) -> None:
    """A text as a line."""
    plain = nissy.PlainLine(" R\u2019  U\u0301 q ", (3, 4, 5, 6, 7, 8, 9, 10, 11, 12), ("labels", "comments", "commas"))
    for text in forms_of(MARKED):
        tally.equal(f"a text as {type(text).__name__}", nissy.plain_line(text), plain)
    fault = raised(nissy.LineFault, lambda: nissy.invert(plain.line))
    tally.equal("where its fault stands", nissy.place_of(fault, plain, MARKED), (9, 1, 10))
    tally.equal("it can be pickled", pickle.loads(pickle.dumps(plain)), plain)
    # bytes that are no text, and halves of pairs, stay for the other calls to refuse
    tally.equal("a byte", nissy.plain_line(b"R, \xff"), ("R  \udcff", (0, 1, 2, 3), ("commas",)))
    tally.equal("a half", nissy.plain_line("R \ud800"), ("R \ud800", (0, 1, 2), ()))
    for faulty, column in (("R  \udcff", 4), ("R \ud800", 3)):
        tally.equal("which they do", raised(nissy.LineFault, lambda: nissy.invert(faulty)).column, column)


def attempts(tally: Tally) -> None:
    """A text as attempts, by hand: the first has a step, a solution with a note, and prose before it."""
    step = nissy.PlainLine("F ", (18, 19), ("labels", "comments"))
    solution = nissy.PlainLine("F U\u2019 q", (41, 42, 43, 44, 45, 46), ())
    second = nissy.Attempt("2.", nissy.PlainLine("D", (60,), ()), (), None, (), 0)
    wanted = [
        nissy.Attempt(
            "1.",
            nissy.PlainLine("R U", (9, 10, 11), ()),
            (step,),
            solution,
            (nissy.AttemptCandidate((solution,), solution, "Solution a try"),),
            1,
            is_labelled=True,
        ),
        second,
    ]
    for text in forms_of(SHEET):
        tally.equal(f"attempts of {type(text).__name__}", nissy.read_attempts(text), wanted)
    tally.equal("they can be pickled", pickle.loads(pickle.dumps(wanted)), wanted)
    tally.holds("they can be keys", {it: it.name for it in wanted}[second] == "2.")
    odds: List[Any] = [b"1. R \xff\n2. U\xff", "1. R \udcff\n2. U\udcff"]
    for odd in odds:
        tally.equal(
            "a byte that is no text", [it.scramble.line for it in nissy.read_attempts(odd)], ["R \udcff", "U\udcff"]
        )


def in_turn(tally: Tally) -> None:
    """Attempts and checks, each made when it is asked for, are a sequence as a list is; what the text becomes meanwhile changes none."""
    text = bytearray(b"1. R\n2. U Q\n3. F\n")
    read, checked = nissy.read_attempts(text), nissy.check_attempts(text)
    text[:] = b"D" * len(text)
    tally.equal("the same", [it.attempt for it in checked], read)
    tally.equal("their names", [it.name for it in read], ["1.", "2.", "3."])
    tally.equal(
        "the last, a part, and the other way round",
        (read[-1].name, len(read[1:]), [it.name for it in read[::-1]]),
        ("3.", 2, ["3.", "2.", "1."]),
    )
    tally.equal("a check alone, twice", (checked[1].place, checked[1]), (nissy.TextPlace(10, 2, 6), checked[1]))
    tally.holds("fewer aren't the same", read != read[:2])
    raised(IndexError, lambda: read[3])
    copied = pickle.loads(pickle.dumps(checked))
    tally.holds(
        "a copy is a list of the same", isinstance(copied, list) and copied == checked and repr(copied) == repr(checked)
    )


def places(tally: Tally) -> None:
    """Where a fault of a part stands in the whole text."""
    first, _ = nissy.read_attempts(SHEET)
    solution = first.solution or first.scramble
    fault = raised(nissy.LineFault, lambda: nissy.check(first.scramble.line, solution.line))
    for text in forms_of(SHEET):
        tally.equal(f"in {type(text).__name__}", nissy.place_of(fault, solution, text), nissy.TextPlace(46, 6, 6))
    place = nissy.place_of(fault, solution, SHEET)
    tally.equal("it can be pickled", pickle.loads(pickle.dumps(place)), place)
    text = "R\nU\r\nF\r\r\U0001f600 q"
    plain = nissy.plain_line(text)
    wanted = [
        (0, 1, 1),
        (1, 1, 2),
        (2, 2, 1),
        (3, 2, 2),
        (5, 3, 1),
        (6, 3, 2),
        (7, 4, 1),
        (8, 5, 1),
        (9, 5, 2),
        (10, 5, 3),
    ]
    for at, line_at, column in wanted:
        where = nissy.place_of(nissy.LineFault(99, "", character=plain.places.index(at) + 1), plain, text)
        tally.equal(f"the line and column of {at}", where, (at, line_at, column))
    text_of_forms = "EO: R // \U0001f600\r\n(r2 U\u00b4) (2)"
    plain_forms = nissy.plain_line(text_of_forms)
    told = [(it.text, nissy.place_of(it, plain_forms, text_of_forms)) for it in nissy.form_places(plain_forms.line)]
    tally.equal("forms", told, [("(", (12, 2, 1)), ("r2", (13, 2, 2)), ("U\u2019", (16, 2, 5)), (")", (18, 2, 7))])
    of_none = nissy.LineFault(9, "not there")
    ends = [nissy.place_of(of_none, nissy.plain_line(it), it) for it in ("R // U", "// R")]
    tally.equal("what isn't there is at the end of the line", ends, [(2, 1, 3), (0, 1, 1)])
    for other in (nissy.StartFault("dr-eofb", "eofb", "eofb does not hold"), nissy.Fault("more than 256 moves", 2)):
        tally.equal(f"{type(other).__name__} has no place", nissy.place_of(other, plain, text), None)


def checks(tally: Tally) -> None:
    """A text as attempts that are checked."""
    text = "\n".join(attempt for attempt, *_ in CHECKED)
    wanted, begin = [], 0
    for (attempt, check, fault, forms), (scramble, solution), name in zip(CHECKED, LINES, "1234567"):

        def place(sign: str, line_at: int, column: int) -> Any:
            return {"at": begin + attempt.index(sign), "line": line_at, "column": column}

        said = check and {"solved": check[0], "moves": check[1], "clean_moves": check[2], "forms": list(check[3])}
        of = fault and {"line": fault[0], "part": fault[1], "column": fault[2], "character": fault[3], "text": fault[4]}
        each = [{"text": it[0], "forms": list(it[1]), "place": place(*it[2:])} for it in forms]
        wanted.append(
            {
                "name": f"{name}.",
                "scramble": scramble,
                "solution": solution,
                "check": said,
                "fault": of,
                "place": fault and place(*fault[5:]),
                "forms": each,
                "doubt": None,
            }
        )
        begin += len(attempt) + 1
    for form in forms_of(text):
        found = nissy.check_attempts(form)
        tally.equal(f"checks of {type(form).__name__}", [it.as_dict() for it in found], wanted)
        tally.equal("of these attempts", [it.attempt for it in found], nissy.read_attempts(text))
    tally.equal(
        "as values",
        [(it.check, [each[:2] for each in it.forms]) for it in found],
        [(check, [each[:2] for each in forms]) for _, check, _, forms in CHECKED],
    )
    tally.equal("as JSON they stay", json.loads(json.dumps(wanted)), [it.as_dict() for it in found])
    tally.equal("they can be pickled", [it.as_dict() for it in pickle.loads(pickle.dumps(found))], wanted)
    tally.holds("no fault keeps its calls", all(it.fault is None or it.fault.__traceback__ is None for it in found))


def known(tally: Tally) -> None:
    """A text of solutions of known scrambles, of which an iterator gives each in any form."""
    text = "Attempt 2 of 3: U\u2019\nAttempt 1 of 3: R\u2019 q"
    scrambles: List[Any] = ["R", b"U", bytearray(b"F")]
    for form in forms_of(text):
        first, second, third = nissy.check_attempts(form, scrambles=iter(scrambles))
        tally.equal(
            "a fault of a solution", (str(first.fault), first.place), ("solution, column 6: not a move", (38, 2, 20))
        )
        tally.equal("what is solved", second.check, (True, 1, 1, ("apostrophe",)))
        tally.equal("the scramble that it is of", second.attempt.scramble, ("U", (), ()))
        tally.equal("its forms", second.forms, (("U\u2019", ("apostrophe",), (16, 1, 17)),))
        nothing = nissy.Attempt("", nissy.PlainLine("F", (), ()), (), None, (), 0)
        tally.equal("one without a solution", third, nissy.AttemptCheck(nothing, None, None, None, ()))
    for wrong in ("R", 3, [4]):
        tally.holds(f"no scrambles: {wrong}", raised(TypeError, lambda: untyped.check_attempts("R", scrambles=wrong)))
    tally.holds("they are named", raised(TypeError, lambda: untyped.check_attempts("R", ["R"])))


def odd_checks(tally: Tally) -> None:
    """Checks of a text that is none, of one without moves, and of one that is too long."""
    odds: List[Any] = [b"1. R \xff U\n2. D\nD'\xff // x", "1. R \udcff U\n2. D\nD'\udcff // x"]
    for odd in odds:
        first, second = nissy.check_attempts(odd)
        tally.equal(
            "a byte", (first.check, str(first.fault), first.place), (None, "scramble, column 3: not a move", (5, 1, 6))
        )
        tally.equal(
            "a later one",
            (second.check, str(second.fault), second.place),
            (None, "solution, column 3: not a move", (16, 3, 3)),
        )
    (none,) = nissy.check_attempts("")
    tally.equal("no moves", none[1:], (None, None, None, (), None))
    long = "R" + "\U0001f600" * (16_777_216 // 4)
    fault = raised(nissy.Fault, lambda: nissy.check_attempts(long))
    tally.equal(
        "too many bytes",
        fault and (fault.text, fault.line, fault.part),
        ("a line has at most 16,777,216 bytes", 1, "scramble"),
    )


def refused(tally: Tally) -> None:
    """Calls that were refused memory, as some are of nissy.c, tell that, and no attempt without moves."""
    library = untyped._library
    calls: List[Tuple[str, Any, Callable[[], object]]] = [
        ("nissy_text_moves", library.PlainAnswer, lambda: nissy.read_attempts("R U")[0]),
        ("nissy_check_attempts", library.AttemptsAnswer, lambda: nissy.check_attempts("R U\n\nU' R'")),
        ("nissy_check_attempts", library.AttemptsAnswer, lambda: nissy.check_attempts("U' R'", scrambles=["R U"])),
    ]
    for name, answer, call in calls:
        asked = getattr(library, name)
        setattr(library, name, lambda *given, made=answer: made(library.STOPPED))
        tally.equal(f"{name} is refused memory", str(raised(MemoryError, call)), "no memory for the lines of a text")
        setattr(library, name, asked)


def wrong_types(tally: Tally) -> None:
    """Values of a type that a call doesn't take, told in words of the caller's."""
    wide = array.array("H", [82, 0x155])
    fault, plain = nissy.LineFault(1, "not a move"), nissy.plain_line("q")
    calls: List[Callable[[Any], object]] = [
        untyped.plain_line,
        untyped.read_attempts,
        untyped.check_attempts,
        lambda it: untyped.place_of(fault, plain, it),
    ]
    kinds: List[Any] = [
        (None, "None"),
        (3, "int"),
        (["R"], "list"),
        (wide, "items of 2 bytes each"),
        (memoryview(wide), "items of 2 bytes each"),
    ]
    for value, named in kinds:
        for call in calls:
            tally.equal(
                "a text", str(raised(TypeError, lambda: call(value))), f"the text is a str or bytes, not {named}"
            )
    for value, named in (
        (None, "None"),
        (3, "int"),
        (nissy.Cut(nissy.Count(None, 0, 0, True)), "Cut"),
        (ValueError("q"), "ValueError"),
    ):
        told = str(raised(TypeError, lambda: untyped.place_of(value, plain, "q")))
        tally.equal("a fault", told, f"what is found is a Fault or a FormPlace, not {named}")
    lines: List[Any] = [(None, "None"), ("q", "str"), (tuple(plain), "tuple"), (nissy.read_attempts("q")[0], "Attempt")]
    for value, named in lines:
        told = str(raised(TypeError, lambda: untyped.place_of(fault, value, "q")))
        tally.equal("a line", told, f"the plain line is a PlainLine, not {named}")


def times(tally: Tally) -> None:
    """Long texts are read in a time by their length, on a processor, of which a busy machine has others' work too."""
    longs = ("\r" * 1_000_000, "R" * 1_000_000, "ab " * 300_000, "9" * 1_000_000, "\u2028 " * 500_000)
    tally.soon("lines that are long", 20, lambda: [nissy.plain_line(it) for it in longs])
    text = "R\r\n" * 100_000 + "\r" * 100_000
    plain, fault = nissy.plain_line(text), nissy.LineFault(99, "", character=200_001)
    places = tally.soon("a place far below", 20, lambda: {nissy.place_of(fault, plain, text) for _ in range(1000)})
    tally.equal("it", places, {(300_000, 100_001, 1)})


if __name__ == "__main__":
    tried(line, attempts, in_turn, places, checks, known, odd_checks, refused, wrong_types, times)

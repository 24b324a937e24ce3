"""The hosts of the engine, which are asked by the same calls: Python, callers in C++ and in JavaScript, and other programs.

A call is a name and what is given to it, bytes for a text, else a number or a word. A caller reads it from a line, with blanks between, texts as
hexadecimal digits after an `=`, and answers a line: its text so; before that of a fault stand which of two lines has it, or 0, and its column,
or 0. A search that is cut answers as a fault of that text; what `best` found until then, if that is wanted, has it as a last line. `text` answers
what `plain_line`, `check_attempts`, `attempt_doubts`, `read_attempts` and `known_checks` tell of one text, parted by PARTED.
"""
from __future__ import annotations

import array
import ctypes
import os
import re
import sys
from typing import Any, Callable, Iterable, List, Sequence

TOP = os.path.dirname(os.path.dirname(os.path.dirname(os.path.abspath(__file__))))
sys.path[:0] = [os.path.join(TOP, folder) for folder in ("python", "tests", os.path.join("tests", "model"))]

import nissy

from host import (
    PARTED as PARTED,
    Caller as Caller,
    Fault as Fault,
    Given as Given,
    Host as Host,
    Other as Other,
    fault_of as fault_of,
    question as question,
    told as told,
    told_by as told_by,
)

AXES: List[nissy.Axis] = ["fb", "rl", "ud"]
ALL = 2**64 - 1
# the same bytes as what a line may be given as
FORMS: List[Callable[[bytes], Any]] = [
    bytes,
    bytearray,
    memoryview,
    lambda line: line.decode("utf-8", "surrogateescape"),
    lambda line: memoryview(line[::-1])[::-1],
    lambda line: memoryview(b"R U" + line + b"F q")[3 : len(line) + 3],
    lambda line: array.array("b", line),
    lambda line: (ctypes.c_char * len(line)).from_buffer_copy(line),
]


def lines(texts: Iterable[str]) -> str:
    """Texts as lines."""
    return "".join(text + "\n" for text in texts)


def part(it: Any) -> str:
    """What an orientation and a reduction have in common."""
    return f"{it.step};{it.moves};{it.normal};{it.inverse};{it.length};{','.join(it.twins)}"


def row(it: nissy.Continuation) -> str:
    """A row of `best`."""
    normal, inverse = ("none" if length is None else length for length in (it.dr.lengths.normal, it.dr.lengths.inverse))
    return f"{it.total};{it.line};{part(it.eo) if it.eo else 'none'};{part(it.dr)};{normal};{inverse};{it.case}"


def facts(seen: nissy.Facts) -> str:
    """What is seen of a line."""
    each = [(seen.bad_edges[axis], seen.bad_corners[axis], seen.misplaced_edges[axis]) for axis in AXES]
    if any(seen.case[axis] != f"{corners}c{misplaced}e" for axis, (_, corners, misplaced) in zip(AXES, each)):
        return f"another case: {seen.case}"
    places = ["/".join(",".join(it.places) for it in pieces) for pieces in each]
    return " ".join([f"{seen.solved:d} {seen.moves} {seen.clean_moves}", ",".join(seen.holds), *places])


def tokens(told: List[nissy.Token]) -> str:
    """The moves of a line, those outside brackets first."""
    moves = sorted(told, key=lambda it: it.inverse)
    return " ".join(f"{it.text}/{it.axis}/{','.join(map(str, it.layers))}/{it.quarters}/{it.inverse:d}" for it in moves)


def solutions(found: nissy.Solutions) -> str:
    """Solutions as lines."""
    return lines(f"{it} ({it.length})".strip() for it in found)


def counted(it: nissy.Count) -> str:
    """A count."""
    return f"{'none' if it.length is None else it.length} {it.solutions} {it.nodes}"


def checked(it: nissy.Check) -> str:
    """What is said of a solution."""
    return f"{it.solved:d} {it.moves} {it.clean_moves} {','.join(it.forms)}"


def form_places(places: List[nissy.FormPlace]) -> str:
    """Where a line has forms."""
    return " ".join(f"{it.column}/{it.text}/{','.join(it.forms)}" for it in places)


def plain_line(it: nissy.PlainLine) -> str:
    """A text as one line, the places of its signs, and what is left out."""
    return f"{it.line}\n{' '.join(map(str, it.places))}\n{'|'.join(it.left_out)}"


def net() -> str:
    """The names of axes, edges and corners, and where each letter is in the net."""
    names = [",".join(names) for names in (nissy.AXES, nissy.EDGE_PLACES, nissy.CORNER_PLACES)]
    return "\n".join([*names, *(f"{row},{column}" for row, column in nissy.NET)])


def stopping(asks: int) -> Callable[[], bool]:
    """What ends a call when it has been asked so often."""
    left = iter(range(asks))
    return lambda: next(left, None) is None


def part_in(text: str, plain: nissy.PlainLine, form: Any) -> str:
    """A part of an attempt without blanks around it, and the places of its first and last sign, which a fault there has too."""
    own = plain.line.strip(" ")
    first = plain.line.find(own)

    def place_at(at: int) -> int | str:
        place = nissy.place_of(nissy.LineFault(9, "of bytes", character=at + 1), plain, form)
        assert place is not None
        above = re.split("\r\n?|\n", text[: place.at])
        is_there = text.startswith(above[-1], place.at - place.column + 1) and (place.line, place.column) == (
            len(above),
            len(above[-1]) + 1,
        )
        return place.at if is_there and place.at == plain.places[at] else "another place"

    return own and f"{own}@{place_at(first)}-{place_at(first + len(own) - 1)}"


def attempts(text: str, form: Any) -> str:
    """The attempts of a text, each on a line."""

    def all_of(steps: Iterable[nissy.PlainLine]) -> str:
        return "/".join(part_in(text, it, form) for it in steps)

    def told_of(it: nissy.Attempt) -> str:
        others = ";".join(
            f"{all_of(each.steps)}={part_in(text, each.solution, form)}#{each.note}" for each in it.candidates
        )
        solution = "none" if it.solution is None else part_in(text, it.solution, form)
        said = [it.name, str(it.before), part_in(text, it.scramble, form), all_of(it.steps), solution, others]
        return "|".join([*said, *["labelled"] * it.is_labelled])

    return "\n".join(map(told_of, nissy.read_attempts(form)))


def attempt_counts(form: Any) -> str:
    """How many attempts a text has, and how many steps and candidates all of them."""
    found = nissy.read_attempts(form)
    return f"{len(found)} {sum(len(it.steps) for it in found)} {sum(len(it.candidates) for it in found)}"


def line_and_column(place: nissy.TextPlace | None) -> str:
    """A place in a text."""
    return "nowhere" if place is None else f"{place.line}:{place.column}"


def attempt_check(it: nissy.AttemptCheck) -> str:
    """What is said of an attempt: of its solution, its fault and its forms."""
    fault = "" if it.fault is None else f"{it.fault.part}:{it.fault.column}:{it.fault.text}@{line_and_column(it.place)}"
    forms = " ".join(f"{each.text}/{','.join(each.forms)}@{line_and_column(each.place)}" for each in it.forms)
    return "|".join(["" if it.check is None else checked(it.check), fault, forms])


def attempt_doubt(it: nissy.AttemptCheck) -> str:
    """What makes one doubt an attempt, and where."""
    return f"{it.doubt.reason}@{line_and_column(it.doubt.place)}" if it.doubt else ""


def known_check(it: nissy.AttemptCheck) -> str:
    """What is said of a known scramble, or of what isn't told to be of one."""
    return "|".join([it.attempt.name, attempt_check(it), attempt_doubt(it)])


def each_on_a_line(told: Callable[[nissy.AttemptCheck], str], checks: Sequence[nissy.AttemptCheck]) -> str:
    """Something of each check."""
    return "\n".join(map(told, checks))


def text_told(text: str, form: Any, known: Sequence[nissy.AttemptCheck]) -> str:
    """All that is told of a text, with the checks of known scrambles."""
    checks = nissy.check_attempts(form)
    return PARTED.join(
        [
            plain_line(nissy.plain_line(form)),
            each_on_a_line(attempt_check, checks),
            each_on_a_line(attempt_doubt, checks),
            attempts(text, form),
            each_on_a_line(known_check, known),
        ]
    )


def pair_check(it: nissy.Check | nissy.Fault) -> str:
    """What is said of one of many pairs."""
    return f"{it.part}:{getattr(it, 'column', 0)}:{it.text}" if isinstance(it, nissy.Fault) else checked(it)


class Python(Host):
    """The package, with a line in one form after another, and searches by one call after another."""

    name = "Python"

    def __init__(self) -> None:
        self.asked = 0

    def line(self, line: bytes) -> Any:
        """A line in the next form."""
        return FORMS[self.asked % len(FORMS)](line)

    def solve(self, name: Any, *given: Any) -> nissy.Solutions:
        """Solutions by the next of the calls."""
        return [
            lambda: nissy.solve(name, *given),
            lambda: next(nissy.raising(nissy.solve_all(name, given[:1], *given[1:]))),
        ][self.asked % 2]()

    def count(self, name: Any, line: Any, limit: int, slack: int) -> nissy.Count:
        """A count by the next of them."""
        return [
            lambda: nissy.count(name, line, limit, slack),
            lambda: next(nissy.raising(nissy.count_all(name, [line], limit, slack, threads=2))),
        ][self.asked % 2]()

    def told(self, call: str, given: Any) -> str:
        """What a call tells."""
        if call in ("solve", "count"):
            step, limit, slack, most, line = given
            name, form = step.decode("utf-8", "replace"), self.line(line)
            return (
                solutions(self.solve(name, form, limit, slack, most))
                if call == "solve"
                else counted(self.count(name, form, limit, slack))
            )
        if call == "scrambles":
            return lines([nissy.scramble(*given[:3]), *nissy.scrambles(*given)])
        if call == "steps":
            return lines(nissy.steps())
        if call == "net":
            return net()
        if call == "stickers":
            names, *letters = (it.decode() for it in given)
            return " ".join(map(str, nissy.stickers_of((name for name in names.split(",") if name), *letters)))
        if call == "best":
            scramble, so_far, slack, most, nodes, partial, asks = given
            found = nissy.best(
                self.line(scramble),
                self.line(so_far),
                slack=slack,
                most=most,
                nodes=nodes,
                partial=partial == 1,
                stop=None if asks == ALL else stopping(asks),
            )
            return lines([*map(row, found), *(["cut"] if found.cut else [])])
        if call == "read_attempts":
            return attempts(given[0].decode(), self.line(given[0]))
        if call == "check_attempts":
            return each_on_a_line(attempt_check, nissy.check_attempts(self.line(given[0])))
        if call == "attempt_doubts":
            return each_on_a_line(attempt_doubt, nissy.check_attempts(self.line(given[0])))
        if call in ("known_checks", "text"):
            form, scrambles = self.line(given[0]), given[1].decode().splitlines()
            known = nissy.check_attempts(form, scrambles=map(self.line, map(str.encode, scrambles)))
            return (
                each_on_a_line(known_check, known)
                if call == "known_checks"
                else text_told(given[0].decode(), form, known)
            )
        if call == "check_all":
            lines_of = given[0].decode("utf-8", "surrogateescape").split("\n")
            return "\n".join(map(pair_check, nissy.check_all(zip(lines_of[::2], lines_of[1::2]))))
        if call == "attempt_counts":
            return attempt_counts(self.line(given[0]))
        written: Any = {
            "facts": facts,
            "tokens": tokens,
            "form_places": form_places,
            "check": checked,
            "plain_line": plain_line,
        }.get(call, str)
        return str(written(getattr(nissy, call)(*map(self.line, given))))

    def ask(self, call: str, *given: Given) -> bytes:
        self.asked += 1
        try:
            return self.told(call, given).encode()
        except nissy.Cut:
            raise Fault(0, 0, "cut") from None
        except nissy.Fault as fault:
            on_two = call in ("check", "best", "line_after")
            raise Fault(fault.line or 0 if on_two else 0, getattr(fault, "column", 0), fault.text) from None

    def run(self, words: List[str], data: bytes, room: int | None = None) -> Any:
        answer = nissy.run(words, data, room)
        return answer.out, answer.err, answer.status, answer.full


def command_of(word: str) -> tuple[str, List[str]]:
    """The name of a host and the command of its caller, by a word as hosts_of takes it."""
    kind, _, what = word.partition("=")
    folder = os.path.dirname(os.path.abspath(__file__))
    if kind == "js":
        return "JavaScript", ["node", os.path.join(folder, "caller.mjs"), what]
    if kind == "python":
        return "Python", [sys.executable, os.path.join(folder, "caller.py")]
    return kind.upper(), [what]


def hosts_of(words: List[str]) -> List[Host]:
    """The hosts that words name: `python`, `c=CALLER`, `c++=CALLER`, `js=MODULE`, or `program=COMMAND`, of which blanks part the words."""
    made: List[Host] = []
    for word in words:
        kind, _, what = word.partition("=")
        if kind in ("js", "c", "c++"):
            made.append(Caller(*command_of(word)))
        else:
            made.append(Python() if kind == "python" else Other(what.split(" ")))
    return made


def callers_of(words: List[str]) -> List[Caller]:
    """The same hosts, but programs, each as a process of its own that makes calls."""
    return [Caller(*command_of(word)) for word in words]

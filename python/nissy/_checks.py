"""Checks the attempts of a text as solvers write it, by one call of the library."""
import ctypes
from itertools import accumulate
from typing import Any, Dict, Iterable, List, NamedTuple, Optional, Sequence, Tuple

from . import _library, _rooms
from ._attempts import NOTHING, Attempt, AttemptDoubt, Reader
from ._facts import Check, check_by_numbers
from ._given import Text, bytes_of, each_of
from ._lazily import Lazily
from ._library import ATTEMPT_CHECK, DONE, FAULT, KNOWN_PART, MOST_INPUT
from ._lines import fault_of, fault_text
from ._tokens import forms_of, items_with_forms
from ._values import Fault, LineFault, value_of
from ._written import PlainLine, TextPlace, Written, end_unless_made, string_of

# the numbers of `nissy_attempt_check` of nissy_text.h
_Told = Tuple[Any, ...]
# where those of its check begin
_OF_CHECK = 10
# the library's number of no scramble and of no place
_NONE = 2**64 - 1
# a text as long as that has as many bytes written of it and of its lines as are never too few
_MOST_OF_BYTE, _PLACE = 6, 8


class FormInText(NamedTuple):
    """A move or a bracket of a text that the WCA's notation for solutions hasn't."""

    text: str
    """As FormPlace has it."""
    forms: Tuple[str, ...]
    """Its forms, as Check names them."""
    place: TextPlace
    """Where it begins."""

    def as_dict(self) -> Dict[str, Any]:
        """All of it by the same names, as json.dumps takes it."""
        return {"text": self.text, "forms": list(self.forms), "place": self.place._asdict()}


class AttemptCheck(NamedTuple):
    """Whether the solution of an attempt solves its scramble."""

    attempt: Attempt
    check: Optional[Check]
    """None if there is no solution, or if the scramble or the solution is at fault."""
    fault: Optional[LineFault]
    """The fault of the one that its `part` names, or None."""
    place: Optional[TextPlace]
    """Where that fault stands in the text."""
    forms: Tuple[FormInText, ...]
    """Where the solution has its forms; none if there is no check."""
    doubt: Optional[AttemptDoubt] = None
    """What makes one doubt that the attempt is read as it was meant; None if it has a fault. Of one that is solved it
    is "step or scramble", "another attempt", "several solutions", or None."""

    def as_dict(self) -> Dict[str, Any]:
        """What is said of it, as json.dumps takes it, with the `name` of the attempt, and its scramble and solution as
        lines, in which a fault has its column."""
        checked = None if self.check is None else {**self.check._asdict(), "forms": list(self.check.forms)}
        return {
            "name": self.attempt.name,
            "scramble": self.attempt.scramble.line,
            "solution": self.attempt.solution and self.attempt.solution.line,
            "check": checked,
            "fault": self.fault and self.fault.as_dict(),
            "place": self.place and self.place._asdict(),
            "forms": [it.as_dict() for it in self.forms],
            "doubt": self.doubt and {"reason": self.doubt.reason, "place": self.doubt.place._asdict()},
        }


class _Checks:
    """What the library tells of the attempts of a text, or of the solutions of scrambles that are known."""

    def __init__(self, whole: Written, scrambles: Optional[List[str]]) -> None:
        self._whole, self._scrambles = whole, scrambles
        lines = [bytes_of(line, "") for line in scrambles or ()]
        # a scramble is a part without lines, and then come those that the text has
        self._parts = bytearray().join(KNOWN_PART.pack(at, *6 * [0]) for at in range(len(lines)))
        self._ends = (ctypes.c_uint64 * len(lines))(*accumulate(map(len, lines)))
        self._reader = Reader(whole) if scrambles is None else Reader(whole, self._tell_known)
        count = self._reader.count + len(self._parts) // KNOWN_PART.size
        self._room = bytearray(ATTEMPT_CHECK.size * max(count, 1))
        self._count = self._check(b"".join(lines), count)

    def _tell_known(self, data: bytes, length: int, lines: int, most: int) -> Any:
        known, before = len(self._ends), len(self._parts)
        room, counts = bytearray(KNOWN_PART.size * most), (ctypes.c_uint64 * known)()
        place = ctypes.addressof(ctypes.c_char.from_buffer(room))
        told = _library.nissy_known_lines(data, length, lines, most, place, most, ctypes.addressof(counts), known)
        self._parts = self._parts + room[: KNOWN_PART.size * told.parts]
        return told

    def _check(self, scrambles: bytes, count: int) -> int:
        """Returns how many attempts are checked."""
        data, reader = self._reader.data, self._reader
        most = _MOST_OF_BYTE * (len(data) + reader.count)
        room = _rooms.Room((1 + _PLACE) * most)
        parts, checks = (
            ctypes.addressof((ctypes.c_char * len(it)).from_buffer(it)) for it in (self._parts, self._room)
        )
        of_parts = (parts, len(self._parts) // KNOWN_PART.size)
        known = (scrambles, len(scrambles), ctypes.addressof(self._ends), len(self._ends))
        rooms = (room.address + _PLACE * most, most, room.address, most, checks, count)
        told = _library.nissy_check_attempts(data, len(data), reader.address, reader.count, *of_parts, *known, *rooms)
        end_unless_made(told.status)
        return int(told.attempts)

    def all(self) -> Sequence[AttemptCheck]:
        """Returns what is said of each, at least one of a text of attempts; of solutions by their scrambles, and then
        of those of which it can't be seen which that is."""
        size = ATTEMPT_CHECK.size
        if self._scrambles is None:
            each = memoryview(self._room)[: size * max(self._count, 1)]
            made = self._made
            return Lazily(
                max(self._count, 1),
                lambda at: made(ATTEMPT_CHECK.unpack_from(each, size * at)),
                lambda: map(made, ATTEMPT_CHECK.iter_unpack(each)),
            )
        every = [*ATTEMPT_CHECK.iter_unpack(memoryview(self._room)[: size * self._count])]
        known = len(self._scrambles)
        told, others = [self._made(it) for it in every[:known]], []
        for it in every[known:]:
            if it[0] == _NONE:
                others.append(self._made(it))
            else:
                told[it[0]] = self._made(it)
        return told + others

    def _made(self, told: _Told) -> AttemptCheck:
        """Returns what is said of an attempt. Raises Fault if a line of it has too many bytes."""
        _, _, _, first, end, fault_at, doubt_at, number, is_doubted, is_checked = told[:_OF_CHECK]
        status, fault, line, solved, column, moves, clean_moves, forms = told[_OF_CHECK:]
        attempt = self._reader.attempt(first, end)
        if self._scrambles is not None:
            attempt = self._of_known(attempt, told)
        if status != DONE:
            place = None if fault_at == _NONE else self._whole.place_of_byte(fault_at)
            return value_of(
                AttemptCheck, (attempt, None, _fault(attempt, status, fault, column, line), place, (), None)
            )
        doubt = self._reader.doubt(number, doubt_at) if is_doubted else None
        if attempt.solution is None or not is_checked:
            return value_of(AttemptCheck, (attempt, None, None, None, (), doubt))
        places = _forms_in(attempt.solution, self._whole) if forms else ()
        check = check_by_numbers(solved, moves, clean_moves, forms)
        return value_of(AttemptCheck, (attempt, check, None, None, places, doubt))

    def _of_known(self, attempt: Attempt, told: _Told) -> Attempt:
        """Returns an attempt with the name of its part and its scramble, if that is known."""
        scramble, name_begin, name_end = told[:3]
        named = attempt._replace(name=self._whole.words(name_begin, name_end))
        if self._scrambles is None or attempt.scramble is not NOTHING or scramble == _NONE:
            return named
        return named._replace(scramble=PlainLine(self._scrambles[scramble], (), ()))


def _fault(attempt: Attempt, status: int, fault: int, column: int, number: int) -> LineFault:
    """Returns the fault of the scramble or the solution. Raises Fault if it has too many bytes."""
    part, plain = ("scramble", attempt.scramble) if number == 1 else ("solution", attempt.solution or NOTHING)
    line = plain.line
    if status == FAULT and line.isascii():
        # most are, and there may be many
        made: Fault = LineFault(column, fault_text(fault), number)
    else:
        made = fault_of(status, fault, column, bytes_of(line, ""), number)
    made.part = part
    if isinstance(made, LineFault):
        return made
    raise made


def _forms_in(solution: PlainLine, whole: Written) -> Tuple[FormInText, ...]:
    """Returns where a solution that was read has forms."""
    places, place = solution.places, whole.place
    found = items_with_forms(solution.line)
    return tuple([value_of(FormInText, (it[0], forms_of(it[0]), place(places[it.start()]))) for it in found])


def check_attempts(text: Text, *, scrambles: Optional[Iterable[Text]] = None) -> Sequence[AttemptCheck]:
    """The attempts of a text as solvers write it, as `read_attempts` returns them, each with what `check` says of its
    scramble and solution, or the fault of one of them, and where fault and forms stand in the text; and what makes one
    doubt how it is read. Each is made when it is asked for. Raises Fault if one has too many bytes.

    With `scrambles` the text has only solutions, each under a head with the number of its scramble in this list, such
    as `2.` or `Attempt 2 of 3`; or as many without numbers, in its order. There is a check for each scramble in its
    order, without a solution if none is found; then one for each part of the text that may be of another scramble,
    in doubt."""
    whole = Written(text)
    known = None if scrambles is None else [string_of(it) for it in each_of(scrambles, "the scrambles")]
    checks = _Checks(whole, known).all()
    # only so long a text may have a line that is too long, which isn't passed over
    return checks if len(whole.data) <= MOST_INPUT else list(checks)

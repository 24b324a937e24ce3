"""Reads what solvers write down of their attempts, by the library: scrambles, each with the steps of a solution and
candidates beside it. Nothing of it is called at fault here: what is no line of moves is at fault where it is used."""
import ctypes
from bisect import bisect_right
from functools import reduce
from itertools import accumulate, compress
from operator import and_, ne, or_
from typing import Any, Callable, Iterator, List, NamedTuple, Optional, Sequence, Tuple

from . import _library
from ._given import Text, bytes_of
from ._lazily import Lazily
from ._library import MOVES_PART, TEXT_LINE
from ._values import value_of
from ._written import WHITE, Cuts, PlainLine, TextPlace, Written, WrittenLine, written_by

_BEFORE, SCRAMBLE, STEP, _NOTE = range(1, 5)
# whose moves the library writes
_OF_SCRAMBLE, _OF_STEPS = range(2)
# 1 for each line of such a kind
_IS_OF = {wanted: bytes(kind == wanted for kind in range(256)) for wanted in (SCRAMBLE, STEP)}
# the bytes of a line that say what it is, whether it is of the solution, whether it has a head, whether its label says
# that the solution follows, and what its doubt is
_BYTES = (0, 1, 2, 3, 5)
# how many numbers of eight bytes a line is, of which the first has those bytes, and the others in their order
_NUMBERS = TEXT_LINE.size // 8
_ATTEMPT, _GROUP, _BEGIN, _HEAD_END, _LABEL_BEGIN, _LABEL_END, _MOVES, _COMMENT, _END, _DOUBT_AT = range(1, _NUMBERS)
_PART, _LEFT_OUT_AT = MOVES_PART.size, 16
# what makes one doubt a line, by the library's numbers
_DOUBTS = (
    "|another scramble|several solutions|side|letters|small letters|comment|repetition|insertion|a part|"
    "which scramble|step or scramble|signs|another attempt"
).split("|")


class AttemptDoubt(NamedTuple):
    """What makes one doubt that an attempt is read as it was meant."""

    reason: str
    """"another scramble", "several solutions", "side", "letters", "small letters", "comment", "repetition",
    "insertion", "step or scramble", "signs", or of a check "a part", "which scramble" or "another attempt"."""
    place: TextPlace
    """Where it is seen in the text."""


class AttemptCandidate(NamedTuple):
    """A way that was tried."""

    steps: Tuple[PlainLine, ...]
    """Its lines."""
    solution: PlainLine
    """The steps in one."""
    note: str
    """What is said of it on lines of their own, else the label of a solution."""


class Attempt(NamedTuple):
    """An attempt at a scramble, each part with its places in the whole text."""

    name: str
    """What tells the scramble from others, such as `2.`, or empty."""
    scramble: PlainLine
    steps: Tuple[PlainLine, ...]
    """The lines of the solution, each of which a comment or a label may describe."""
    solution: Optional[PlainLine]
    """The block whose label says that it is the solution, else the steps in one. None if it can't be told, or if there
    is none."""
    candidates: Tuple[AttemptCandidate, ...]
    """The blocks after a blank line."""
    before: int
    """How many lines of prose stand before the scramble."""
    doubt: Optional[AttemptDoubt] = None
    """What makes one doubt the reading if the solution doesn't solve the scramble, "step or scramble" also if it does,
    or None."""
    is_labelled: bool = False
    """Whether a label such as `Solution:` calls the solution so: else it may be an attempt that was given up."""


NOTHING = PlainLine("", (), ())
# the steps of a group, and all in one
_Joined = Tuple[Tuple[PlainLine, ...], PlainLine]
_NONE: _Joined = ((), NOTHING)
# the steps, the solution and the candidates of an attempt
_AfterScramble = Tuple[Tuple[PlainLine, ...], Optional[PlainLine], Tuple[AttemptCandidate, ...]]


class Moves:
    """The moves of those lines of a text that are wanted, written one after another."""

    def __init__(self, whole: Written, written: WrittenLine, nth: Sequence[int], parts: bytes) -> None:
        # how many lines before each one of the text, and before its end, are wanted
        self.nth = nth
        # where the moves of each of them stand, with the library's number for what it leaves out
        numbers = memoryview(parts).cast("Q")
        self._begins, self._ends = (numbers[at :: _PART // 8].tolist() for at in range(2))
        self._left_out, self._cut = parts[_LEFT_OUT_AT::_PART], Cuts(whole, written).cut

    def of_line(self, line: int) -> PlainLine:
        """Returns the moves of one of those lines."""
        nth = self.nth[line]
        return self._cut(self._begins[nth], self._ends[nth], self._left_out[nth])

    def of(self, begin: int, end: int) -> PlainLine:
        """Returns the moves of the lines from one to another as one line."""
        first, last = self.nth[begin], self.nth[end] - 1
        if first > last:
            return NOTHING
        left_out = self._left_out[first]
        if first < last:
            left_out = reduce(or_, self._left_out[first : last + 1])
        return self._cut(self._begins[first], self._ends[last], left_out)


class Reader:
    """A text that is read by lines."""

    def __init__(self, whole: Written, tell: Callable[..., Any] = _library.nissy_text_lines) -> None:
        self.whole, self.data = whole, whole.data
        most = self.data.count(b"\n") + self.data.count(b"\r") + 1
        # the library reads the lines there again
        self._room = bytearray(TEXT_LINE.size * most)
        self.address = ctypes.addressof(ctypes.c_char.from_buffer(self._room))
        self.answer = tell(self.data, len(self.data), self.address, most)
        self.count = self.answer.lines
        self._told = memoryview(self._room)[: TEXT_LINE.size * self.count]
        self._kinds, self._are_solution, self._are_headed, self._are_labelled, self._doubts = (
            bytes(self._told[at :: TEXT_LINE.size]) for at in _BYTES
        )
        self._numbers = self._told.cast("Q")
        self._group = self._numbers[_GROUP::_NUMBERS].__getitem__
        self._of_scramble, self._of_steps = self._moves(_OF_SCRAMBLE, SCRAMBLE), self._moves(_OF_STEPS, STEP)
        # of each step its line, whether it is of the solution, and its group, which never falls within an attempt
        are_steps = self._kinds.translate(_IS_OF[STEP])
        self._steps_at = [*compress(range(self.count), are_steps)]
        self._told_steps = bytes(compress(self._are_solution, are_steps))
        self._groups = [*compress(self._numbers[_GROUP::_NUMBERS].tolist(), are_steps)]

    def _words(self, line: int, begin: int, end: int) -> str:
        """Returns what stands in a line from one of its places to another."""
        first = _NUMBERS * line
        return self.whole.words(self._numbers[first + begin], self._numbers[first + end])

    def attempts(self) -> List[Tuple[int, int]]:
        """Returns from which line to which each attempt reaches that has a scramble."""
        numbers = self._numbers[_ATTEMPT::_NUMBERS].tolist()
        firsts = (at for at, is_first in enumerate(map(ne, numbers, numbers[1:]), 1) if is_first)
        begins = [0, *firsts, self.count]
        return [it for it in zip(begins, begins[1:]) if self._kinds.find(SCRAMBLE, *it) >= 0]

    def _moves(self, which: int, kind: int) -> Moves:
        """Returns the moves of all lines of a kind, which the library writes by this number."""
        nth = [0, *accumulate(self._kinds.translate(_IS_OF[kind]))]
        room = bytearray(_PART * nth[-1] or 1)
        parts = (ctypes.addressof(ctypes.c_char.from_buffer(room)), nth[-1])
        written = written_by(
            3 * (len(self.data) + self.count),
            lambda *rooms: _library.nissy_text_moves(
                self.data, len(self.data), self.address, self.count, which, *rooms, *parts
            ),
        )
        return Moves(self.whole, written, nth, bytes(room[: _PART * nth[-1]]))

    def _note(self, line: int) -> str:
        """Returns what a line without moves says: its label, if nothing follows that, else all of it."""
        first = _NUMBERS * line
        is_labelled = self._numbers[first + _LABEL_BEGIN] < self._numbers[first + _LABEL_END]
        if is_labelled and not self._words(line, _MOVES, _END):
            return self._label(line)
        said = self._words(line, _HEAD_END, _END)
        return said[2:].strip(WHITE) if said.startswith("//") else said

    def _label(self, line: int) -> str:
        return self._words(line, _LABEL_BEGIN, _LABEL_END)

    def _steps(self, lines: Sequence[int]) -> Tuple[PlainLine, ...]:
        return tuple(map(self._of_steps.of_line, lines))

    def _joined(self, lines: Sequence[int]) -> _Joined:
        """Returns the moves of the steps of a group, and all in one: no other step stands among them."""
        steps = self._steps(lines)
        return steps, steps[0] if len(steps) == 1 else self._of_steps.of(lines[0], lines[-1] + 1)

    def _candidates(self, begin: int, end: int, told: Sequence[int], made: _Joined) -> Iterator[AttemptCandidate]:
        """Returns the groups of an attempt that have steps, but the first one. What is made already is of the steps
        that are told."""
        first, last = self._of_steps.nth[begin], self._of_steps.nth[end]
        is_said = _NOTE in self._kinds[begin:end] or 1 in self._are_labelled[begin:end]
        while first < last:
            group = self._groups[first]
            next_one = bisect_right(self._groups, group, first, last)
            own = self._steps_at[first:next_one]
            if group > 0:
                every, solution = made if own == told else self._joined(own)
                # a group's other lines are between the steps of the groups before it and after it
                after = self._steps_at[next_one] if next_one < last else end
                said = self._said_of(group, begin, after) if is_said else ""
                yield value_of(AttemptCandidate, (every, solution, said))
            begin, first = own[-1], next_one

    def _said_of(self, group: int, begin: int, end: int) -> str:
        """Returns what is said of a group on lines of its own among some, else its label that says that the solution
        follows."""
        kinds, are_labelled = self._kinds, self._are_labelled
        own = [at for at in range(begin, end) if kinds[at] >= STEP and self._group(at) == group]
        note = " ".join([self._note(at) for at in own if kinds[at] == _NOTE])
        return note or next((self._label(at) for at in own if are_labelled[at]), "")

    def _after_scramble(self, begin: int, end: int) -> _AfterScramble:
        """Returns the steps, the solution and the candidates of an attempt that has steps."""
        first, last = self._of_steps.nth[begin], self._of_steps.nth[end]
        every = self._steps_at[first:last]
        told = [*compress(every, self._told_steps[first:last])]
        has_groups = self._groups[last - 1] > 0
        under = every[: self._groups[first:last].count(0)] if has_groups else every
        made = self._joined(told) if told else _NONE
        steps = made[0] if not under or under == told else self._steps(under)
        candidates = tuple(self._candidates(begin, end, told, made)) if has_groups else ()
        return steps, made[1] if told else None, candidates

    def attempt(self, begin: int, end: int) -> Attempt:
        """Returns the attempt that the lines from one to another are, in the doubt of its first line that has one."""
        doubts = self._doubts[begin:end].lstrip(b"\0")
        doubt = self.doubt(doubts[0], self._numbers[_NUMBERS * (end - len(doubts)) + _DOUBT_AT]) if doubts else None
        headed, before = self._are_headed.find(1, begin, end), self._kinds.count(_BEFORE, begin, end)
        scramble = self._of_scramble.of(begin, end)
        # the first head
        name = self._words(headed, _BEGIN, _HEAD_END) if headed >= 0 else ""
        if self._kinds.find(STEP, begin, end) < 0:
            return value_of(Attempt, (name, scramble, (), None, (), before, doubt, False))
        steps, solution, candidates = self._after_scramble(begin, end)
        labels = map(and_, self._are_solution[begin:end], self._are_labelled[begin:end])
        is_labelled = solution is not None and any(labels)
        return value_of(Attempt, (name, scramble, steps, solution, candidates, before, doubt, is_labelled))

    def doubt(self, number: int, byte: int) -> AttemptDoubt:
        """Returns a doubt by the library's number, which is seen at a byte of the text."""
        return value_of(AttemptDoubt, (_DOUBTS[number], self.whole.place_of_byte(byte)))


def read_attempts(text: Text) -> Sequence[Attempt]:
    """The attempts of a text as solvers write it, at least one, each made when it is asked for: a scramble, then the
    steps of its solution, each on a line with a comment or a label, and blocks of candidates after blank lines; and the
    same of several numbered scrambles. A text of another form is one scramble."""
    reader = Reader(Written(text))
    attempts = reader.attempts() or [(0, 0)]
    return Lazily(len(attempts), lambda at: reader.attempt(*attempts[at]))

"""Searches of lines, by tables that stay."""
from __future__ import annotations

import ctypes
from itertools import chain, compress, repeat
from typing import Any, Dict, Iterable, Iterator, List, Optional, Tuple, Union, overload

from . import _library, _rooms
from ._given import Partial, Progress, Step, Text, bytes_of, number_of
from ._library import CUT, DONE, FAULT, NOT_START, ROOM, SEARCH_ANSWER, USAGE
from ._lines import MOST_WORD, fault_of, fault_text, start_of
from ._many import Asking, Piece, in_pieces, one_by_one
from ._places import place_of
from ._sides import Sides, sides_of, solve_sides
from ._values import Count, Cut, Fault, Solution, Solutions, StartFault, counted, value_of

MOST_TURNS = 20
# A piece of solutions that are asked for one after another has this many at most, and is found by looks at this many
# positions or fewer, if it has any: that takes some milliseconds, and in between Python hears of signals.
_MOST_OF_PIECE, _NODES_OF_PIECE = 4096, 1 << 20
# what stands after a solution of each length
_ENDS = ("(0)\n", *(f" ({length})\n" for length in range(1, MOST_TURNS + 1)))


# where an answer has the length of the shortest, and whether there are more, in bytes, and two other numbers, in words
# of eight bytes
_LEAST, _MORE, _SOLUTIONS, _NODES = 2, 3, 2, 3
# the numbers of a search as the library takes them: limit, slack, most solutions and most nodes
_Numbers = Tuple[int, int, int, int]


class _Search:
    """Searches of a step, by its tables. These are built when they are first needed in a process, once for each step,
    and stay until it ends. Any threads may ask at the same time."""

    __slots__ = ("step", "_kept", "_tables")

    def __init__(self, step: Step) -> None:
        place = place_of(step)
        self._kept = place.built()
        self._tables = ctypes.addressof(self._kept)
        self.step: Step = place.step

    def solve(self, numbers: _Numbers, partial: bool, data: bytes) -> Solutions:
        room = _rooms.take()
        answer = _library.nissy_solve(self._tables, data, len(data), *numbers, room.address, room.size)
        out = room.memory[: answer.length]
        _rooms.put_back(room)
        # it stopped as soon as the room was full
        while answer.status == ROOM:
            room = _rooms.larger(room)
            answer = _library.nissy_solve(self._tables, data, len(data), *numbers, room.address, room.size)
            out = room.memory[: answer.length] if answer.status != ROOM else b""
        status = answer.status
        if status and status != CUT:
            raise self._fault(status, answer.fault, answer.column, data)
        found = _solutions(out.decode("ascii"), answer.least)
        found.nodes = answer.nodes
        if answer.more:
            found.more, found.cut = True, status == CUT
            if status and not partial:
                raise Cut(counted(answer.least, len(found), found.nodes, True, True), found)
        return found

    def solve_on(self, sides: Sides, numbers: _Numbers, partial: bool, data: bytes) -> Solutions:
        found, answer = solve_sides(self._tables, sides_of(sides), numbers, data)
        if answer.status not in (DONE, CUT):
            raise self._fault(answer.status, answer.fault, answer.column, data)
        if found.cut and not partial:
            raise Cut(counted(found[0].length if found else 0, len(found), found.nodes, True, True), found)
        return found

    def pieces(self, limit: int, slack: int, data: bytes, after: Optional[bytes]) -> Iterator[Solutions]:
        """Yields the solutions of a line in pieces, each of those after the last one of the piece before, and the
        first of those after the moves that are given, if any are."""
        nodes, last = _NODES_OF_PIECE, after
        while True:
            found = self._after(last, (limit, slack, _MOST_OF_PIECE, nodes), data)
            yield found
            if not found.more:
                return
            # nothing was found before the cut
            nodes = _NODES_OF_PIECE if found else min(2 * nodes, MOST_WORD)
            last = found[-1].encode() if found else last

    def _after(self, last: Optional[bytes], numbers: _Numbers, data: bytes) -> Solutions:
        """Returns the solutions of a line after one of them, or from the first on: no more
        than an ordinary room holds."""
        room = _rooms.take()
        if last is None:
            answer = _library.nissy_solve(self._tables, data, len(data), *numbers, room.address, room.size)
        else:
            answer = _library.nissy_solve_after(
                self._tables, data, len(data), last, len(last), *numbers, room.address, room.size
            )
        out = room.memory[: answer.length]
        _rooms.put_back(room)
        if answer.status == USAGE:
            raise ValueError("after is no sequence of face turns")
        if answer.status and answer.status != CUT:
            raise self._fault(answer.status, answer.fault, answer.column, data)
        found = _solutions(out.decode("ascii"), answer.least)
        found.more = bool(answer.more)
        return found

    def count(self, numbers: _Numbers, partial: bool, data: bytes) -> Count:
        answer = _library.nissy_count(self._tables, data, len(data), *numbers)
        status = answer.status
        if status and status != CUT:
            raise self._fault(status, answer.fault, answer.column, data)
        count = counted(answer.least, answer.solutions, answer.nodes, answer.more, status == CUT)
        if status and not partial:
            raise Cut(count)
        return count

    def told_of(self, numbers: _Numbers, piece: Piece) -> bytes:
        """Returns what the library says of each line of a piece."""
        room, size = _rooms.take(), SEARCH_ANSWER.size * len(piece.lines)
        _library.nissy_count_lines(self._tables, piece.text, len(piece.text), *numbers, room.address, len(piece.lines))
        told = room.memory[:size]
        _rooms.put_back(room)
        return told

    def counts(self, partial: bool, piece: Piece, told: bytes) -> Iterable[Union[Count, Fault, Cut]]:
        """Returns the counts of a piece's lines, or why there are none."""
        size = SEARCH_ANSWER.size
        words = memoryview(told).cast("Q")
        found = words[_SOLUTIONS :: size // 8].tolist()
        # of most pieces: no line of Python is run for a count
        if told[::size].count(DONE) == len(found) and 0 not in found:
            numbers = zip(told[_LEAST::size], found, words[_NODES :: size // 8], repeat(False))
            made: Iterable[Count] = map(value_of, repeat(Count), numbers)
            counts = list(made)
            for count in compress(counts, told[_MORE::size]):
                count.more = True
            return counts
        answers = enumerate(SEARCH_ANSWER.iter_unpack(told))
        return [
            counted(least, found, nodes, more, False)
            if not status
            else self._not_counted(partial, piece, at, (status, fault, least, column, found, nodes))
            for at, (status, fault, least, more, column, _, found, nodes) in answers
        ]

    def _not_counted(self, partial: bool, piece: Piece, at: int, told: Tuple[int, ...]) -> Union[Count, Fault, Cut]:
        """Returns what is said of a line that wasn't counted to the end."""
        status, fault, least, column, found, nodes = told
        number, data = piece.line(at)
        if status != CUT:
            return self._fault(status, fault, column, data, number)
        count = counted(least, found, nodes, True, True)
        return count if partial else Cut(count, (), number)

    def _fault(self, status: int, fault: int, column: int, data: bytes, line: Optional[int] = None) -> Fault:
        """Returns what a search told of a line in place of an answer."""
        if status == FAULT and fault == NOT_START:
            start = start_of(self.step)
            return StartFault(self.step, start, f"{start} {fault_text(NOT_START)}", line)
        return fault_of(status, fault, column, data, line)


def _solutions(text: str, length: int) -> Solutions:
    """Returns the solutions of a text in which each stands on a line with its length in brackets. The
    first ones have this length."""
    if not text:
        return Solutions()
    # all of a length are cut at once: line by line that takes twice the time
    moves = text.split(_ENDS[length])
    text = moves.pop()
    found = Solutions(map(Solution, moves))
    while text:
        length += 1
        moves = text.split(_ENDS[length])
        text = moves.pop()
        found += map(Solution, moves)
    return found


def _numbers(limit: int, slack: int, most: Optional[int], nodes: Optional[int]) -> _Numbers:
    """Returns the numbers of a search, checked. The library's own greatest number stands for all solutions,
    and for any number of nodes."""
    return (
        number_of(limit, "the limit", MOST_TURNS),
        number_of(slack, "the slack", MOST_TURNS),
        MOST_WORD if most is None else number_of(most, "most", MOST_WORD),
        MOST_WORD if nodes is None else number_of(nodes, "nodes", MOST_WORD),
    )


_last: Dict[str, _Search] = {}


def _search(step: Step) -> _Search:
    """Returns the searches of a step, those of the last call if there was one."""
    try:
        return _last[step]
    except (KeyError, TypeError):
        search = _Search(step)
        return _last.setdefault(search.step, search)


def solve(
    step: Step,
    line: Text,
    limit: int = 20,
    slack: int = 0,
    most: Optional[int] = None,
    nodes: Optional[int] = None,
    partial: bool = False,
    *,
    sides: Optional[Sides] = None,
) -> Solutions:
    """The solutions of a line: those that have at most `limit` turns and at most `slack` more than the shortest, by
    length and then in turn order, as `nissy near` writes them (`nissy solve` with slack 0). With `most` no more
    than that many of them, and the search ends at the next one. With `nodes` the search looks at no more than that many
    positions: if it would look at more, Cut is raised, or with `partial` what was found until then is returned. They
    name moves by the centres: after a line with rotations, slices or wide turns they follow `line_after(line)`.

    With `sides` "inverse" or "both" they are on the inverse of the line, or over both: those on the inverse stand in
    brackets, such as "R U (F)", and of `length` both count. These, and those of "normal", are the ones whose first
    turns don't reach the step, by length, then by how many turns are outside brackets, then in turn order.
    Raises LineFault, StartFault and Cut.
    """
    search, numbers, data = _search(step), _numbers(limit, slack, most, nodes), bytes_of(line, "the line")
    return search.solve(numbers, partial, data) if sides is None else search.solve_on(sides, numbers, partial, data)


def solutions(
    step: Step, line: Text, *, limit: int = 20, slack: int = 0, after: Optional[Text] = None
) -> Iterator[Solution]:
    """The solutions of a line one after another, those of `solve` in the same order; with `after`, the solution at
    which one left off, only those after it. The library is asked for them in pieces, so millions of them take no
    memory, and Ctrl-C is heard. Raises LineFault and StartFault as it is called, and ValueError if `after` has other
    moves than turns of a face."""
    search, data = _search(step), bytes_of(line, "the line")
    most_turns, longer = number_of(limit, "the limit", MOST_TURNS), number_of(slack, "the slack", MOST_TURNS)
    pieces = search.pieces(most_turns, longer, data, None if after is None else bytes_of(after, "after"))
    # the first piece tells what is wrong with the line
    return chain.from_iterable(chain((next(pieces),), pieces))


def count(
    step: Step,
    line: Text,
    limit: int = 20,
    slack: int = 0,
    most: Optional[int] = None,
    nodes: Optional[int] = None,
    partial: bool = False,
) -> Count:
    """How many solutions `solve` returns of a line, of which length the shortest are, and how many positions the search
    looks at. With `most=1` it ends at the second one, and with `most=0` at the first, which isn't counted: so it finds
    the length soonest. Takes `nodes` and `partial` as `solve` does. Raises LineFault, StartFault and Cut."""
    search = _search(step)
    return search.count(_numbers(limit, slack, most, nodes), partial, bytes_of(line, "the line"))


@overload
def solve_all(
    step: Step,
    lines: Iterable[Text],
    limit: int = 20,
    slack: int = 0,
    most: Optional[int] = None,
    nodes: Optional[int] = None,
    *,
    partial: Partial,
    threads: int = 1,
    progress: Optional[Progress] = None,
) -> Iterator[Union[Solutions, Fault]]:
    ...


@overload
def solve_all(
    step: Step,
    lines: Iterable[Text],
    limit: int = 20,
    slack: int = 0,
    most: Optional[int] = None,
    nodes: Optional[int] = None,
    partial: bool = False,
    threads: int = 1,
    progress: Optional[Progress] = None,
) -> Iterator[Union[Solutions, Fault, Cut]]:
    ...


def solve_all(
    step: Step,
    lines: Iterable[Text],
    limit: int = 20,
    slack: int = 0,
    most: Optional[int] = None,
    nodes: Optional[int] = None,
    partial: bool = False,
    threads: int = 1,
    progress: Optional[Progress] = None,
) -> Iterator[Union[Solutions, Fault, Cut]]:
    """The solutions of each line in turn, as `solve` returns them; of a line for which `solve` raises, what it raises,
    with the line's number, from 1, as `line` (`raising` raises it). A line is taken from the iterable when its answer
    is asked for. With `threads` that many lines are asked side by side, and more are taken ahead; the answers come in
    the same order. `progress` is called as by `count_all`."""
    search, numbers = _search(step), _numbers(limit, slack, most, nodes)

    def ask(number: int, data: bytes) -> Union[Solutions, Fault, Cut]:
        try:
            return search.solve(numbers, partial, data)
        except (Fault, Cut) as fault:
            fault.line = number
            return fault.with_traceback(None)

    return one_by_one(lines, ask, threads, progress)


@overload
def count_all(
    step: Step,
    lines: Iterable[Text],
    limit: int = 20,
    slack: int = 0,
    most: Optional[int] = None,
    nodes: Optional[int] = None,
    *,
    partial: Partial,
    threads: int = 1,
    progress: Optional[Progress] = None,
) -> Iterator[Union[Count, Fault]]:
    ...


@overload
def count_all(
    step: Step,
    lines: Iterable[Text],
    limit: int = 20,
    slack: int = 0,
    most: Optional[int] = None,
    nodes: Optional[int] = None,
    partial: bool = False,
    threads: int = 1,
    progress: Optional[Progress] = None,
) -> Iterator[Union[Count, Fault, Cut]]:
    ...


def count_all(
    step: Step,
    lines: Iterable[Text],
    limit: int = 20,
    slack: int = 0,
    most: Optional[int] = None,
    nodes: Optional[int] = None,
    partial: bool = False,
    threads: int = 1,
    progress: Optional[Progress] = None,
) -> Iterator[Union[Count, Fault, Cut]]:
    """How many solutions each line has in turn, as `count` returns it; of a line for which `count` raises, what it
    raises, with the line's number, from 1, as `line` (`raising` raises it). Lines are taken from the iterable in
    pieces, the first of one line and later ones of up to 16,384, which the library counts in one call each. With
    `threads` that many pieces are counted side by side; the answers come in the same order. `progress` is called
    between pieces, in the thread that takes the answers, with how many lines are done, and of how many, None until that
    is known; what it raises ends the call."""
    search, numbers = _search(step), _numbers(limit, slack, most, nodes)

    def counts(piece: Piece, told: bytes) -> Iterable[Union[Count, Fault, Cut]]:
        return search.counts(partial, piece, told)

    return in_pieces(lines, Asking(lambda piece: search.told_of(numbers, piece), counts), threads, progress)

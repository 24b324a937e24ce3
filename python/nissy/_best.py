"""The best ways on from a scramble and the moves so far to a domino reduction, and the line of the cube at which they
begin."""
from __future__ import annotations

from typing import Iterable, Iterator, Optional, Union, overload

from . import _library, _rooms
from ._continuations import Continuations
from ._given import Partial, Progress, Stop, Text, bytes_of, function_of, number_of
from ._library import DONE, LINE_ROOM
from ._lines import MOST_WORD
from ._many import one_by_one
from ._values import Count, Cut, Fault
from ._ways import MOST_TURNS, Wanted, fault_on, found


def _wanted(slack: int, most: Optional[int], nodes: Optional[int]) -> Wanted:
    """Returns the numbers of a search, checked."""
    return Wanted(
        number_of(slack, "the slack", MOST_TURNS),
        MOST_WORD if most is None else number_of(most, "most", MOST_WORD),
        MOST_WORD if nodes is None else number_of(nodes, "nodes", MOST_WORD),
    )


def _untold(_done: int, _all: Optional[int]) -> None:
    """Tells nobody."""


def _never() -> bool:
    """Ends no search."""
    return False


def _told(rows: Continuations, partial: bool, number: Optional[int] = None) -> Union[Continuations, Cut]:
    """Returns what was found, or if that may not be cut, the cut, of one of many lines by its number."""
    return Cut(Count(None, 0, rows.nodes, True), line=number) if rows.cut and not partial else rows


def line_after(scramble: Text, so_far: Text = "") -> str:
    """The line of the cube at which a solver stands after a scramble and the moves so far, for `facts`, `solve` and the
    other calls on one line: clean face turns, named by the centres, with the moves in brackets inverted before the
    scramble. They name the faces as the moves outside brackets leave the cube, as `best` reads them. The `invert` of
    the line is that of the inverse side.

    Raises LineFault with `line` 1 for the scramble and 2 for the moves so far, and Fault if both have too many moves
    together."""
    lines = one, other = bytes_of(scramble, "the scramble"), bytes_of(so_far, "the line so far")
    room = _rooms.take()
    answer = _library.nissy_line_after(one, len(one), other, len(other), room.address, LINE_ROOM)
    text = str(room.memory[: answer.length], "ascii")
    _rooms.put_back(room)
    if answer.status != DONE:
        raise fault_on(answer, lines)
    return text


def best(
    scramble: Text,
    so_far: Text = "",
    *,
    slack: int = 0,
    most: Optional[int] = 20,
    nodes: Optional[int] = None,
    partial: bool = False,
    progress: Optional[Progress] = None,
    stop: Optional[Stop] = None,
) -> Continuations:
    """What may follow a scramble and the moves so far, the best first, up to a domino reduction: each orientation on
    three axes, over both sides, and after it the reduction on each of two axes with the fewest moves in all, over both
    sides too. An orientation is let in if it is at most `slack` moves longer than the shortest of its kind: on the
    scramble, on its inverse, or over both; those that differ only in the direction of their last quarter turns are
    one. If an orientation holds, the reductions, let in alike; if a reduction is reached, nothing.

    Moves of `so_far` in brackets are made on the inverse side. All moves count, those so far too, once they are merged
    on each side. The order is by these, then by the moves of the first step, then by the pieces of the case. No more
    than `most` are returned, or all if it is None. Each unit of slack makes this many times as long and as large.

    With `nodes` the search looks at no more than that many positions: if these may not be enough, Cut is raised, or
    with `partial` the best of what was tried until then is returned, whose `cut` is true.
    The search goes in pieces, of one length of the first step and one axis each. `progress` is called before each, and
    at the end, with how many ways were tried, and of how many, None until that is known. `stop` is asked before each
    whether to end, such as the `is_set` of an Event: if it returns true, the call ends as one that is cut. With a slack
    of 3 a piece may take some seconds. What either raises ends the call.

    Raises LineFault with `line` 1 for the scramble and 2 for the moves so far, Fault if both have too
    many moves together, and Cut."""
    lines = bytes_of(scramble, "the scramble"), bytes_of(so_far, "the line so far")
    follow, ends = function_of(progress, "the progress") or _untold, function_of(stop, "the stop") or _never
    told = _told(found(lines, _wanted(slack, most, nodes), follow, ends), partial)
    if isinstance(told, Cut):
        raise told
    return told


@overload
def best_all(
    scrambles: Iterable[Text],
    *,
    slack: int = 0,
    most: Optional[int] = 20,
    nodes: Optional[int] = None,
    partial: Partial,
    threads: int = 1,
    progress: Optional[Progress] = None,
    stop: Optional[Stop] = None,
) -> Iterator[Union[Continuations, Fault]]:
    ...


@overload
def best_all(
    scrambles: Iterable[Text],
    *,
    slack: int = 0,
    most: Optional[int] = 20,
    nodes: Optional[int] = None,
    partial: bool = False,
    threads: int = 1,
    progress: Optional[Progress] = None,
    stop: Optional[Stop] = None,
) -> Iterator[Union[Continuations, Fault, Cut]]:
    ...


def best_all(
    scrambles: Iterable[Text],
    *,
    slack: int = 0,
    most: Optional[int] = 20,
    nodes: Optional[int] = None,
    partial: bool = False,
    threads: int = 1,
    progress: Optional[Progress] = None,
    stop: Optional[Stop] = None,
) -> Iterator[Union[Continuations, Fault, Cut]]:
    """What may follow each scramble in turn, as `best` returns it; of one for which `best` raises, what it raises, with
    the line's number, from 1, as `line` (`raising` raises it). Takes scrambles, threads and `progress` as `solve_all`
    does; `nodes` is for each scramble anew. By four threads a list takes a fourth of the time on four processors.
    `stop` is asked by each thread as `best` asks: once it returns true, what isn't found is cut."""
    wanted, ends = _wanted(slack, most, nodes), function_of(stop, "the stop") or _never

    def ask(number: int, scramble: bytes) -> Union[Continuations, Fault, Cut]:
        try:
            return _told(found((scramble, b""), wanted, _untold, ends), partial, number)
        except Fault as fault:
            # it is one of many lines, and not one of two
            fault.line, fault.part = number, ""
            return fault.with_traceback(None)

    return one_by_one(scrambles, ask, threads, progress)

"""The calls on one line, and those that take no line: scrambles, steps and texts."""
from __future__ import annotations

from functools import lru_cache
from typing import Any, Callable, List, Optional, Tuple

from . import _library, _rooms
from ._given import Step, Text, bytes_of, number_of
from ._library import DONE, FAULT, LINE_ROOM, MOST_INPUT
from ._values import Fault, LineFault

MOST_WORD = 2**64 - 1
"""The greatest number of 64 bits."""

_MOST_LENGTH = 256


def _written(call: Callable[..., Any], data: bytes, *given: Any) -> str:
    """Returns what a call writes, of the bytes `data` or without a line, that has a room of LINE_ROOM
    for its text. Raises Fault."""
    room = _rooms.take()
    answer = call(*given, room.address, LINE_ROOM)
    text = room.memory[: answer.length] if answer.status == DONE else b""
    _rooms.put_back(room)
    if answer.status:
        raise fault_of(answer.status, answer.fault, answer.column, data)
    return text.decode("ascii")


def fault_of(status: int, fault: int, column: int, data: bytes, line: Optional[int] = None) -> Fault:
    """Returns what a call told of a line in place of an answer. The line is these bytes, and has this
    number if it is one of many."""
    if status != FAULT:
        return Fault(f"a line has at most {MOST_INPUT:,} bytes", line)
    # what stands before a fault spells moves, so it can be read
    character = column if data.isascii() else len(data[: column - 1].decode("utf-8", "replace")) + 1
    return LineFault(column, fault_text(fault), line, character)


@lru_cache(maxsize=None)
def fault_text(fault: int) -> str:
    return _written(_library.nissy_fault_text, b"", fault)


def _of_line(call: Callable[..., Any], line: Text) -> str:
    """Returns what a call writes of a line. Raises LineFault."""
    data = bytes_of(line, "the line")
    return _written(call, data, data, len(data))


def invert(line: Text) -> str:
    """The inverse of a line's moves. Raises LineFault."""
    return _of_line(_library.nissy_invert, line)


def unniss(line: Text) -> str:
    """A line's moves as one sequence: those in brackets inverted at the end. Raises LineFault."""
    return _of_line(_library.nissy_unniss, line)


def cleanup(line: Text) -> str:
    """A line's moves without wide turns, slices and neighbours that join. Raises LineFault."""
    return _of_line(_library.nissy_cleanup, line)


def facelets(line: Text) -> str:
    """The 54 facelet letters of the cube after a line's moves, as `nissy print` shows them. Raises LineFault."""
    return _of_line(_library.nissy_facelets, line)


def drawing(state: int, stream: int, length: int) -> Tuple[int, int, int]:
    """Returns the numbers by which scrambles are drawn, checked."""
    return (
        number_of(state, "the state", MOST_WORD),
        number_of(stream, "the stream", MOST_WORD),
        number_of(length, "the length", _MOST_LENGTH),
    )


def scramble(state: int, stream: int, length: int) -> str:
    """The first scramble of `length` turns by the generator that begins with this state and stream:
    what `scrambles` begins with."""
    return _written(_library.nissy_scramble, b"", *drawing(state, stream, length))


def steps() -> List[Step]:
    """The names of the steps."""
    names: List[Any] = _written(_library.nissy_steps, b"").splitlines()
    return names


def start_of(step: str) -> str:
    """Returns the step that must hold before this one may start, or nothing."""
    name = step.encode()
    return _written(_library.nissy_start, b"", name, len(name))


def version() -> str:
    """Returns the library's version, as "1.2.0"."""
    number: int = _library.nissy_version()
    return f"{number // 10000}.{number // 100 % 100}.{number % 100}"

"""Runs: what the program does with words and an input."""
from __future__ import annotations

import ctypes
from typing import Iterable, List, Optional

from . import _library, _rooms
from ._given import Text, bytes_of, each_of, number_of
from ._library import DONE, ERROR_ROOM
from ._lines import drawing
from ._rooms import Room
from ._values import Answer

_MOST_SCRAMBLES = 10_000
_MOST_ROOM = 2**63 - 1
# what writes solutions, of which there can be any number
_SEARCHES = (b"solve\0", b"near\0")
# of an input of this many bytes no other command but `scramble` writes more than an ordinary room
# holds: 106 bytes for each line
_SHORT = 8192


def _joined(words: Iterable[Text]) -> bytes:
    """Returns words as the library takes them, each with a zero byte after it."""
    listed = [bytes_of(word, "a word") for word in each_of(words, "the words")]
    if any(b"\0" in word for word in listed):
        raise ValueError("a word holds a zero byte")
    return b"".join(word + b"\0" for word in listed)


class _Run:
    def __init__(self, room: Room, words: bytes, data: bytes) -> None:
        self._room, self._err = room, ctypes.create_string_buffer(ERROR_ROOM)
        self._told = _library.nissy_run(
            words, len(words), data, len(data), room.address, room.size, ctypes.addressof(self._err), ERROR_ROOM
        )
        self.full = bool(self._told.out_too_small)

    def answer(self) -> Answer:
        """Returns the answer, with the output copied from the room."""
        told = self._told
        return Answer(told.status, self._room.memory[: told.out_length], self._err.raw[: told.err_length], self.full)


def _answer(words: bytes, data: bytes) -> Answer:
    """Returns the answer of a run that has room enough: an ordinary room, or a larger one if
    the output may well need it."""
    room = _rooms.take()
    if not words.startswith(_SEARCHES) and len(data) <= _SHORT:
        answer = _Run(room, words, data).answer()
        if not answer.full:
            _rooms.put_back(room)
            return answer
    _rooms.put_back(room)
    room = _rooms.larger(room)
    made = _Run(room, words, data)
    while made.full:
        room = _rooms.larger(room)
        made = _Run(room, words, data)
    return made.answer()


def run(words: Iterable[Text], data: Text = b"", room: Optional[int] = None) -> Answer:
    """Does what the program does with these words after its name and `data` as its input.

    A word or an input that is a string is read as UTF-8. If the room is too small for the output, the run is made again
    with eight times as much. With `room` the run is made once, with room for that many bytes, and `full` says whether
    these were too few. Raises MemoryError if there is no room for the output. If there is none for the words or tables,
    the status is 3, as the program's.
    """
    joined, given = _joined(words), bytes_of(data, "the input")
    if room is None:
        return _answer(joined, given)
    return _Run(Room(number_of(room, "the room", _MOST_ROOM)), joined, given).answer()


def scrambles(state: int, stream: int, length: int, count: int) -> List[str]:
    """`count` scrambles of `length` turns each, at most 10,000, all by the generator that begins with this state and
    stream, as the program makes them. These are random moves, not random states."""
    numbers = (*drawing(state, stream, length), number_of(count, "the count", _MOST_SCRAMBLES))
    answer = run(["scramble", *map(str, numbers)])
    if answer.status != DONE:
        # by numbers in their ranges nothing else can go wrong
        raise MemoryError("no memory for the scrambles")
    return answer.out.decode("ascii").splitlines()

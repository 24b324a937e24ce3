"""Rooms: memory that calls of the library write to."""
from __future__ import annotations

import ctypes
import mmap
import sys
from typing import List

ORDINARY = 1 << 20
"""The bytes of an ordinary room."""

_GROWTH = 8
# this many ordinary rooms are kept at most for the next calls
_MOST_KEPT = 16
_kept: List[Room] = []


def _memory(size: int) -> mmap.mmap:
    """Returns new memory, which only this process has."""
    if sys.platform == "win32":
        return mmap.mmap(-1, size)
    # private, since a forked child shares the other kind with its parent
    return mmap.mmap(-1, size, flags=mmap.MAP_PRIVATE | mmap.MAP_ANONYMOUS)


class Room:
    """Memory of this many bytes. The system gives a page of it when that is first written to, so a large
    one costs what stands in it."""

    __slots__ = ("size", "memory", "address")

    def __init__(self, size: int) -> None:
        try:
            self.memory = _memory(max(size, 1))
        except (OSError, OverflowError):
            raise MemoryError(f"no room for {size:,} bytes of output") from None
        self.size = size
        self.address = ctypes.addressof(ctypes.c_char.from_buffer(self.memory))


def take() -> Room:
    """Returns an ordinary room for one call, which no other call has until it is put back: neither one of another
    thread, nor one that a signal handler makes meanwhile."""
    try:
        return _kept.pop()
    except IndexError:
        return Room(ORDINARY)


def put_back(room: Room) -> None:
    """Keeps an ordinary room for the next call. One that isn't put back is lost for that, and no more."""
    if len(_kept) < _MOST_KEPT:
        _kept.append(room)


def larger(room: Room) -> Room:
    """Returns a room for an output that this one was too small for: eight times as large, so that little is written
    twice, or half of that and so on, as the system grants it. A large room that was too small is given back before."""
    size, granted = room.size * _GROWTH, room.size
    if room.size > ORDINARY:
        del room.memory
    while True:
        try:
            return Room(size)
        except MemoryError:
            size //= 2
            if size <= granted:
                raise

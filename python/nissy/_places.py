"""Where the tables of the steps stand in this process, once they are built."""
from __future__ import annotations

import ctypes
import os
import sys
import threading
from typing import Any, Dict, Optional

from . import _library
from ._given import Step
from ._library import DONE, KeptTables
from ._lines import start_of as _start_of, steps


class Place:
    """Where the tables of one step stand, once they are built."""

    def __init__(self, step: Step) -> None:
        self.step: Step = step
        # a signal's handler, called while its own thread builds, builds tables of its own and doesn't wait without end
        self.lock = threading.RLock()
        self.tables: Optional[KeptTables] = None

    def built(self) -> KeptTables:
        """Returns the tables, which are built by the first call and stay: the library gives none back."""
        tables = self.tables
        if tables is None:
            with self.lock:
                tables = self.tables or self._build()
        return tables

    def _build(self) -> KeptTables:
        tables, name = KeptTables(), self.step.encode()
        if _library.nissy_build(ctypes.addressof(tables), name, len(name)) != DONE:
            raise MemoryError(f"no memory for the tables of {self.step}")
        self.tables = tables
        return tables


# one for each step, and no more, whatever names callers bring
_places: Dict[str, Place] = {name: Place(name) for name in steps()}


def _renew_locks() -> None:
    """Makes new locks in a forked child, where nobody is left to open one that another thread held.
    Tables that are whole stay."""
    for place in _places.values():
        place.lock = threading.RLock()


# Windows forks nothing
if sys.platform != "win32":
    os.register_at_fork(after_in_child=_renew_locks)


def place_of(step: Step) -> Place:
    given: object = step
    if not isinstance(given, str):
        raise TypeError(f"the step is a str, not {'None' if given is None else type(given).__name__}")
    if step not in _places:
        raise ValueError(f"no step has this name; the steps are {', '.join(_places)}")
    return _places[step]


def start_of(step: Step) -> Optional[Step]:
    """The step that has to hold before this one: the orientation that a reduction keeps, None before an orientation."""
    start: Any = _start_of(place_of(step).step)
    return start or None

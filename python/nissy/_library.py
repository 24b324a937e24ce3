"""The C library: where it is found, and its calls and structs, named as nissy.h and nissy_text.h do."""
from __future__ import annotations

import ctypes
import os
import struct
import sys
from typing import Any, Callable, Tuple

MOST_INPUT = 16_777_216
"""The most bytes of a line or of an input."""

DONE, FAULT, USAGE, STOPPED, ROOM, CUT = range(6)
"""The statuses: all is written; a line has a fault; the words are no command; the run could not go on. The
last two no caller of this module sees as numbers: the room of a call is too small, and a search would look at
more positions than it may."""

NOT_START = 6
"""The fault of a line on whose cube a step may not start. Those below it are faults of lines."""

LINE_ROOM = 2048
ERROR_ROOM = 128

_NUMBERS = {"1": ctypes.c_uint8, "2": ctypes.c_uint16, "4": ctypes.c_uint32, "8": ctypes.c_uint64}


def _struct(fields: str, *others: Tuple[str, Any]) -> Any:
    """Returns a struct, of whose fields each is a name with the bytes of its number, or another one with its type."""
    named = [(name, _NUMBERS[size]) for name, size in (field.split(":") for field in fields.split())]
    return type("Struct", (ctypes.Structure,), {"_fields_": [*named, *others]})


class KeptTables(ctypes.Structure):
    """The tables of a step, or none: nissy_tables."""

    _fields_ = [("tables", ctypes.c_void_p), ("built", ctypes.c_uint8)]


LineAnswer = _struct("status:1 fault:1 column:4 length:8")
RunAnswer = _struct("status:1 out_too_small:1 err_too_small:1 out_length:8 err_length:8")
SearchAnswer = _struct("status:1 fault:1 least:1 more:1 column:4 length:8 solutions:8 nodes:8")
AxisFacts = _struct(
    "bad_edge_places:2 bad_corner_places:2 misplaced_edge_places:2 bad_edges:1 bad_corners:1 misplaced_edges:1"
)
FactsAnswer = _struct("status:1 fault:1 solved:1 column:4 moves:2 clean_moves:2 holds:2", ("axes", AxisFacts * 3))
CheckAnswer = _struct("status:1 fault:1 line:1 solved:1 column:4 moves:2 clean_moves:2 forms:1")
LinesAnswer = _struct("status:1 lines:8 bytes:8")
PlainAnswer = _struct("status:1 left_out:1 length:8")
TextAnswer = _struct("status:1 lines:8 attempts:8")
KnownAnswer = _struct("status:1 lines:8 parts:8")
AttemptsAnswer = _struct("status:1 attempts:8")
WaysWanted = _struct("slack:1 axes:1 least:1 most:1 most_nodes:8 there:8")
WaysAnswer = _struct("status:1 fault:1 line:1 next:1 column:4 rows:8 tried:8 nodes:8")
SidesWanted = _struct("sides:1 length:1 counts:1 passed:8 most_nodes:8")
SidesAnswer = _struct("status:1 fault:1 line:1 more:1 column:4 rows:8 solutions:8 nodes:8")
LineAfterAnswer = _struct("status:1 fault:1 line:1 column:4 length:8")

# The fields of structs that come in great number, in the order of the header: ctypes would take as
# long to read them as the search. Of a part these are the number of the step, and of each side the count, how many are
# free, and the turns; of a way its own, and those of two parts.
SEARCH_ANSWER = struct.Struct("=4BI3Q")
FACTS_ANSWER = struct.Struct("=3BxI3H" + 3 * "3H3Bx")
PART = struct.Struct("=B" + 2 * "2B20s")
WAY = struct.Struct("=H4B" + 2 * PART.format[1:])
TEXT_LINE = struct.Struct("=B4?B2x10Q")
MOVES_PART = struct.Struct("=2QB7x")
KNOWN_PART = struct.Struct("=7Q")
ATTEMPT_CHECK = struct.Struct("=7QB2?x4BI2HB7x")

_NAME = {"win32": "nissy.dll", "cygwin": "nissy.dll", "darwin": "libnissy.2.dylib"}.get(sys.platform, "libnissy.so.2")
"""What the library is called on this system."""


def _place() -> str:
    """Returns where the library is: by NISSY_LIBRARY, in one of the folders in which it stands with
    this package, or by the system."""
    named = os.environ.get("NISSY_LIBRARY")
    if named:
        return named
    here = os.path.dirname(os.path.realpath(__file__))
    # in the package itself; the package installed as PREFIX/lib/python3/dist-packages/nissy; or in
    # the repository's folder python
    is_installed = os.path.basename(os.path.dirname(here)).endswith("-packages")
    beside = os.path.join(here, "..", "..", ".." if is_installed else "build")
    for folder in (here, beside):
        path = os.path.join(folder, _NAME)
        if os.path.exists(path):
            return path
    return _NAME


def _loaded(place: str) -> ctypes.CDLL:
    """Returns the library that is there. A place without a folder is one where the system looks for it."""
    try:
        return ctypes.CDLL(place)
    except OSError as error:
        told = str(error) if place in str(error) else f"{place}: {error}"
    raise ImportError(f"nissy's library can't be loaded: {told}")


LIBRARY = _loaded(_place())

# Places, and numbers that were checked. On 64 bits each is handed over as a whole register or eight bytes of the stack,
# whatever its width, and ctypes takes an address in half the time of a number. On 32 bits, and for Apple's processors,
# which pack what no register holds, each has its own width.
_PLACE = ctypes.c_void_p
_IS_WIDE = struct.calcsize("P") == 8 and sys.platform != "darwin"
_OWN = (ctypes.c_uint8, ctypes.c_uint32, ctypes.c_uint64, ctypes.c_size_t)
_BYTE, _HALF, _LONG, _NUMBER = (_PLACE,) * 4 if _IS_WIDE else _OWN
# bytes that a call reads, with their number, and bytes that it writes, by place, with the room that there is
_READ = (ctypes.c_char_p, _NUMBER)
_WRITTEN = (_PLACE, _NUMBER)


def _call(name: str, returned: Any, *taken: Any) -> Callable[..., Any]:
    """Returns the library's function of this name, for arguments of these types."""
    try:
        function = getattr(LIBRARY, name)
    except AttributeError:
        raise ImportError(f"{LIBRARY._name} has no {name}: it is older than this module") from None
    function.argtypes, function.restype = taken, returned
    bound: Callable[..., Any] = function
    return bound


nissy_run = _call("nissy_run", RunAnswer, *_READ, *_READ, *_WRITTEN, *_WRITTEN)
nissy_invert, nissy_unniss, nissy_cleanup, nissy_facelets = (
    _call(name, LineAnswer, *_READ, *_WRITTEN)
    for name in ("nissy_invert", "nissy_unniss", "nissy_cleanup", "nissy_facelets")
)
nissy_build = _call("nissy_build", ctypes.c_uint8, _PLACE, *_READ)
nissy_solve = _call("nissy_solve", SearchAnswer, _PLACE, *_READ, _BYTE, _BYTE, _LONG, _LONG, *_WRITTEN)
nissy_solve_after = _call(
    "nissy_solve_after", SearchAnswer, _PLACE, *_READ, *_READ, _BYTE, _BYTE, _LONG, _LONG, *_WRITTEN
)
nissy_count = _call("nissy_count", SearchAnswer, _PLACE, *_READ, _BYTE, _BYTE, _LONG, _LONG)
nissy_count_lines = _call("nissy_count_lines", LinesAnswer, _PLACE, *_READ, _BYTE, _BYTE, _LONG, _LONG, *_WRITTEN)
nissy_facts = _call("nissy_facts", FactsAnswer, *_READ)
nissy_facts_lines = _call("nissy_facts_lines", LinesAnswer, *_READ, *_WRITTEN)
nissy_check = _call("nissy_check", CheckAnswer, *_READ, *_READ)
nissy_best = _call("nissy_best", WaysAnswer, _PLACE, *_READ, *_READ, _PLACE, *_WRITTEN)
nissy_solve_sides = _call("nissy_solve_sides", SidesAnswer, _PLACE, *_READ, *_READ, _PLACE, *_WRITTEN)
nissy_line_after = _call("nissy_line_after", LineAfterAnswer, *_READ, *_READ, *_WRITTEN)
nissy_plain = _call("nissy_plain", PlainAnswer, *_READ, *_WRITTEN, *_WRITTEN)
nissy_text_lines = _call("nissy_text_lines", TextAnswer, *_READ, *_WRITTEN)
nissy_known_lines = _call("nissy_known_lines", KnownAnswer, *_READ, *_WRITTEN, *_WRITTEN, *_WRITTEN)
nissy_text_moves = _call(
    "nissy_text_moves", PlainAnswer, *_READ, _PLACE, _NUMBER, _BYTE, *_WRITTEN, *_WRITTEN, *_WRITTEN
)
nissy_check_attempts = _call("nissy_check_attempts", AttemptsAnswer, *_READ, *2 * _WRITTEN, *_READ, *4 * _WRITTEN)
nissy_scramble = _call("nissy_scramble", LineAnswer, _LONG, _LONG, _HALF, *_WRITTEN)
nissy_steps = _call("nissy_steps", LineAnswer, *_WRITTEN)
nissy_start = _call("nissy_start", LineAnswer, *_READ, *_WRITTEN)
nissy_fault_text = _call("nissy_fault_text", LineAnswer, _BYTE, *_WRITTEN)
nissy_version = _call("nissy_version", ctypes.c_uint32)

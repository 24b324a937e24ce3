"""What callers hand over, checked and told in their words."""
from __future__ import annotations

import operator
import sys
from typing import Any, Callable, Iterable, Iterator, Optional, TypeVar, Union

# the names of the steps, for tools that read types and no library: what holds at run time is what the library says
if sys.version_info >= (3, 8):
    from typing import Literal

    Step = Literal[
        "eofb",
        "eorl",
        "eoud",
        "drud-eofb",
        "drrl-eofb",
        "drud-eorl",
        "drfb-eorl",
        "drrl-eoud",
        "drfb-eoud",
        "eo",
        "dr-eofb",
        "dr-eorl",
        "dr-eoud",
    ]
    Partial = Literal[True]
else:
    Step = str
    Partial = bool

Text = Union[str, bytes, bytearray, memoryview]
_TEXTS = (str, bytes, bytearray, memoryview)
Progress = Callable[[int, Optional[int]], object]
"""Is told how many are done, and of how many, or None until that is known."""
Stop = Callable[[], bool]
"""Returns whether to end."""
Each = TypeVar("Each")
Called = TypeVar("Called", bound=Callable[..., Any])


def kind_of(value: object) -> str:
    """Returns what a value of the wrong type is called."""
    return "None" if value is None else type(value).__name__


def bytes_of(text: Text, what: str) -> bytes:
    """Returns a text as the bytes that the library reads. A number is none, though `bytes` takes one,
    nor is an array of numbers."""
    if type(text) is bytes:
        return text
    if isinstance(text, str):
        try:
            # by str's own method, whatever a class made of it says
            return str.encode(text)
        except UnicodeEncodeError:
            return _with_halves(text)
    try:
        view = memoryview(text)
    except TypeError:
        raise TypeError(f"{what} is a str or bytes, not {kind_of(text)}") from None
    # before Python 3.10 an empty array of ctypes has items of no bytes
    if view.itemsize > 1:
        raise TypeError(f"{what} is a str or bytes, not items of {view.itemsize} bytes each")
    return bytes(view)


def _with_halves(text: str) -> bytes:
    """Returns the bytes of a text with halves of surrogate pairs, which stand for bytes that are
    no text, or come from JSON."""
    try:
        return str.encode(text, "utf-8", "surrogateescape")
    except UnicodeEncodeError:
        # others aren't bytes: in their place come some that are no text, for the library to refuse
        return str.encode(text, "utf-8", "surrogatepass")


def number_of(value: int, what: str, most: int, least: int = 0) -> int:
    """Returns a number from `least` to `most`, of an int or of what stands for one. The library would read
    another one modulo a power of two."""
    if type(value) is not int:
        try:
            # before Python 3.10 an index may be of a class made of int, with comparisons of its own
            value = int.__add__(operator.index(value), 0)
        except TypeError:
            raise TypeError(f"{what} is an int, not {kind_of(value)}") from None
    if not least <= value <= most:
        raise ValueError(f"{what} is a number from {least} to {most:,}")
    return value


def each_of(texts: Iterable[Each], what: str) -> Iterator[Each]:
    """Returns several texts one by one. One text isn't several, though it has letters."""
    given: object = texts
    if not isinstance(given, _TEXTS):
        try:
            return iter(texts)
        except TypeError:
            pass
    raise TypeError(f"{what} are a list or another iterable, not {kind_of(given)}")


def function_of(function: Optional[Called], what: str) -> Optional[Called]:
    """Returns what is called on the way, if it can be."""
    if function is not None and not callable(function):
        raise TypeError(f"{what} is a function or None, not {kind_of(function)}")
    return function

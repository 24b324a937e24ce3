"""The moves of a line one by one, for those who draw or count them, and those that the WCA's notation hasn't."""
import re
import sys
from functools import lru_cache
from typing import Dict, List, NamedTuple, Tuple

from ._given import Text, bytes_of
from ._lines import unniss

if sys.version_info >= (3, 8):
    from typing import Literal

    CubeAxis = Literal["x", "y", "z"]
else:
    CubeAxis = str

# the letters of a move, and what follows them; the line was read by the library before
_LETTERS, _SUFFIX = "[UDRLFB]w?|[udrlfbMESxyz]", "2?['\u2019]|2"
# a bracket, or a move by these parts
_ITEM = re.compile(f"([()])|({_LETTERS})({_SUFFIX})?")
# those that have forms: by the letters, or else by what follows them
items_with_forms = re.compile(f"[()]|[udrlfbMES](?:{_SUFFIX})?|(?:{_LETTERS})(?:2?\u2019|2')").finditer
_QUARTERS = {"": 1, "2": 2, "'": -1, "\u2019": -1, "2'": 2, "2\u2019": 2}
_APOSTROPHE = "\u2019"
_SUFFIXES = {1: "", 2: "2", -1: "'"}
_NEAR, _FAR, _MIDDLE = (1,), (-1,), (0,)
# the axis of each move, its layers there, and whether it turns as its axis does (1) or the other way round (-1)
_TURNED: Dict[str, Tuple[CubeAxis, Tuple[int, ...], int]] = {
    "R": ("x", _NEAR, 1),
    "U": ("y", _NEAR, 1),
    "F": ("z", _NEAR, 1),
    "L": ("x", _FAR, -1),
    "D": ("y", _FAR, -1),
    "B": ("z", _FAR, -1),
    "Rw": ("x", (0, 1), 1),
    "Uw": ("y", (0, 1), 1),
    "Fw": ("z", (0, 1), 1),
    "Lw": ("x", (-1, 0), -1),
    "Dw": ("y", (-1, 0), -1),
    "Bw": ("z", (-1, 0), -1),
    "M": ("x", _MIDDLE, -1),
    "E": ("y", _MIDDLE, -1),
    "S": ("z", _MIDDLE, 1),
    "x": ("x", (-1, 0, 1), 1),
    "y": ("y", (-1, 0, 1), 1),
    "z": ("z", (-1, 0, 1), 1),
}


class Token(NamedTuple):
    """One move of a line."""

    text: str
    """The move in the WCA's notation for moves, such as "Rw2" or "U'"; a lower-case "r" is "Rw"."""
    axis: CubeAxis
    """About what it turns: "x" goes through L and R, "y" through D and U, "z" through B and F."""
    layers: Tuple[int, ...]
    """Which layers it turns: -1 is that of L, D or B, 0 the middle one, 1 that of R, U or F."""
    quarters: int
    """By how many quarters: 1, 2, or -1, clockwise as one looks at R, U or F."""
    inverse: bool
    """Whether it stands in brackets, and so is a move on the inverse scramble."""


class FormPlace(NamedTuple):
    """A move or a bracket of a line that the WCA's notation for solutions hasn't."""

    text: str
    """As it is written."""
    forms: Tuple[str, ...]
    """Its forms, as Check names them."""
    column: int
    """Where it begins, in bytes of UTF-8 from 1."""
    character: int
    """The same in characters."""


def tokens(line: Text) -> List[Token]:
    """The moves of a line as they are written, one after another. Raises LineFault."""
    data, inverse, found = bytes_of(line, "the line"), False, []
    # it refuses what isn't spelled
    unniss(data)
    for bracket, letters, suffix in _ITEM.findall(data.decode()):
        if bracket:
            inverse = bracket == "("
            continue
        name = letters.upper() + "w" if letters in "udrlfb" else letters
        axis, layers, way = _TURNED[name]
        quarters = _QUARTERS[suffix]
        found.append(Token(name + _SUFFIXES[quarters], axis, layers, 2 if quarters == 2 else way * quarters, inverse))
    return found


@lru_cache(maxsize=None)
def forms_of(item: str) -> Tuple[str, ...]:
    """Returns the forms of a move or a bracket, by their names."""
    has = {
        "slices": item[0] in "MES",
        "lower_case": item[0] in "udrlfb",
        "brackets": item in "()",
        "apostrophe": item[-1] == "\u2019",
        "half_prime": item[-2:] in ("2'", "2\u2019"),
    }
    return tuple(form for form, there in has.items() if there)


def form_places(line: Text) -> List[FormPlace]:
    """Where a line has forms that the WCA's notation for solutions hasn't: those of its places together are the `forms`
    of `check`. Raises LineFault."""
    data = bytes_of(line, "the line")
    unniss(data)
    # each apostrophe beyond ASCII has two bytes more, and no other sign of a line that is read has
    more, found = 0, []
    for it in items_with_forms(data.decode()):
        item, at = it[0], it.start()
        found.append(FormPlace(item, forms_of(item), at + more + 1, at + 1))
        more += 2 * item.count(_APOSTROPHE)
    return found

"""What is seen of a cube without a search, and whether a solution solves a scramble. Types stand here as they are and
not as texts, for those who ask a class of the package for them."""
import struct
from functools import lru_cache
from itertools import starmap
from typing import Any, Callable, Dict, Iterable, Iterator, NamedTuple, Optional, Tuple, TypeVar, Union

from . import _library, _rooms
from ._given import Progress, Step, Text, bytes_of
from ._library import DONE, FACTS_ANSWER
from ._lines import fault_of, steps
from ._many import Asking, Piece, in_pieces, pair_by_pair
from ._stickers import AXES, CORNER_PLACES, EDGE_PLACES, Axis
from ._values import Fault, named, of_pair, value_of

# the forms by the bits of the library's masks
_FORMS = ("slices", "lower_case", "brackets", "apostrophe", "half_prime")
# where the numbers of the axes begin in the struct, and how many each has
_FIRST, _EACH = 6, 6
_EACH_ANSWER = struct.Struct(f"{FACTS_ANSWER.size}s")
Named = TypeVar("Named")
Value = TypeVar("Value")


def _chosen(mask: int, names: Iterable[Named]) -> Tuple[Named, ...]:
    """Returns the names whose bits a mask has."""
    return tuple(name for bit, name in enumerate(names) if mask >> bit & 1)


class Pieces(int):
    """How many pieces are bad, as an int, and as `places` where they stand, such as ("UF", "DB")."""

    def __new__(cls, places: Iterable[str] = ()) -> "Pieces":
        listed = tuple(places)
        made = super().__new__(cls, len(listed))
        made._places = listed
        return made

    _places: Tuple[str, ...]

    @property
    def places(self) -> Tuple[str, ...]:
        """The names of the places, in the order of EDGE_PLACES or CORNER_PLACES."""
        return self._places

    def __reduce__(self) -> Tuple[Any, ...]:
        return type(self), (self.places,)


class Case(str):
    """The case of a domino reduction on an axis, as solvers write it: "4c4e"."""

    __slots__ = ()

    @property
    def corners(self) -> int:
        """How many corners are misoriented."""
        return int(self.partition("c")[0])

    @property
    def edges(self) -> int:
        """How many edges are on the wrong side of the slice."""
        return int(self.partition("c")[2][:-1])


class Facts:
    """What is seen of a cube without a search. Its axes "fb", "rl" and "ud" are those of its centres."""

    __slots__ = ("_told",)

    def __init__(self, told: bytes) -> None:
        self._told = told

    def _numbers(self) -> Tuple[int, ...]:
        return FACTS_ANSWER.unpack(self._told)

    @property
    def solved(self) -> bool:
        """Whether the cube is solved, however it is held."""
        return self._numbers()[2] == 1

    @property
    def moves(self) -> int:
        """How many moves the line has as it is written: turns of faces and of outer blocks count one each,
        slice turns two, rotations none."""
        return self._numbers()[4]

    @property
    def clean_moves(self) -> int:
        """How many face turns are left once the line is one sequence and cleaned."""
        return self._numbers()[5]

    @property
    def holds(self) -> Tuple[Step, ...]:
        """The steps that the cube has reached, in the order of `steps`."""
        return _steps_of(self._numbers()[6])

    @property
    def bad_edges(self) -> Dict[Axis, Pieces]:
        """The edges that aren't oriented on each axis."""
        return self._by_axis(lambda places: _edges(places[0]))

    @property
    def bad_corners(self) -> Dict[Axis, Pieces]:
        """The corners whose sticker of the axis's two faces is on another face."""
        return self._by_axis(lambda places: _corners(places[1]))

    @property
    def misplaced_edges(self) -> Dict[Axis, Pieces]:
        """The edges on the wrong side of the axis's slice: those of the slice outside it, and the others in it."""
        return self._by_axis(lambda places: _edges(places[2]))

    @property
    def case(self) -> Dict[Axis, Case]:
        """The case of a domino reduction on each axis: misoriented corners, and edges on
        the wrong side of the slice."""
        return self._by_axis(lambda numbers: _case(numbers[4], numbers[5]))

    def as_dict(self) -> Dict[str, Any]:
        """All of it by the same names, as json.dumps takes it: of bad pieces there are lists of the places."""
        pieces = {"bad_edges": self.bad_edges, "bad_corners": self.bad_corners, "misplaced_edges": self.misplaced_edges}
        places = {name: {axis: list(it.places) for axis, it in by_axis.items()} for name, by_axis in pieces.items()}
        return {
            "solved": self.solved,
            "moves": self.moves,
            "clean_moves": self.clean_moves,
            "holds": list(self.holds),
            "case": {axis: str(case) for axis, case in self.case.items()},
            **places,
        }

    def _by_axis(self, of_axis: Callable[[Tuple[int, ...]], Value]) -> Dict[Axis, Value]:
        """Returns what each axis's numbers stand for."""
        numbers = self._numbers()[_FIRST + 1 :]
        return {axis: of_axis(numbers[_EACH * at : _EACH * (at + 1)]) for at, axis in enumerate(AXES)}

    def __eq__(self, other: object) -> bool:
        return isinstance(other, Facts) and self._numbers() == other._numbers()

    def __hash__(self) -> int:
        return hash(self._numbers())

    def __repr__(self) -> str:
        cases = ", ".join(f"{axis}: {case}" for axis, case in self.case.items())
        solved = "solved" if self.solved else "not solved"
        return f"<Facts: {solved}, {self.moves} moves, {self.clean_moves} cleaned, {cases}>"

    def __reduce__(self) -> Tuple[Any, ...]:
        return type(self), (self._told,)


class Check(NamedTuple):
    """Whether a solution solves a scramble: it is true if it does."""

    solved: bool
    """The solution's moves after the scramble's solve the cube, however it is held then."""
    moves: int
    """The solution's moves as Facts counts them."""
    clean_moves: int
    """The same once it is cleaned."""
    forms: Tuple[str, ...]
    """The forms that the solution has and the WCA's notation for solutions hasn't: "slices", "lower_case", "brackets",
    "apostrophe" (U+2019 in place of ') and "half_prime" (2' for a half turn)."""

    def __bool__(self) -> bool:
        return self.solved


@lru_cache(maxsize=None)
def _edges(mask: int) -> Pieces:
    return Pieces(_chosen(mask, EDGE_PLACES))


@lru_cache(maxsize=None)
def _corners(mask: int) -> Pieces:
    return Pieces(_chosen(mask, CORNER_PLACES))


@lru_cache(maxsize=None)
def _case(corners: int, edges: int) -> Case:
    return Case(f"{corners}c{edges}e")


@lru_cache(maxsize=None)
def _forms(mask: int) -> Tuple[str, ...]:
    return _chosen(mask, _FORMS)


@lru_cache(maxsize=None)
def _steps_of(mask: int) -> Tuple[Step, ...]:
    return _chosen(mask, steps())


def facts(line: Text) -> Facts:
    """What is seen of a line's cube without a search: whether it is solved, how many moves the line has, which edges
    and corners are bad on each axis, the case of a domino reduction there, and which steps hold. Raises LineFault."""
    data = bytes_of(line, "the line")
    answer = _library.nissy_facts(data, len(data))
    if answer.status:
        raise fault_of(answer.status, answer.fault, answer.column, data)
    return Facts(bytes(answer))


def _ask(piece: Piece) -> bytes:
    """Returns the library's structs for the lines of a piece."""
    room, size = _rooms.take(), FACTS_ANSWER.size * len(piece.lines)
    _library.nissy_facts_lines(piece.text, len(piece.text), room.address, len(piece.lines))
    told = room.memory[:size]
    _rooms.put_back(room)
    return told


def _told(piece: Piece, told: bytes) -> Iterable[Union[Facts, Fault]]:
    """Returns the facts of the lines of a piece, or why there are none; each is made when it is taken."""
    size = FACTS_ANSWER.size
    if told[::size].count(DONE) == len(piece.lines):
        return starmap(Facts, _EACH_ANSWER.iter_unpack(told))
    return (_fault(piece, told, at) if told[at] else Facts(told[at : at + size]) for at in range(0, len(told), size))


def _fault(piece: Piece, told: bytes, at: int) -> Fault:
    """Returns what the struct at this byte says of a line in place of an answer."""
    status, fault, _, column = FACTS_ANSWER.unpack_from(told, at)[:4]
    number, data = piece.line(at // FACTS_ANSWER.size)
    return fault_of(status, fault, column, data, number)


def facts_all(
    lines: Iterable[Text], threads: int = 1, progress: Optional[Progress] = None
) -> Iterator[Union[Facts, Fault]]:
    """What is seen of each line in turn, as `facts` returns it; of a line for which `facts` raises, what it
    raises, with the line's number, from 1, as `line` (`raising` raises it). Takes lines in pieces, threads and
    `progress` as `count_all` does."""
    return in_pieces(lines, Asking(_ask, _told), threads, progress)


def check(scramble: Text, solution: Text) -> Check:
    """Whether a solution solves a scramble, how many moves it has, and which forms that the WCA's notation hasn't. Both
    may have brackets. Raises LineFault, with `line` 1 for the scramble and 2 for the solution."""
    return checked((bytes_of(scramble, "the scramble"), bytes_of(solution, "the solution")), "solution")


def check_all(pairs: Iterable[Iterable[Text]], progress: Optional[Progress] = None) -> Iterator[Union[Check, Fault]]:
    """Whether each of many solutions solves its scramble, of pairs of a scramble and a solution, such as two columns of
    a table: what `check` returns; of a pair for which it raises, what it raises, with the number of the pair, from 1,
    as `line` (`raising` raises it). Takes a pair when its answer is asked for, and `progress` as `solve_all` does."""

    def ask(number: int, pair: Tuple[bytes, bytes]) -> Union[Check, Fault]:
        told = told_of(pair, "solution")
        return of_pair(told, number) if isinstance(told, Fault) else told

    return pair_by_pair(pairs, ask, progress)


def checked(given: Tuple[bytes, bytes], other: str) -> Check:
    """Returns what `check` says of a scramble and another line, which faults call by this name. Raises LineFault."""
    told = told_of(given, other)
    if isinstance(told, Fault):
        raise told
    return told


def told_of(given: Tuple[bytes, bytes], other: str) -> Union[Check, Fault]:
    """Returns the same, or what `check` raises."""
    answer = _library.nissy_check(given[0], len(given[0]), given[1], len(given[1]))
    if answer.status:
        line = answer.line
        fault = fault_of(answer.status, answer.fault, answer.column, given[line - 1], line)
        return named(fault, "scramble" if line == 1 else other)
    return check_of(answer)


def check_of(answer: Any) -> Check:
    """Returns what an answer tells of lines that were read."""
    return check_by_numbers(answer.solved, answer.moves, answer.clean_moves, answer.forms)


def check_by_numbers(solved: int, moves: int, clean_moves: int, forms: int) -> Check:
    """Returns the same by its numbers."""
    return value_of(Check, (solved == 1, moves, clean_moves, _forms(forms)))

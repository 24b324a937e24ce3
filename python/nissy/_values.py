"""What the calls return and raise. Types stand here as they are and not as texts, for those who ask a
class of the package for them."""
from dataclasses import dataclass
from typing import Any, Dict, Iterable, Iterator, List, NamedTuple, Optional, Tuple, TypeVar, Union

Value = TypeVar("Value")
AnyFault = TypeVar("AnyFault", bound="Fault")
# the tuple's own way to make a value of its fields, which takes half the time of the class's
value_of = tuple.__new__


@dataclass(frozen=True)
class Answer:
    """What a run returns: its exit status, its output and its error text."""

    status: int
    out: bytes
    err: bytes
    full: bool = False
    """Whether the output was longer than the room that the caller gave; `out` is then a beginning of it."""


class Solution(str):
    """The moves of a solution, as a string: "R U' F2", or "" of a step that is reached already."""

    __slots__ = ()

    @property
    def length(self) -> int:
        """How many turns it has."""
        return self.count(" ") + 1 if self else 0


class Solutions(List[Solution]):
    """The solutions of a line, as a list."""

    more: bool = False
    """Whether there are others beyond `most`, or may be beyond a cut."""
    nodes: int = 0
    """How many positions the search looked at."""
    cut: bool = False
    """Whether the search ended at its bound: then the list is a beginning of that of all."""

    def as_dict(self) -> Dict[str, Any]:
        """The list as `solutions`, and what is said of it, by the same names, as json.dumps takes it."""
        return {"solutions": list(map(str, self)), "more": self.more, "nodes": self.nodes, "cut": self.cut}


class _Counted(NamedTuple):
    """What a Count has as a tuple."""

    length: Optional[int]
    """How many turns the shortest have, or None if there are none."""
    solutions: int
    nodes: int
    """How many positions the search looked at."""
    cut: bool = False
    """Whether the search ended at its bound: then there may be more solutions, and if
    `length` is None, it isn't known."""


class Count(_Counted):
    """How many solutions there are. A number that is 2^64 - 1 stands for all numbers above it too."""

    more: bool = False
    """Whether there are others beyond `most`, or may be beyond a cut. It is beside the tuple, which has four values."""

    def __repr__(self) -> str:
        cut = ", cut=True" if self.cut else ""
        return f"Count(length={self.length}, solutions={self.solutions}, nodes={self.nodes}{cut})"


def counted(least: int, solutions: int, nodes: int, more: int, cut: bool) -> Count:
    """Returns how many solutions a search told of. The length is known if there is one, also one that isn't counted."""
    is_known = solutions or (more and not cut)
    count = value_of(Count, (least if is_known else None, solutions, nodes, cut))
    if more:
        count.more = True
    return count


class Fault(ValueError):
    """What is wrong with a line: `text`. If it is one of many lines, `line` is its number, from 1. A LineFault or a
    StartFault; neither, if the line has too many bytes."""

    part: str = ""
    """What the line is called, if the call has two, such as "scramble": `str` of the fault says that in place of a
    number, or after the number of a pair."""
    _is_of_pairs: bool = False

    def __init__(self, text: str, line: Optional[int] = None) -> None:
        super().__init__(text)
        self.text = text
        self.line = line

    def __str__(self) -> str:
        return f"{self._of_line(': ')}{self.text}"

    def _of_line(self, then: str) -> str:
        """Returns the words for its line, if there are others."""
        number = _place(self.line, ", " if self.part else then) if self._is_of_pairs or not self.part else ""
        return f"{number}{self.part}, " if self.part else number

    def as_dict(self) -> Dict[str, Any]:
        """What it has, by the same names, as json.dumps takes it."""
        return {"text": self.text, "line": self.line, "part": self.part}

    def __eq__(self, other: object) -> bool:
        return type(other) is type(self) and isinstance(other, Fault) and self.as_dict() == other.as_dict()

    def __hash__(self) -> int:
        return hash((type(self), self.text))

    def __repr__(self) -> str:
        return f"{type(self).__name__}({str(self)!r})"

    def __reduce__(self) -> Tuple[Any, ...]:
        """What a copy is made of, as for another process: an exception is made again of its message, if nothing else is
        said. With it go its attributes, among which are notes of others."""
        return type(self), (self.text, self.line), self.__dict__


class LineFault(Fault):
    """A line that spells no moves: `column`, in bytes of UTF-8 from 1, `character`, the same in characters, and `text`,
    what is wrong there. If it is one of many lines, `line` is its number, from 1."""

    def __init__(self, column: int, text: str, line: Optional[int] = None, character: Optional[int] = None) -> None:
        # of a long text there may be many
        self.args = (text,)
        self.text = text
        self.line = line
        self.column = column
        self.character = column if character is None else character

    def __str__(self) -> str:
        return f"{self._of_line(', ')}column {self.column}: {self.text}"

    def as_dict(self) -> Dict[str, Any]:
        return {**super().as_dict(), "column": self.column, "character": self.character}

    def __reduce__(self) -> Tuple[Any, ...]:
        return type(self), (self.column, self.text, self.line, self.character), self.__dict__


class StartFault(Fault):
    """A line on whose cube a step may not start: `step`, `start`, the step that would have to hold, and `text`, which
    says so. If it is one of many lines, `line` is its number, from 1."""

    def __init__(self, step: str, start: str, text: str, line: Optional[int] = None) -> None:
        super().__init__(text, line)
        self.step = step
        self.start = start

    def as_dict(self) -> Dict[str, Any]:
        return {**super().as_dict(), "step": self.step, "start": self.start}

    def __reduce__(self) -> Tuple[Any, ...]:
        return type(self), (self.step, self.start, self.text, self.line), self.__dict__


class Cut(RuntimeError):
    """A search that would look at more positions than it may: `count`, what it found until then, and of a search that
    writes them the `solutions`, a beginning of the list. If it is one of many lines, `line` is its number, from 1."""

    def __init__(self, count: Count, solutions: Iterable[Solution] = (), line: Optional[int] = None) -> None:
        super().__init__(count)
        self.count = count
        self.solutions = list(solutions)
        self.line = line

    def __str__(self) -> str:
        return f"{_place(self.line, ': ')}the search was cut after {self.count.nodes:,} nodes"

    def as_dict(self) -> Dict[str, Any]:
        """What it has, by the same names, as json.dumps takes it; the count by those of its own."""
        return {"count": self.count._asdict(), "solutions": list(map(str, self.solutions)), "line": self.line}

    def __eq__(self, other: object) -> bool:
        return isinstance(other, Cut) and self.as_dict() == other.as_dict()

    def __hash__(self) -> int:
        return hash(self.count)

    def __repr__(self) -> str:
        return f"{type(self).__name__}({str(self)!r})"

    def __reduce__(self) -> Tuple[Any, ...]:
        return type(self), (self.count, self.solutions, self.line), self.__dict__


def raising(answers: Iterable[Union[Value, Fault, Cut]]) -> Iterator[Value]:
    """The answers to many lines, such as those of `count_all`; the first fault or cut among
    them is raised, and ends them."""
    for answer in answers:
        if isinstance(answer, (Fault, Cut)):
            raise answer
        yield answer


def named(fault: AnyFault, name: str) -> AnyFault:
    """Returns the fault of a call on two lines, whose text begins with the name of the one that has it."""
    fault.part = name
    return fault


def of_pair(fault: AnyFault, number: int) -> AnyFault:
    """Returns the fault of one of many pairs, by its number."""
    fault.line, fault._is_of_pairs = number, True
    return fault


def _place(line: Optional[int], then: str) -> str:
    """Returns the words for the number of a line, if there is one."""
    return "" if line is None else f"line {line}{then}"

"""How a line goes on to a domino reduction. Types stand here as they are and not as texts, for those who ask a
class of the package for them."""
from dataclasses import asdict, dataclass
from typing import Any, Dict, List, Optional, Tuple

from ._facts import Case
from ._given import Step


@dataclass(frozen=True)
class Orientation:
    """The edge orientation of a continuation."""

    step: Step
    moves: str
    """All its moves, as a solver writes them: those on the inverse side stand in brackets, after the others."""
    normal: str
    """Those on the normal side."""
    inverse: str
    """Those on the inverse side, without brackets."""
    length: int
    """How many turns they are, on both sides together."""
    twins: Tuple[str, ...]
    """The last turns of its twins, written as `moves`: they differ only in the direction of these."""


@dataclass(frozen=True)
class Lengths:
    """A reduction's least length on each side without the other, or None if it has none of at most 20 turns there."""

    normal: Optional[int]
    inverse: Optional[int]


@dataclass(frozen=True)
class Reduction:
    """The domino reduction of a continuation; its moves are given as those of an Orientation."""

    step: Step
    moves: str
    normal: str
    inverse: str
    length: int
    twins: Tuple[str, ...]
    """The last turns of its twins; () after an orientation."""
    lengths: Lengths


@dataclass(frozen=True)
class Continuation:
    """How a line goes on to a domino reduction. As a string it is `line` and `total`."""

    total: int
    """All moves, those of the line so far too, once they are merged on each side."""
    line: str
    """What a solver writes after the line so far: moves on the inverse side stand in brackets."""
    eo: Optional[Orientation]
    """The orientation, or None if one holds already."""
    dr: Reduction
    case: Case
    """The case of the reduction before its moves, such as "4c4e"."""

    def __str__(self) -> str:
        return f"{self.line} ({self.total})"


class Continuations(List[Continuation]):
    """The continuations of a line, the best first, as a list."""

    nodes: int = 0
    """How many positions the search looked at."""
    cut: bool = False
    """Whether the search ended at its bound, or was stopped: then these are the best of what was tried until then. Each
    is true, and others may be missing, better ones too."""

    def as_dict(self) -> Dict[str, Any]:
        """The list as `rows`, each by `dataclasses.asdict`, and what is said of it, as json.dumps takes it."""
        return {"rows": [asdict(row) for row in self], "nodes": self.nodes, "cut": self.cut}

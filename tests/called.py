"""The calls of tests/calls.tsv, and the texts of tests/attempts.tsv and misread.tsv."""
from pathlib import Path
from typing import Dict, Iterator, List, NamedTuple, Optional, Tuple

from runs import bytes_of

FOLDER = Path(__file__).resolve().parent


class Search(NamedTuple):
    """A search, the positions that are looked at if they are named, and the solutions with their lengths."""

    step: str
    line: str
    limit: int
    slack: int
    nodes: Optional[int]
    solutions: List[Tuple[str, int]]


def rows(kind: str) -> Iterator[List[str]]:
    """The fields of each row of a kind."""
    for line in (FOLDER / "calls.tsv").read_text(encoding="ascii").splitlines():
        if line.startswith(kind + "\t"):
            yield [bytes_of(field).decode("utf-8", "surrogateescape") for field in line.split("\t")[1:]]


def searches() -> Iterator[Search]:
    """Each search."""
    for step, line, limit, slack, nodes, solutions in rows("search"):
        parts = [it.rstrip(")").rpartition("(") for it in solutions.split("|") if it]
        found = [(moves.rstrip(), int(length)) for moves, _, length in parts]
        yield Search(step, line, int(limit), int(slack), None if nodes == "-" else int(nodes), found)


class Kind(NamedTuple):
    """A way to write attempts: a text, and whether each of its solutions solves, or None if there is none."""

    name: str
    text: str
    wanted: List[Optional[bool]]


def kinds(table: str = "attempts.tsv") -> Iterator[Kind]:
    """Each way of a table."""
    results: Dict[str, Optional[bool]] = {"solved": True, "unsolved": False, "none": None}
    for line in (FOLDER / table).read_text(encoding="ascii").splitlines():
        if not line.startswith("#"):
            name, text, wanted = line.split("\t")
            yield Kind(name, bytes_of(text).decode(), [results[it] for it in wanted.split(",")])

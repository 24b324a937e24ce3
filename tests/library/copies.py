#!/usr/bin/env python3
"""Copies of what the Python package returns and raises, and the same as dicts and as JSON.

    tests/library/copies.py

The library is that of NISSY_LIBRARY.
"""
import copy
import dataclasses
import json
import pickle
import sys
from pathlib import Path
from typing import Any, List

TOP = Path(__file__).resolve().parents[2]
sys.path[:0] = [str(TOP / "python"), str(TOP / "tests")]

import nissy
from tally import Tally, raised, tried

COPIES: List[Any] = [copy.copy, copy.deepcopy, lambda it: pickle.loads(pickle.dumps(it))]


def as_json(tally: Tally, row: nissy.Continuation) -> None:
    """Values as JSON writes them by itself."""
    seen = nissy.facts("R")
    tally.equal(
        "facts as JSON",
        json.dumps([seen.case, seen.bad_edges, seen.moves]),
        '[{"fb": "4c4e", "rl": "0c0e", "ud": "4c4e"}, {"fb": 0, "rl": 4, "ud": 0}, 1]',
    )
    tally.equal(
        "a count and a check as JSON",
        json.dumps([nissy.count("eofb", "R U F"), nissy.check("R", "M")]),
        '[[1, 2, 20, false], [false, 2, 2, ["slices"]]]',
    )
    tally.equal(
        "a row as JSON", list(json.loads(json.dumps(dataclasses.asdict(row)))), ["total", "line", "eo", "dr", "case"]
    )


def copies_raised(tally: Tally, again: Any, value: Any, names_of: str) -> None:
    """A copy of a fault or a cut, by the names of what it has."""
    made = again(value)
    tally.holds("a copy of a fault or a cut is equal", made == value and hash(made) == hash(value))
    tally.equal(
        "a fault or a cut",
        (type(made), str(made), *(getattr(made, name) for name in names_of.split())),
        (type(value), str(value), *(getattr(value, name) for name in names_of.split())),
    )


def copies(tally: Tally) -> None:
    """What comes to another process, copies, hashes and JSON."""
    fault = raised(nissy.LineFault, lambda: list(nissy.raising(nissy.solve_all("eofb", ["R\u2019 Q"]))))
    start = raised(nissy.StartFault, lambda: list(nissy.raising(nissy.solve_all("drfb-eorl", ["R"]))))
    cut = raised(nissy.Cut, lambda: nissy.solve("eofb", "R U F", 20, 2, nodes=100))
    # what `add_note` of Python 3.11 sets
    fault.__notes__, start.__notes__ = ["mine"], ["mine too"]
    row = nissy.best("R' U' F D2 L2 F R2", "R (U')")[0]
    values: List[Any] = [
        nissy.solve("eofb", "F B"),
        nissy.solve("eofb", "F B")[0],
        nissy.count("eofb", "R U F", most=1),
        nissy.facts("R"),
        nissy.facts("R").bad_edges["rl"],
        nissy.facts("R").case["ud"],
        nissy.check("R", "M"),
        row,
        row.eo,
        row.dr,
        nissy.best("U R F", nodes=50, partial=True),
    ]
    for again in COPIES:
        for value in values:
            made = again(value)
            tally.equal(
                "a copy",
                (made, type(made), vars(made) if hasattr(made, "__dict__") else 0),
                (value, type(value), vars(value) if hasattr(value, "__dict__") else 0),
            )
        tally.equal("pieces", again(values[4]).places, ("UR", "DR", "FR", "BR"))
        copies_raised(tally, again, fault, "column character text line __notes__")
        copies_raised(tally, again, start, "step start text line __notes__")
        copies_raised(tally, again, cut, "count solutions line")
    tally.equal(
        "equal ones have one hash",
        (len({nissy.facts("R"), nissy.facts("R"), nissy.facts("R'")}), len({row, copy.copy(row)})),
        (1, 1),
    )
    tally.holds("others differ", nissy.facts("R") != nissy.facts("L"))
    as_json(tally, row)
    dicts(tally)
    dicts_of_faults(tally)
    tally.equal("a row as a string", str(row), f"{row.line} ({row.total})")


def dicts(tally: Tally) -> None:
    """What is told of a cube or of a list as a dict, which goes to JSON and comes back as it is."""
    # R flips four edges only on its own axis; it twists four corners, and takes two edges out of each slice beside it and two others in
    edges, corners = ["UR", "DR", "FR", "BR"], ["URF", "UBR", "DFR", "DRB"]
    wanted = {
        "solved": False,
        "moves": 1,
        "clean_moves": 1,
        "holds": ["eofb", "eoud", "drrl-eofb", "drrl-eoud", "eo", "dr-eofb", "dr-eoud"],
        "case": {"fb": "4c4e", "rl": "0c0e", "ud": "4c4e"},
        "bad_edges": {"fb": [], "rl": edges, "ud": []},
        "bad_corners": {"fb": corners, "rl": [], "ud": corners},
        "misplaced_edges": {"fb": edges, "rl": [], "ud": edges},
    }
    seen = nissy.facts("R").as_dict()
    tally.equal("facts", (seen, json.loads(json.dumps(seen))), (wanted, wanted))
    tally.equal("its texts are plain", {type(it) for it in [*seen["case"].values(), *seen["holds"]]}, {str})
    some = nissy.solve("eofb", "R U F", slack=1, most=2)
    tally.equal(
        "solutions",
        json.loads(json.dumps(some.as_dict())),
        {"solutions": ["F", "F'"], "more": True, "nodes": some.nodes, "cut": False},
    )
    cut = nissy.best("U R F", nodes=0, partial=True)
    tally.equal("rows that are cut", json.loads(json.dumps(cut.as_dict())), {"rows": [], "nodes": 0, "cut": True})
    rows = nissy.best("U R F", most=2)
    told = json.loads(json.dumps(rows.as_dict()))
    tally.equal("rows", ([it["line"] for it in told["rows"]], told["cut"]), (["F' R", "F (U)"], False))
    tally.equal("each is that of asdict", rows.as_dict()["rows"], list(map(dataclasses.asdict, rows)))


def dicts_of_faults(tally: Tally) -> None:
    """What is told of a fault or a cut as a dict, and of a copy the same."""
    rows: List[Any] = [
        (
            nissy.LineFault,
            lambda: nissy.check("R", "R\u2019 Q"),
            {"text": "not a move", "line": 2, "part": "solution", "column": 6, "character": 4},
        ),
        (
            nissy.LineFault,
            lambda: nissy.line_after("(R"),
            {"text": "bracket not closed", "line": 1, "part": "scramble", "column": 1, "character": 1},
        ),
        (
            nissy.LineFault,
            lambda: nissy.invert("Q"),
            {"text": "not a move", "line": None, "part": "", "column": 1, "character": 1},
        ),
        (
            nissy.Fault,
            lambda: nissy.best("R U", "F R " * 128),
            {"text": "more than 256 moves", "line": 2, "part": "moves so far"},
        ),
        (
            nissy.StartFault,
            lambda: list(nissy.raising(nissy.count_all("drfb-eorl", ["", "R"]))),
            {"text": "eorl does not hold", "line": 2, "part": "", "step": "drfb-eorl", "start": "eorl"},
        ),
        (
            nissy.Cut,
            lambda: nissy.solve("eofb", "F B", nodes=0),
            {"count": {"length": None, "solutions": 0, "nodes": 0, "cut": True}, "solutions": [], "line": None},
        ),
    ]
    for kind, call, wanted in rows:
        error = raised(kind, call)
        tally.equal(f"a {kind.__name__}", error and json.loads(json.dumps(error.as_dict())), wanted)
        tally.equal("of its copies", [again(error).as_dict() for again in COPIES], [wanted] * len(COPIES))
    cut = raised(nissy.Cut, lambda: list(nissy.raising(nissy.solve_all("eofb", ["", "R U F"], slack=1, nodes=60))))
    told = json.loads(json.dumps(cut.as_dict()))
    tally.equal("what was found until a cut", (told["solutions"][:2], told["line"]), (["F", "F'"], 2))


if __name__ == "__main__":
    tried(copies)

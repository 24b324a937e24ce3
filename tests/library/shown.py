#!/usr/bin/env python3
"""What `python3 -m nissy` prints: the best ways on, and a sentence for each slip.

    tests/library/shown.py

The library is that of NISSY_LIBRARY. The last line is `N passed, M failed`, and the status is 1 if M isn't 0.
"""
import os
import subprocess
import sys
from pathlib import Path
from typing import List, Tuple

TOP = Path(__file__).resolve().parents[2]
sys.path[:0] = [str(TOP / "python"), str(TOP / "tests")]

import nissy
from tally import Tally, tried

SELF, REACHED = "python3 -m nissy: ", "A domino reduction is reached already.\n"


def shown(*words: str) -> Tuple[int, str, str]:
    """Status, output and error text of a command with these words."""
    environment = {**os.environ, "PYTHONPATH": str(TOP / "python")}
    done = subprocess.run(
        [sys.executable, "-m", "nissy", *words],
        stdout=subprocess.PIPE,
        stderr=subprocess.PIPE,
        universal_newlines=True,
        env=environment,
        check=False,
    )
    return done.returncode, done.stdout, done.stderr


def rows(*words: str) -> List[str]:
    """The ways that it prints."""
    status, out, err = shown(*words)
    return out.splitlines() if (status, err) == (0, "") else [err]


def ways(tally: Tally) -> None:
    """Each is a line with total, orientation, case and reduction; some first ones, of some slack."""
    best = nissy.best("U R F", slack=1, most=10)
    wanted = []
    for row in best:
        assert row.eo
        wanted.append(
            f"{row.total} moves: {row.eo.step} {row.eo.moves}, {row.case}, {row.dr.step} {row.dr.moves}".rstrip()
        )
    tally.equal("ten of slack 1", rows("U R F"), wanted)
    tally.equal("a few", rows("U R F", "--most", "3"), wanted[:3])
    tally.equal("of no slack", len(rows("U R F", "--slack", "0", "--most", "500")), len(nissy.best("U R F", most=None)))
    after = nissy.best("U R", "(F)", slack=1, most=1)[0]
    tally.holds("after moves so far", rows("U R", "(F)", "--most", "1")[0].startswith(f"{after.total} moves: "))
    held = nissy.best("U R F D", "F", slack=1, most=1)
    tally.equal("all that there is", len(rows("U R F D", "F", "--most", "1")), len(held))
    oriented = nissy.best("R U", most=1, slack=1)[0]
    tally.equal(
        "of an oriented cube",
        rows("R U", "--most", "1"),
        [f"{oriented.total} moves: {oriented.dr.step} {oriented.dr.moves}"],
    )


def slips(tally: Tally) -> None:
    """A line that can't be read is told with its column, a wrong word by the usage; no traceback is shown."""
    tally.equal("a reduction is reached", [shown("R"), shown("", ""), shown("R U", "U'")], [(0, REACHED, "")] * 3)
    for words, said in (
        (("R U q",), "scramble, column 5: not a move\n"),
        (("R", "(U"), "moves so far, column 1: bracket not closed\n"),
        (("R " * 257,), "scramble, column 513: more than 256 moves\n"),
    ):
        tally.equal(f"a slip in {words[-1][:9]}", shown(*words), (1, "", SELF + said))
    for words, said in (
        ((), "the following arguments are required: SCRAMBLE"),
        (("R", "U", "F"), "unrecognized arguments: F"),
        (("R", "--slack", "x"), "argument --slack: invalid int value: 'x'"),
        (("R", "--slack", "21"), "the slack is a number from 0 to 20"),
        (("R", "--most", "0"), "most is a number from 1 on"),
        (("R", "--least", "1"), "unrecognized arguments: --least 1"),
    ):
        status, out, err = shown(*words)
        tally.equal(f"the words {words}", (status, out, err.splitlines()[-1]), (2, "", f"{SELF}error: {said}"))
    status, out, err = shown("--help")
    tally.holds(
        "it says what it takes",
        (status, err) == (0, "") and all(word in out for word in ("SCRAMBLE", "MOVES_SO_FAR", "--slack", "--most")),
    )


if __name__ == "__main__":
    tried(ways, slips)

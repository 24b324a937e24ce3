"""Prints the best ways on to a domino reduction, each an orientation and the reduction after it, the fewest moves
first.

    python3 -m nissy "R' U' F D2 L2 F R2"
"""
from __future__ import annotations

import argparse
import os
import sys
from typing import Union

from . import Continuation, Fault, Orientation, Reduction, best

_REACHED = "A domino reduction is reached already."


def _words() -> argparse.ArgumentParser:
    """Returns what reads the words of the command line."""
    words = argparse.ArgumentParser(
        "python3 -m nissy",
        description="Prints the best ways on to a domino reduction. " "Moves in brackets are on the inverse.",
    )
    words.add_argument("scramble", metavar="SCRAMBLE", help="its moves, between quotation marks")
    words.add_argument("so_far", metavar="MOVES_SO_FAR", nargs="?", default="", help="those that are made already")
    words.add_argument(
        "--slack",
        type=int,
        default=1,
        metavar="N",
        help="by how many moves a first step may be longer "
        "than the shortest, 0 to 20, else 1; each takes some six times as long",
    )
    words.add_argument("--most", type=int, default=10, metavar="N", help="how many ways are shown, else 10")
    return words


def _step(part: Union[Orientation, Reduction]) -> str:
    return f"{part.step} {part.moves}".strip()


def _shown(way: Continuation) -> str:
    steps = [_step(part) for part in (way.eo, way.dr) if part]
    return f"{way.total} moves: " + f", {way.case}, ".join(steps)


def main() -> None:
    """Prints the ways that the command line asks for."""
    words = _words()
    asked = words.parse_args()
    if asked.most < 1:
        words.error("most is a number from 1 on")
    try:
        ways = best(asked.scramble, asked.so_far, slack=asked.slack, most=asked.most)
    except Fault as fault:
        sys.exit(f"{words.prog}: {fault}")
    except ValueError as error:
        words.error(str(error))
    except KeyboardInterrupt:
        sys.exit(130)
    try:
        print("\n".join(map(_shown, ways)) or _REACHED, flush=True)
    except BrokenPipeError:
        # nobody reads on, which is no fault; what is left is written to nowhere at the end
        os.dup2(os.open(os.devnull, os.O_WRONLY), sys.stdout.fileno())


if __name__ == "__main__":
    main()

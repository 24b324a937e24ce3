"""Counts a step's shortest solutions for each line of the standard input; a bad line has its fault in its own place.

    python3 many_lines.py STEP < LINES

Line K of the output belongs to line K of the input: a length (or `none`), a tab and a number of solutions; or `fault`, a tab and what is wrong.
"""
from __future__ import annotations

import signal
import sys
import typing

import nissy


def main() -> None:
    """Answers line by line; the tables of the step are built once."""
    if len(sys.argv) != 2:
        sys.exit(__doc__)
    # a reader that has enough, such as head, ends it without a word
    if hasattr(signal, "SIGPIPE"):
        signal.signal(signal.SIGPIPE, signal.SIG_DFL)
    step = typing.cast(nissy.Step, sys.argv[1])
    for line in sys.stdin.buffer:
        try:
            found = nissy.count(step, line.rstrip(b"\n"))
        except ValueError as fault:
            print("fault", fault, sep="\t")
        else:
            print("none" if found.length is None else found.length, found.solutions, sep="\t")


if __name__ == "__main__":
    main()

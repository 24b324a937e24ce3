"""Checks solutions: names each line whose solution doesn't solve the scramble of the same line, or that can't be read.

    python3 check.py SCRAMBLES SOLUTIONS

Both are files of one line each. A row has the number of the line, a tab and what is wrong; there is none if all are solved. The status is 1 if
there is one. A line that one file lacks is empty.
"""
from __future__ import annotations

import itertools
import sys
from typing import Iterable, Iterator, Tuple

import nissy


def faults(pairs: Iterable[Tuple[bytes, bytes]]) -> Iterator[Tuple[int, str]]:
    """The numbers of the lines at fault, and what is wrong with each."""
    for number, (scramble, solution) in enumerate(pairs, 1):
        try:
            found = nissy.check(scramble.rstrip(b"\r\n"), solution.rstrip(b"\r\n"))
        except nissy.Fault as fault:
            yield number, str(fault)
        else:
            if not found.solved:
                yield number, "not solved"


def main() -> None:
    """Goes through both files side by side."""
    if len(sys.argv) != 3:
        sys.exit(__doc__)
    with open(sys.argv[1], "rb") as scrambles, open(sys.argv[2], "rb") as solutions:
        rows = [
            f"{number}\t{what}" for number, what in faults(itertools.zip_longest(scrambles, solutions, fillvalue=b""))
        ]
    print(*rows, sep="\n", end="\n" if rows else "")
    sys.exit(1 if rows else 0)


if __name__ == "__main__":
    main()

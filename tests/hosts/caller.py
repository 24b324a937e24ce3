#!/usr/bin/env python3
"""Reads calls, one on each line of standard input, and answers each on a line by the package for Python, as hosts.py says."""
import sys
from typing import List

from hosts import Fault, Given, Python


def given_in(word: str) -> Given:
    """What a word of a call gives: bytes, a number or a word."""
    if word.startswith("="):
        return bytes.fromhex(word[1:])
    return int(word) if word.isdecimal() else word


def main() -> None:
    """Answers each call."""
    python = Python()
    for line in sys.stdin:
        call, *words = line.split()
        before: List[object] = []
        try:
            text = python.ask(call, *map(given_in, words))
        except Fault as fault:
            *before, said = fault.args
            text = said.encode()
        print(*before, "=" + text.hex(), flush=True)


if __name__ == "__main__":
    main()

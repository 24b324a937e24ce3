#!/usr/bin/env python3
"""Drawn runs and hostile use of the command for node, each against the independent model of tests/model.

    tests/npm/drawn.py COMMAND SEED

Each run starts a node, so they are some hundred and twenty of the kinds of runs by which tests/model tries the program.
"""
import os
import sys

HERE = os.path.dirname(os.path.abspath(__file__))
sys.path.insert(0, os.path.join(os.path.dirname(HERE), "model"))

import against
import hostile_input
import hostile_streams
import model
import solving
from drawing import Drawing
from trial import Trial

# every so manieth of the runs that are tried on each odd stream
SHARE = 5


def drawn(trial: Trial, draw: Drawing) -> None:
    """Words and lines of each command."""
    against.rewriting(trial, draw, 7)
    against.rewriting_words(trial, draw, 6)
    against.faults(trial, draw, 8)
    against.usage(trial, draw, 8)
    against.scrambles(trial, draw, 2)
    against.searches(trial, draw, 6, solving.ORIENTATIONS, 12)
    against.searches(trial, draw, 3, solving.DOMINOES, 8)
    against.failing_starts(trial, draw, 2)
    hostile_input.files(trial, draw, 12)
    hostile_input.word_lists(trial, draw, 6)


def streams(trial: Trial, draw: Drawing) -> None:
    """Full devices, folders, a few bytes at a time, a reader that goes away, a user who waits."""
    hostile_streams.WRITING = hostile_streams.WRITING[::SHARE]
    hostile_streams.full_devices(trial)
    hostile_streams.odd_devices(trial)
    hostile_streams.line_by_line(trial)
    hostile_streams.pipes(trial, draw, 4)
    hostile_streams.gone_readers(trial, draw, 3)
    hostile_streams.file_limits(trial, draw, 3)


def limits(trial: Trial) -> None:
    """Inputs of 16 MiB and about, and an answer of many solutions."""
    most = model.MOST_INPUT
    filled = (b"R" + b" " * 8190 + b"\n") * (most // 8192)
    for words, data in (
        (["count", "eofb", "3"], b" " * most),
        (["unniss"], filled + b"R"),
        (["cleanup"], filled[:-2] + b"\nqq"),
        (["solve", "eofb", "3"], b"F\n" + b" " * most),
    ):
        trial.compare("input of 16 MiB and about", words, data, True)
    solving.Bounds.looks = None
    for words in (["near", "eofb", "5", "5"], ["near", "eofb", "4", "4", "R U"]):
        trial.compare("many solutions", words, b"\nF\n", True)


def main() -> None:
    """Runs all kinds and reports."""
    if len(sys.argv) != 3:
        sys.exit(__doc__)
    trial, draw = Trial(sys.argv[1]), Drawing(int(sys.argv[2]))
    solving.Bounds.looks, solving.Bounds.depth = 8_000, 6
    drawn(trial, draw)
    streams(trial, draw)
    limits(trial)
    sys.exit(trial.report())


if __name__ == "__main__":
    main()

#!/usr/bin/env python3
"""Hostile use of the program, each run against the independent model.

    tests/model/hostile.py PROGRAM [SEED] [SCALE] [PART,..]

The parts, by subject: devices, calls (with strace), memory, gone, growing, waiting, pipes, words, large, endless, files.
SCALE makes what is drawn more or less; at 1 all parts take about twelve minutes.
"""
import sys
import time
from collections.abc import Callable
from functools import partial

import hostile_calls
import hostile_input
import hostile_memory
import hostile_streams
import solving
from drawing import Drawing
from trial import LOOKS, Trial, seed_and_scale


def parts_of(trial: Trial, draw: Drawing, scale: float) -> dict[str, list[Callable[[], None]]]:
    """What each part does."""

    def alone(*tries: Callable[[Trial], None]) -> list[Callable[[], None]]:
        return [partial(each, trial) for each in tries]

    def drawn(each: Callable[[Trial, Drawing, int], None], count: int) -> list[Callable[[], None]]:
        return [partial(each, trial, draw, max(1, int(count * scale)))]

    streams, inputs = hostile_streams, hostile_input
    return {
        "devices": alone(streams.full_devices, streams.odd_devices, streams.closed_streams),
        "calls": [partial(hostile_calls.calls, trial, draw)],
        "memory": alone(hostile_memory.address_space),
        "gone": drawn(streams.gone_readers, 40),
        "growing": drawn(streams.file_limits, 100),
        "waiting": alone(streams.not_ready, streams.line_by_line, streams.odd_starts),
        "pipes": drawn(streams.pipes, 150),
        "words": drawn(inputs.word_lists, 2_000) + alone(inputs.long_words),
        "large": alone(inputs.large),
        "endless": alone(streams.endless_input, streams.endless_output),
        "files": drawn(inputs.files, 10_000),
    }


def main() -> None:
    """The parts that are named, or all."""
    if len(sys.argv) < 2:
        sys.exit(__doc__)
    seed, scale = seed_and_scale(sys.argv[2:])
    # what is tried here is the streams, so a share takes searches of few moves
    solving.Bounds.looks, solving.Bounds.depth = LOOKS, solving.FARTHEST if scale >= 0.5 else 6
    trial = Trial(sys.argv[1])
    parts = parts_of(trial, Drawing(seed), scale)
    print("hostile use, seed %d, scale %g" % (seed, scale))
    for name in sys.argv[4].split(",") if len(sys.argv) > 4 else parts:
        began = time.time()
        for each in parts[name]:
            each()
        print("%s: %.0f s" % (name, time.time() - began))
        sys.stdout.flush()
    sys.exit(trial.report())


if __name__ == "__main__":
    main()

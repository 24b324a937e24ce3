"""Running the program and comparing it with the independent model: counts by kind of run, and the first differences."""
import collections
import os
import subprocess
import sys
import tempfile
import time
from collections.abc import Sequence
from typing import Any, BinaryIO

import model
from model import Answer
from solving import TooMuch

# seconds, of which a busy machine takes many
TIMEOUT = 300
# what stands for the standard error of a program that doesn't end
HANGS = b"(hangs)"
# the most positions that the model's search may look at in one deepening
LOOKS = 60_000
SHOWN = 15


def seed_and_scale(arguments: list[str]) -> tuple[int, float]:
    """The seed of what is drawn and how much is drawn, 1 where the arguments don't say."""
    seed, scale = (arguments + ["1", "1"])[:2]
    return int(seed), float(scale)


def ran(command: Sequence[str | bytes], **how: Any) -> Answer:
    """Output, standard error and status of a command, run with these words of subprocess."""
    done = subprocess.run(command, capture_output=True, timeout=TIMEOUT, check=False, **how)
    return done.stdout, done.stderr, done.returncode


def short(value: object, most: int = 300) -> str:
    """Bytes or another value as they are shown."""
    text = repr(value)
    if isinstance(value, bytes) and len(value) > most:
        return "%r... (%d bytes)" % (value[:most], len(value))
    return text if len(text) <= most else text[:most] + "..."


def apart(mine: object, wanted: object) -> tuple[str, str]:
    """Two values as they are shown, texts from shortly before the place where they part."""
    if not (isinstance(mine, bytes) and isinstance(wanted, bytes)):
        return short(mine), short(wanted)
    at = max(0, len(os.path.commonprefix([mine, wanted])) - 60)
    before = "(%d bytes) .. " % at if at else ""
    return before + short(mine[at:]), before + short(wanted[at:])


class Trial:
    """Runs of one program, counted by kind, and the differences from the model."""

    def __init__(self, program: str) -> None:
        self.program = os.path.abspath(program)
        self.counts: collections.Counter[str] = collections.Counter()
        self.differences: collections.Counter[str] = collections.Counter()
        self.skipped = 0
        self.room = tempfile.TemporaryDirectory()
        self.began = time.time()

    def path(self, name: str) -> str:
        """A file of this trial's own."""
        return os.path.join(self.room.name, name)

    def input_file(self, data: bytes) -> BinaryIO:
        """A file with this input, open for reading."""
        with open(self.path("input"), "wb") as file:
            file.write(data)
        return open(self.path("input"), "rb")

    def run(self, words: list[str], data: bytes = b"", by_file: bool = False) -> Answer:
        """What the program answers to words and input, which comes by a pipe or from a file."""
        try:
            if by_file:
                with self.input_file(data) as file:
                    return ran([self.program] + words, stdin=file)
            return ran([self.program] + words, input=data)
        except subprocess.TimeoutExpired:
            return b"", HANGS, -1000

    def is_searchable(self, words: list[str], line: bytes) -> bool:
        """Whether the model answers this line; one that it doesn't is counted."""
        try:
            model.run(words, line + b"\n")
        except TooMuch:
            self.skipped += 1
            return False
        return True

    def compare(self, kind: str, words: list[str], data: bytes = b"", by_file: bool = False) -> None:
        """One run against the model; it is left out where the model's search would take too long."""
        try:
            expected = model.run(words, data)
        except TooMuch:
            self.awaits(kind)
            self.skipped += 1
            return
        self.counts[kind] += 1
        got = self.run(words, data, by_file)
        if got == expected:
            return
        self.differs(kind, words, data, got, expected)

    def awaits(self, *kinds: str) -> None:
        """Kinds of which some run must come: one that has none is left out wholly, and fails."""
        for kind in kinds:
            self.counts[kind] += 0

    def check(self, kind: str, words: list[str], data: bytes | None, got: object, expected: object) -> None:
        """What was seen of one run against what was to be seen."""
        self.counts[kind] += 1
        if got != expected:
            self.differs(kind, words, data, got, expected)

    def differs(self, kind: str, words: list[str], data: bytes | None, got: Any, expected: Any) -> None:
        """Counts a difference, and shows it where it is one of the first."""
        self.differences[kind] += 1
        if sum(self.differences.values()) > SHOWN:
            return
        print("not so: %s\n  nissy with the words %s\n  and the input %s" % (kind, short(words), short(data)))
        for name, mine, wanted in zip(("output", "standard error", "status"), got, expected):
            if mine != wanted:
                print("  {0} of the program: {1}\n  {0} of the model:   {2}".format(name, *apart(mine, wanted)))
        sys.stdout.flush()

    def report(self) -> int:
        """Shows the counts and, as the last line, how many kinds passed and failed, as one does that was left out wholly; the status."""
        failed = [kind for kind in self.counts if self.differences[kind] or not self.counts[kind]]
        for kind in sorted(self.counts):
            print(
                "%7d runs: %s%s"
                % (self.counts[kind], kind, ", %d DIFFERENT" % self.differences[kind] if self.differences[kind] else "")
            )
        left_out = ", %d left out, too large for the model" % self.skipped if self.skipped else ""
        print("%d runs in %.0f s%s" % (sum(self.counts.values()), time.time() - self.began, left_out))
        print("%d passed, %d failed" % (len(self.counts) - len(failed), len(failed)))
        self.room.cleanup()
        return 1 if failed else 0

"""Hostile use: less and less memory. That each growth is refused in turn is tried by hostile_calls.py."""
import os
import resource
import subprocess

import model
from model import NO_MEMORY, Answer, Run
from streams import run_with
from trial import Trial

# kilobytes in which no memory may be refused
AMPLE = 60_000
LIMITED: list[Run] = [
    (["solve", "eofb", "7"], b"F\n"),
    (["count", "drud-eofb", "5"], b"R U\n"),
    (["near", "dr-eofb", "3", "1"], b"\n"),
    (["invert", "R" + " " * 100_000], b""),
    (["invert"], b"R\n"),
    (["scramble", "1", "2", "256", "20"], b""),
]


def run_within(
    trial: Trial, kilobytes: int, words: list[str], data: bytes = b"", environment: dict[str, str] | None = None
) -> Answer:
    """What the program answers in so much address space."""

    def cut() -> None:
        resource.setrlimit(resource.RLIMIT_AS, (kilobytes * 1024, kilobytes * 1024))

    return run_with(trial, words, data, before=cut, env=environment)


def is_loaded(trial: Trial, kilobytes: int, words: list[str]) -> bool:
    """Whether the program begins in so much address space where these words take their room, here as variables."""
    environment = dict(os.environ, **{"WORD%d" % at: word for at, word in enumerate(words)})
    try:
        return run_within(trial, kilobytes, ["steps"], environment=environment)[2] == 0
    except (OSError, subprocess.SubprocessError):
        return False


def address_space(trial: Trial) -> None:
    """Less and less address space: the whole answer, or out of memory with nothing written."""
    trial.awaits("address space limited")
    for words, data in LIMITED:
        for kilobytes in list(range(200, 8000, 400)) + [10_000, 20_000, AMPLE]:
            if is_loaded(trial, kilobytes, words):
                got = run_within(trial, kilobytes, words, data)
                is_refused = kilobytes < AMPLE and got == (b"", NO_MEMORY, 3)
                expected = got if is_refused else model.run(words, data)
                trial.check("address space limited", words + [str(kilobytes)], data, got, expected)

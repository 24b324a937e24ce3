"""Running the program with streams, limits and small pipes of one's own."""
import fcntl
import os
import select
import subprocess
import time
from collections.abc import Callable, Iterable
from typing import IO, Any

from model import Answer
from trial import HANGS, TIMEOUT, Trial

Process = subprocess.Popen[bytes]

SET_PIPE_SIZE = 1031


def small_pipe() -> tuple[int, int]:
    """A pipe that holds 4,096 bytes: its reading and its writing end."""
    reading, writing = os.pipe()
    fcntl.fcntl(writing, SET_PIPE_SIZE, 4096)
    return reading, writing


def started(trial: Trial, words: list[str], **streams: Any) -> Process:
    """The program, started with some streams and settings given; the other streams are pipes, standard input is empty."""
    chosen: dict[str, Any] = {"stdin": subprocess.DEVNULL, "stdout": subprocess.PIPE, "stderr": subprocess.PIPE}
    chosen.update((name, stream) for name, stream in streams.items() if stream is not None)
    return Process([trial.program] + words, bufsize=0, **chosen)


def run_with(
    trial: Trial,
    words: list[str],
    data: bytes | None = None,
    closed: Iterable[int] = (),
    before: Callable[[], object] | None = None,
    **streams: Any
) -> Answer:
    """Output, text of faults and status with the streams given, some closed, and something done before the program begins."""

    def prepare() -> None:
        if before:
            before()
        for stream in closed:
            os.close(stream)

    if data is not None:
        streams["stdin"] = subprocess.PIPE
    process = started(trial, words, preexec_fn=prepare, **streams)
    try:
        output, fault = process.communicate(data, timeout=TIMEOUT)
    except subprocess.TimeoutExpired:
        process.kill()
        process.communicate()
        return b"", HANGS, -1000
    return output or b"", fault or b"", process.returncode


def read_all(reading: int) -> bytes:
    """What is left in a pipe whose writers have gone."""
    pieces: list[bytes] = []
    while True:
        piece = os.read(reading, 65536)
        if not piece:
            os.close(reading)
            return b"".join(pieces)
        pieces.append(piece)


def close_quietly(stream: IO[bytes]) -> None:
    """Closes a pipe to a program that may have gone."""
    try:
        stream.close()
    except BrokenPipeError:
        pass


def ended(process: Process) -> tuple[bytes, int]:
    """The text of faults and the status of a program that is to end now."""
    assert process.stderr is not None
    try:
        fault = process.stderr.read() if select.select([process.stderr], [], [], TIMEOUT)[0] else HANGS
        if process.stdin:
            close_quietly(process.stdin)
        return fault, process.wait(TIMEOUT)
    except subprocess.TimeoutExpired:
        process.kill()
        return HANGS, -1000
    finally:
        process.stderr.close()


class Trickle:
    """A run that is given and asked for a few bytes at a time, with a pause now and then."""

    def __init__(self, trial: Trial, words: list[str], data: bytes, give: int, take: int) -> None:
        self.reading, writing = small_pipe()
        self.process = started(trial, words, stdin=subprocess.PIPE, stdout=writing)
        os.close(writing)
        assert self.process.stdin is not None
        self.input = self.process.stdin
        os.set_blocking(self.input.fileno(), False)
        self.data, self.give, self.take, self.sent, self.giving = data, give, take, 0, True

    def give_some(self) -> None:
        """Gives the next bytes, or closes the input where all are given."""
        if self.sent == len(self.data):
            self.input.close()
            self.giving = False
            return
        try:
            self.sent += os.write(self.input.fileno(), self.data[self.sent : self.sent + self.give])
        except BlockingIOError:
            pass
        except BrokenPipeError:
            self.giving = False

    def run(self, pause: Callable[[], None]) -> Answer:
        """What the program answers; `pause` is called between two steps."""
        output, end = b"", time.time() + TIMEOUT
        while time.time() < end:
            readable, writable, _ = select.select([self.reading], [self.input] if self.giving else [], [], 1)
            pause()
            if writable:
                self.give_some()
            if readable:
                piece = os.read(self.reading, self.take)
                if not piece:
                    break
                output += piece
        else:
            self.process.kill()
        os.close(self.reading)
        return (output,) + ended(self.process)

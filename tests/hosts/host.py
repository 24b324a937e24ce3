"""A host of the engine, and those that are programs: a caller, which is asked by lines, and another program. hosts.py says how."""
from __future__ import annotations

import os
import subprocess
import threading
from typing import Any, Iterable, List, Union

from tally import made_again

Given = Union[bytes, int, str]
PARTED = "\x1e"
# what wine says of itself, also where one of its services fails, and of a program that crashed
OF_WINE, OF_CRASH = b"wine: ", b"Unhandled"


class Fault(Exception):
    """What a host says of a line: which of two has it, or 0, the column, or 0, and the text."""


def question(call: str, *given: Given) -> str:
    """A call as a caller reads it."""
    return " ".join([call, *("=" + it.hex() if isinstance(it, bytes) else str(it) for it in given)]) + "\n"


def told_by(answer: str) -> bytes:
    """What a caller's answer tells. Raises Fault."""
    *fault, text = answer.split(" ")
    told = bytes.fromhex(text[1:])
    if fault:
        raise Fault(int(fault[0]), int(fault[1]), told.decode())
    return told


class Host:
    """What is asked. Some make runs, and some make calls."""

    name = ""
    has_runs = has_calls = True

    def ask(self, call: str, *given: Given) -> bytes:
        """The answer to a call. Raises Fault."""
        raise NotImplementedError

    def run(self, words: List[str], data: bytes, room: int | None = None) -> Any:
        """What a run answers in so much room, or in room that grows: output, error text, status, and whether the room was full."""
        listed = [word.encode("utf-8", "surrogateescape") for word in words]
        status, full, length, texts = self.ask("run", "-" if room is None else room, data, *listed).split(b" ", 3)
        return texts[: int(length)], texts[int(length) :], int(status), full == b"1"

    def end(self) -> int:
        """The status with which it ends."""
        return 0


def fault_of(*said: object) -> str:
    """What is said of a fault."""
    return "fault %s %s %s" % said


def told(host: Host, call: str, *given: Given) -> str:
    """The answer to a call, or its fault."""
    try:
        return host.ask(call, *given).decode()
    except Fault as fault:
        return fault_of(*fault.args)


class Caller(Host):
    """A program that makes the calls in another language."""

    def __init__(self, name: str, command: List[str]) -> None:
        self.name, self.has_runs = name, name == "JavaScript"
        self.process = subprocess.Popen(command, stdin=subprocess.PIPE, stdout=subprocess.PIPE, text=True)
        assert self.process.stdin is not None and self.process.stdout is not None
        self.asking, self.answers = self.process.stdin, self.process.stdout

    def ask(self, call: str, *given: Given) -> bytes:
        (answer,) = self.answers_to([question(call, *given)])
        return told_by(answer)

    def answers_to(self, questions: List[str]) -> List[str]:
        """The answers to many calls as they are written. None of them waits for the one before."""
        asker = threading.Thread(target=self.ask_all, args=(questions,))
        asker.start()
        answers = [self.answers.readline() for _ in questions]
        asker.join()
        return answers

    def ask_all(self, questions: List[str]) -> None:
        """Asks without a look at the answers."""
        self.asking.writelines(questions)
        self.asking.flush()

    def end(self) -> int:
        self.asking.close()
        return self.process.wait() or len(self.answers.read())


class Other(Host):
    """Another program, with what runs it before its name. What wine writes among its error text is left out, and a run that fails without a word
    of the program is made again, twice at most: a service of wine fails once in some hundred runs on a busy machine."""

    has_calls = False

    def __init__(self, command: List[str]) -> None:
        self.name, self.command = " ".join(map(os.path.basename, command)), command

    def run(self, words: List[str], data: bytes, room: int | None = None) -> Any:
        for more in (2, 1, 0):
            done = subprocess.run(self.command + words, input=data, capture_output=True, check=False)
            text = b"".join(line for line in done.stderr.splitlines(keepends=True) if not line.startswith(OF_WINE))
            # the program says why it fails
            if done.returncode == 0 or text or OF_CRASH in done.stderr:
                break
            if more:
                made_again("wine", f"it said {done.stderr!r}")
        return done.stdout, text, done.returncode, False

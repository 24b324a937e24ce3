"""Hostile use: full, closed and odd streams, pipes of a few bytes, readers that go away, output and input without end."""
import os
import pty
import re
import resource
import select
import signal
import subprocess
import termios
import time
from typing import Any

import model
from drawing import Drawing
from hostile_input import lines
from model import CANNOT_READ, CANNOT_WRITE, INPUT_TOO_LONG, Answer
from streams import Process, Trickle, close_quietly, ended, read_all, run_with, small_pipe, started
from trial import TIMEOUT, Trial, ran

# the words of a command, and its input, None if it has none of its own
Run = tuple[list[str], bytes | None]
WRITING: list[Run] = [
    (["invert", "R U"], None),
    (["solve", "eofb", "5", "F B"], None),
    (["scramble", "1", "2", "20", "3"], None),
    (["steps"], None),
    (["count", "eofb", "5", "F B"], None),
    (["near", "eofb", "3", "1", "F"], None),
    (["print", "R"], None),
    (["cleanup", "R (x)"], None),
    (["invert"], b"R\nU\nF\n"),
    (["invert"], b"R\nU\nq\n"),
    (["solve", "eofb", "3"], b"R\nF\nB\n" * 50),
]
WRITING_NOTHING: list[Run] = [
    (["invert"], b""),
    (["solve", "eofb", "3"], b""),
    (["scramble", "1", "2", "3", "0"], None),
]
FAULTY: list[Run] = [
    (["invert", "q"], None),
    ([], None),
    (["solve", "drud-eofb", "3", "F"], None),
    (["invert"], b" " * (model.MOST_INPUT + 1)),
]
LONG: list[Run] = [
    (["near", "eofb", "3", "1", "F"], None),
    (["scramble", "1", "2", "256", "900"], None),
    (["invert"], b"R U F\n" * 40000),
    (["solve", "eofb", "4"], b"F B\nR L\n" * 9000),
]
ENDLESS_MEMORY = 12_000


def pipes(trial: Trial, draw: Drawing, count: int) -> None:
    """A few bytes at a time."""
    for _ in range(count):
        give, take = draw.choice([1, 2, 3, 7, 100, 1000, 4095, 4096, 4097, 8192]), draw.choice([1, 3, 10, 100, 5000])
        data = lines(draw, draw.randrange(1, 30 if min(give, take) < 100 else 1200), 8) + draw.choice(
            [b"", b"\n", b"\nq\nR", b"\n(R"]
        )
        words = [draw.choice(model.REWRITES)] if draw.random() < 0.8 else ["solve", draw.choice(["eofb", "eo"]), "4"]
        delay = draw.choice([0, 0, 0.001, 0.01])

        def pause() -> None:
            if delay and draw.random() < 0.2:
                time.sleep(delay)

        got = Trickle(trial, words, data, give, take).run(pause)
        trial.check("pipes, a few bytes at a time", words, data, got, model.run(words, data))


def full_devices(trial: Trial) -> None:
    """Output and faults to a full device, to a pipe without a reader, and to nothing."""
    full = os.open("/dev/full", os.O_WRONLY)
    reading, unread = os.pipe()
    os.close(reading)
    for words, data in WRITING:
        whole = model.run(words, data or b"")
        for kind, stream in (("output to a full device", full), ("pipe without a reader", unread)):
            trial.check(kind, words, data, run_with(trial, words, data, stdout=stream), (b"", CANNOT_WRITE, 3))
        got = run_with(trial, words, data, stderr=full)
        trial.check("standard error full", words, data, got, (whole[0], b"", whole[2]))
        got = run_with(trial, words, data, closed=[2])
        trial.check("standard error closed", words, data, got, (whole[0], b"", whole[2]))
    for words, data in WRITING_NOTHING:
        trial.check("no output to a full device", words, data, run_with(trial, words, data, stdout=full), (b"", b"", 0))
    for words, data in FAULTY:
        _, fault, status = model.run(words, data or b"")
        odd: list[tuple[str, dict[str, Any], bytes]] = [
            ("faults, all full", {"stdout": full, "stderr": full}, b""),
            ("faults, output full", {"stdout": full}, fault),
            ("faults, standard error full", {"stderr": full}, b""),
            ("faults, standard error closed", {"closed": [2]}, b""),
        ]
        for kind, streams, wanted in odd:
            trial.check(kind, words, data, run_with(trial, words, data, **streams), (b"", wanted, status))
    os.close(full)
    os.close(unread)


def odd_devices(trial: Trial) -> None:
    """A folder and devices as the input."""

    def with_input(kind: str, words: list[str], name: str, expected: Answer) -> None:
        stream = os.open(name, os.O_RDONLY)
        trial.check(kind, words, b"", run_with(trial, words, stdin=stream), expected)
        os.close(stream)

    for words in (["invert"], ["print"], ["solve", "eofb", "3"], ["count", "drud-eofb", "3"]):
        with_input("a folder as input", words, trial.room.name, (b"", CANNOT_READ, 3))
    for words in (["steps"], ["scramble", "1", "2", "3", "4"], ["invert", "R"], ["solve", "eofb", "3", "F"]):
        with_input("a folder as input, unread", words, trial.room.name, model.run(words))
    with_input("input without end, from a device", ["invert"], "/dev/zero", (b"", INPUT_TOO_LONG, 3))
    with_input("input without end, from a device", ["invert"], "/dev/full", (b"", INPUT_TOO_LONG, 3))
    with_input("no input, from a device", ["invert"], "/dev/null", (b"", b"", 0))


def closed_streams(trial: Trial) -> None:
    """Streams that are closed, or open the other way."""
    unreadable, unwritable = os.open("/dev/null", os.O_WRONLY), os.open("/dev/null", os.O_RDONLY)
    cases: list[tuple[list[str], dict[str, Any], Answer]] = [
        (["invert"], {"closed": [0]}, (b"", CANNOT_READ, 3)),
        (["invert"], {"stdin": unreadable}, (b"", CANNOT_READ, 3)),
        (["invert", "R"], {"closed": [1]}, (b"", CANNOT_WRITE, 3)),
        (["invert", "R"], {"stdout": unwritable}, (b"", CANNOT_WRITE, 3)),
        (["solve", "eofb", "5", "F B"], {"closed": [1]}, (b"", CANNOT_WRITE, 3)),
        (["steps"], {"closed": [0, 1]}, (b"", CANNOT_WRITE, 3)),
        (["invert"], {"closed": [0, 1, 2]}, (b"", b"", 3)),
        (["invert", "q"], {"closed": [0, 1, 2]}, (b"", b"", 1)),
    ]
    for words, options, expected in cases:
        trial.check("closed streams", words, b"", run_with(trial, words, **options), expected)
    os.close(unreadable)
    os.close(unwritable)


def fill_quietly(process: Process, data: bytes) -> None:
    """Gives what a program takes at once."""
    assert process.stdin is not None
    os.set_blocking(process.stdin.fileno(), False)
    try:
        os.write(process.stdin.fileno(), data)
    except (BlockingIOError, BrokenPipeError):
        pass


def gone_readers(trial: Trial, draw: Drawing, count: int) -> None:
    """A reader that goes away after some bytes: what came is a beginning, the status is 3 where writes were left, nothing hangs."""
    for _ in range(count):
        words, data = draw.choice(LONG)
        whole, take = model.run(words, data or b"")[0], draw.choice([0, 1, 10, 1000, 5000])
        reading, writing = small_pipe()
        process = started(trial, words, stdin=subprocess.PIPE if data else None, stdout=writing)
        os.close(writing)
        if data:
            fill_quietly(process, data)
        output = b""
        while len(output) < take:
            piece = os.read(reading, take - len(output))
            if not piece:
                break
            output += piece
        os.close(reading)
        got = (output,) + ended(process)
        expected = (whole[: len(output)], CANNOT_WRITE, 3)
        # what fits into the pipe is written before the reader goes
        if len(whole) <= 4096 + take and got == (whole[: len(output)], b"", 0):
            expected = got
        trial.check("a reader that goes away", words + [str(take)], data, got, expected)


def file_limits(trial: Trial, draw: Drawing, count: int) -> None:
    """A file that may not grow further: a short write, then a refused one."""
    commands = [
        (["scramble", "1", "2", "50", "300"], None),
        (["invert"], b"R U F\n" * 3000),
        (["solve", "eofb", "5", "F B"], None),
        (["print"], b"R U F\nM\n" * 100),
    ]
    for _ in range(count):
        words, data = draw.choice(commands)
        whole = model.run(words, data or b"")[0]
        size = draw.randrange(0, len(whole) + 3)

        def cut() -> None:
            signal.signal(signal.SIGXFSZ, signal.SIG_IGN)
            resource.setrlimit(resource.RLIMIT_FSIZE, (size, size))

        with open(trial.path("output"), "wb") as file:
            _, fault, status = run_with(trial, words, data, before=cut, stdout=file)
        with open(trial.path("output"), "rb") as written:
            got = written.read(), fault, status
        expected = (whole[:size], CANNOT_WRITE, 3) if size < len(whole) else (whole, b"", 0)
        trial.check("a file that may not grow", words + [str(size)], data, got, expected)


def endless_output(trial: Trial) -> None:
    """near without end: solutions come as they are found, memory stays, and a reader that goes away ends it."""
    for name, text in (("eofb", ""), ("drud-eofb", ""), ("eo", "F")):
        beginning = model.run(["near", name, "3", "3", text])[0][:-1]
        reading, writing = small_pipe()
        process = started(trial, ["near", name, "20", "20", text], stdout=writing)
        os.close(writing)
        output, total, piece = b"", 0, b"x"
        while total < 30_000_000 and piece:
            piece = os.read(reading, 65536)
            total += len(piece)
            output += piece if len(output) < len(beginning) else b""
        with open("/proc/%d/status" % process.pid, encoding="ascii", errors="replace") as file:
            peak = re.search(r"VmHWM:\s+(\d+)", file.read())
        os.close(reading)
        got = (output[: len(beginning)],) + ended(process) + (peak is not None and int(peak[1]) < ENDLESS_MEMORY,)
        trial.check(
            "output without end", ["near", name, "20", "20", text], b"", got, (beginning, CANNOT_WRITE, 3, True)
        )


def endless_input(trial: Trial) -> None:
    """A writer that never ends is stopped by the limit."""
    for text, words in (
        (b"y\n", ["invert"]),
        (b"R", ["invert"]),
        (b"\n", ["cleanup"]),
        (b"F\n", ["count", "eofb", "3"]),
    ):
        process = started(trial, words, stdin=subprocess.PIPE, stdout=subprocess.DEVNULL)
        assert process.stdin is not None
        piece, sent = text * (65536 // len(text)), 0
        try:
            while sent < 4 * model.MOST_INPUT:
                sent += process.stdin.write(piece)
        except BrokenPipeError:
            pass
        close_quietly(process.stdin)
        fault, status = ended(process)
        got = fault, status, sent < 2 * model.MOST_INPUT
        trial.check("input without end", words, text, got, (INPUT_TOO_LONG, 3, True))


def not_ready(trial: Trial) -> None:
    """Streams that would block answer that they aren't ready, as a read or write that failed."""
    for words, data in ((["invert"], b"R\nU"), (["solve", "eofb", "3"], b"F\n"), (["print"], b"")):
        reading, writing = os.pipe()
        os.set_blocking(reading, False)
        if data:
            os.write(writing, data)
        trial.check(
            "input that isn't ready", words, data, run_with(trial, words, stdin=reading), model.run(words, data, True)
        )
        os.close(reading)
        os.close(writing)
    for words, beginning in (
        (["scramble", "1", "2", "256", "100"],) * 2,
        (["near", "eofb", "4", "4", ""], ["near", "eofb", "3", "3", ""]),
    ):
        whole = model.run(beginning)[0]
        reading, writing = small_pipe()
        os.set_blocking(writing, False)
        _, fault, status = run_with(trial, words, stdout=writing)
        os.close(writing)
        output = read_all(reading)
        got = output, fault, status, 0 < len(output) < 10_000
        trial.check("output that isn't ready", words, b"", got, (whole[: len(output)], CANNOT_WRITE, 3, True))


def silent_terminal() -> tuple[int, int]:
    """A terminal that doesn't echo: the end at the program and the end of the user."""
    user, terminal = pty.openpty()
    mode = termios.tcgetattr(terminal)
    mode[3] &= ~termios.ECHO
    termios.tcsetattr(terminal, termios.TCSANOW, mode)
    return terminal, user


def asked(process: Process, writing: int, text: bytes, size: int) -> bytes:
    """What comes for a line before the next one is given, up to the size that is waited for."""
    assert process.stdout is not None
    os.write(writing, text)
    answer, end = b"", time.time() + TIMEOUT
    while len(answer) < size and select.select([process.stdout], [], [], max(0, end - time.time()))[0]:
        answer += os.read(process.stdout.fileno(), 65536)
    return answer


def line_by_line(trial: Trial) -> None:
    """A user who waits for the answer to each line, over a pipe and over a terminal."""
    for kind, make in (("pipe", os.pipe), ("terminal", silent_terminal)):
        for words in (["invert"], ["solve", "eofb", "4"], ["count", "drud-eofb", "9"]):
            reading, writing = make()
            process = started(trial, words, stdin=reading)
            os.close(reading)
            texts = (b"R U\n", b"\n", b"U2 (R) D\n")
            expected = [model.run(words, text)[0] for text in texts]
            got = [asked(process, writing, text, len(answer)) for text, answer in zip(texts, expected)]
            if kind == "terminal":
                os.write(writing, b"\x04")
            else:
                os.close(writing)
            rest, fault = process.communicate(timeout=TIMEOUT)
            trial.check(
                "line by line, " + kind, words, b"", (got, rest, fault, process.returncode), (expected, b"", b"", 0)
            )
            if kind == "terminal":
                os.close(writing)


def odd_starts(trial: Trial) -> None:
    """An own name that is empty or alone, words that aren't UTF-8, and a small stack."""
    usage = (b"", model.USAGE, 2)
    for own_words, expected in (
        ([b"", b"invert", b"R"], (b"R'\n", b"", 0)),
        ([b"nissy"], usage),
        ([b"nissy", b"invert", b"R\xff"], usage),
        ([b"nissy", b"\xe2\x80"], usage),
        ([b"nissy", b"unniss", b"R\xe2\x80", b"U"], usage),
        ([b"nissy", b"solve", b"eofb", b"\xb2", b"F"], usage),
    ):
        got = ran(own_words, executable=trial.program, stdin=subprocess.DEVNULL)
        trial.check("odd starts", [str(word) for word in own_words], b"", got, expected)
    words = ["near", "eofb", "20", "0", "F B R U F"]
    got = run_with(trial, words, before=lambda: resource.setrlimit(resource.RLIMIT_STACK, (65536, 65536)))
    trial.check("a stack of 64 KiB", words, b"", got, model.run(words))

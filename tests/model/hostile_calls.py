"""Hostile use: system calls refused in turn, by strace. If there is no strace, or it may not trace, nothing is tried."""
import ctypes
import re
import shutil
from collections.abc import Callable

import model
from drawing import Drawing
from hostile_input import lines
from model import CANNOT_WRITE, NO_MEMORY, Answer, Run
from trial import Trial, ran

CALL = re.compile(r"^(?:\[pid +\d+\] |\d+ +)?(\w+)\((.*)\) += (-?\d+|\?|0x[0-9a-f]+)(.*)$")
LIBC = ctypes.CDLL(None)
ADDRESSES_STAY = 0x0040000
GROWING = ("mmap", "brk", "mremap")
# Refused by a way of their own, or not to be refused.
NOT_HERE = ("read", "write", "execve", "exit", "exit_group", "brk")
MOST_WRITES = 60


def same_addresses() -> None:
    """The same addresses in each run, so that a refused brk can answer the break that stood."""
    LIBC.personality(ADDRESSES_STAY)


class Traced:
    """A run under strace, with calls refused: what it answered, and its calls as (name, how many of that name, arguments, answer)."""

    def __init__(self, trial: Trial, words: list[str], data: bytes, *refusals: str) -> None:
        options = [option for refusal in refusals for option in ("-e", "inject=" + refusal)]
        self.words, self.data = words, data
        command = ["strace", "-f", "-a1", "-s0", "-o", trial.path("calls")] + options + [trial.program] + words
        with trial.input_file(data) as file:
            self.answer = ran(command, stdin=file, preexec_fn=same_addresses)
        self.calls: list[tuple[str, int, str, str]] = []
        seen: dict[str, int] = {}
        with open(trial.path("calls"), encoding="utf-8", errors="replace") as file:
            for name, arguments, answer, _ in [found.groups() for found in map(CALL.match, file) if found]:
                seen[name] = seen.get(name, 0) + 1
                self.calls.append((name, seen[name], arguments, answer))

    def on_stream(self, wanted: str, stream: int) -> list[tuple[int, int]]:
        """The calls of a name on a stream: how many of that name, and how many bytes."""
        return [
            (nth, -1 if answer == "?" else int(answer, 0))
            for name, nth, arguments, answer in self.calls
            if name == wanted and arguments.split(",")[0].strip() == str(stream)
        ]

    def own(self) -> int:
        """The index of the program's first own call: there it sets SIGPIPE aside."""
        return next(at for at, call in enumerate(self.calls) if call[0] == "rt_sigaction" and "SIGPIPE" in call[2])


def is_there(trial: Trial) -> bool:
    """Whether strace is here and may trace."""
    return shutil.which("strace") is not None and Traced(trial, ["steps"], b"").answer[2] == 0


def refused_reads(trial: Trial, words: list[str], data: bytes, errors: list[str]) -> None:
    """Each read refused: the answers to the lines before, and that it cannot read."""
    given = 0
    for nth, size in Traced(trial, words, data).on_stream("read", 0):
        for error in errors:
            got = Traced(trial, words, data, "read:error=%s:when=%d" % (error, nth)).answer
            trial.check("a read refused", words + [error, str(nth)], data, got, model.run(words, data[:given], True))
        given += max(size, 0)
    trial.check("reads counted", words, data, (given,), (len(data),))


def refused_writes(trial: Trial, words: list[str], data: bytes, errors: list[str]) -> None:
    """Each write refused, and each taking nothing: what was written before stays a beginning of the output."""
    whole, sent = model.run(words, data), 0
    writes = Traced(trial, words, data).on_stream("write", 1)
    for at, (nth, size) in enumerate(writes):
        if at < MOST_WRITES or at >= len(writes) - 3:
            for how in ["error=" + error for error in errors] + ["retval=0"]:
                got = Traced(trial, words, data, "write:%s:when=%d" % (how, nth)).answer
                trial.check("a write refused", words + [how, str(nth)], data, got, (whole[0][:sent], CANNOT_WRITE, 3))
            short_writes(trial, words, data, (nth, size), sent)
        sent += size
    trial.check("writes counted", words, data, (sent,), (len(whole[0]),))


def short_writes(trial: Trial, words: list[str], data: bytes, write: tuple[int, int], sent: int) -> None:
    """A write that takes a part only: the rest is written by the next one. What strace says was taken is lost."""
    (nth, size), (output, fault, status) = write, model.run(words, data)
    for taken in {1, size // 2, size - 1} - {0, size, -1}:
        got = Traced(trial, words, data, "write:retval=%d:when=%d" % (taken, nth)).answer
        expected = output[:sent] + output[sent + taken :], fault, status
        trial.check("a short write", words + [str(nth), str(taken)], data, got, expected)


def refused_faults(trial: Trial, words: list[str]) -> None:
    """Each write of the text of a fault refused: output and status stay, the text is a beginning."""
    whole = model.run(words)
    writes = Traced(trial, words, b"").on_stream("write", 2)
    trial.check("writes of faults counted", words, b"", (sum(size for _, size in writes),), (len(whole[1]),))
    for nth, _ in writes:
        for how in ("error=EIO", "error=EPIPE", "error=EINTR", "retval=0"):
            output, fault, status = Traced(trial, words, b"", "write:%s:when=%d" % (how, nth)).answer
            got = output, whole[1].startswith(fault), status
            trial.check("a text of faults refused", words + [how, str(nth)], b"", got, (whole[0], True, whole[2]))


def whole_answer(traced: Traced) -> Answer:
    """The answer of a run that no refusal touches."""
    return model.run(traced.words, traced.data)


def whole_answer_or_no_memory(traced: Traced) -> Answer:
    """That, or what the run answered, if it is out of memory with nothing read and nothing written."""
    has_no_memory = traced.answer == (b"", NO_MEMORY, 3) and not traced.on_stream("read", 0)
    return traced.answer if has_no_memory else whole_answer(traced)


def judge(trial: Trial, kind: str, traced: Traced, how: str, expected: Callable[[Traced], Answer]) -> None:
    """The run answers as is expected of it."""
    trial.check(kind, traced.words + [how], traced.data, traced.answer, expected(traced))


def refused_others(trial: Trial, words: list[str], data: bytes) -> None:
    """Each other call of the program's own refused, once and from then on. What the system's loader does before isn't judged."""
    traced = Traced(trial, words, data)
    for name, nth, _, _ in traced.calls[traced.own() :]:
        if name in NOT_HERE:
            continue
        is_memory = name in ("mmap", "mremap", "munmap", "mprotect")
        expected = whole_answer_or_no_memory if is_memory else whole_answer
        for error in ["ENOMEM"] if is_memory else ["EPERM", "EINTR", "ENOSYS"]:
            for how in ("%s:error=%s:when=%d" % (name, error, nth), "%s:error=%s:when=%d+" % (name, error, nth)):
                judge(trial, "another call refused", Traced(trial, words, data, how), how, expected)


def refused_growths(trial: Trial, words: list[str], data: bytes) -> None:
    """Each growth of memory refused, once and from then on: a refused brk answers the old break, as the system does."""
    traced = Traced(trial, words, data)
    own, old_break, seen = traced.own(), "0", {"brk": 0, "mmap": 0, "mremap": 0}
    for at, (name, nth, arguments, answer) in enumerate(traced.calls):
        if at >= own and name in GROWING and arguments != "NULL":
            from_here = ["brk:retval=%s:when=%d+" % (old_break, seen["brk"] + 1)]
            from_here += ["%s:error=ENOMEM:when=%d+" % (call, seen[call] + 1) for call in ("mmap", "mremap")]
            judge(
                trial,
                "every growth from one on refused",
                Traced(trial, words, data, *from_here),
                str(at),
                whole_answer_or_no_memory,
            )
            once = (
                "brk:retval=%s:when=%d" % (old_break, nth) if name == "brk" else "%s:error=ENOMEM:when=%d" % (name, nth)
            )
            judge(trial, "one growth refused", Traced(trial, words, data, once), once, whole_answer_or_no_memory)
        if name in seen:
            seen[name] = nth
        if name == "brk":
            old_break = answer


GROWTHS: list[Run] = [
    (["invert"], b"R U\nF2\n"),
    (["cleanup"], b"R U\nF2\n"),
    (["print"], b""),
    (["steps"], b""),
    (["scramble", "42", "54", "6", "1"], b""),
    (["invert", "R U' F2"], b""),
    (["unniss", " " * 120_000], b""),
    (["solve", "eofb", "7", "F"], b""),
    (["solve", "eo", "7"], b"F\n"),
    (["count", "dr-eofb", "5"], b"R U\n"),
    (["count", "drud-eorl", "5", "D"], b""),
    (["near", "dr-eoud", "2", "1", "R"], b""),
    ([], b""),
    (["unniss"] + ["R"] * 200, b""),
]


def calls(trial: Trial, draw: Drawing) -> None:
    """All of these, over a few commands each."""
    if not is_there(trial):
        print("skipped: no strace traces here, so no system call is refused")
        return
    trial.awaits(
        "a read refused",
        "a write refused",
        "a short write",
        "a text of faults refused",
        "another call refused",
        "one growth refused",
        "every growth from one on refused",
    )
    for words, data, errors in (
        (["invert"], b"R\nU\nF", ["EIO", "EINTR", "EAGAIN", "EISDIR"]),
        (["print"], lines(draw, 700, 6)[:9000] + b"\n", ["EIO", "EINTR"]),
        (["solve", "eofb", "2"], b"F\nB\n(U)\nF", ["EIO"]),
        (["unniss"], b"R\nq\n", ["EIO"]),
        (["cleanup"], lines(draw, 500, 8), ["EIO"]),
        (["count", "dr-eofb", "9"], b"R U\n\nL2 U" + b" " * 4100 + b"\nR", ["EIO"]),
        (["near", "eo", "2", "1"], b"F R U\nF B\nM", ["EIO"]),
    ):
        refused_reads(trial, words, data, errors)
    for words, data, errors in (
        (["solve", "eofb", "5", "F B"], b"", ["EIO", "EINTR", "EAGAIN", "ENOSPC"]),
        (["invert"], b"R\nU2\n\nM'\nq\n", ["EIO", "EINTR"]),
        (["scramble", "1", "2", "30", "3"], b"", ["EIO", "ENOSPC"]),
        (["steps"], b"", ["EIO"]),
        (["count", "drud-eofb", "5", "R U"], b"", ["EIO"]),
        (["near", "eo", "2", "1", "F R U"], b"", ["EIO"]),
        (["cleanup"], lines(draw, 60, 6), ["EIO"]),
        (["print"], lines(draw, 100, 6), ["EIO"]),
        (["unniss"], "\n".join([" ".join(draw.moves(256))] * 2).encode(), ["EIO"]),
    ):
        refused_writes(trial, words, data, errors)
    for words in (["invert", "q"], ["solve"], ["solve", "drud-eofb", "5", "F"]):
        refused_faults(trial, words)
    for words, data in ((["invert"], b"R U\nF2\n"), (["steps"], b""), (["solve", "eofb", "3"], b"F\n")):
        refused_others(trial, words, data)
    for words, data in GROWTHS:
        refused_growths(trial, words, data)

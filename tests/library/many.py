#!/usr/bin/env python3
"""Calls of the Python package on many lines: what is taken of an iterator and when, answers in the order of the lines, their progress, and threads.

    tests/library/many.py

The library is that of NISSY_LIBRARY. The answers themselves are tried by values.py.
"""
import itertools
import pickle
import sys
import threading
import time
from pathlib import Path
from typing import Any, Iterator, List, Optional

TOP = Path(__file__).resolve().parents[2]
sys.path[:0] = [str(TOP / "python"), str(TOP / "tests")]

import nissy
from tally import Tally, raised, tried

# the package as one calls it who looks at no types
untyped: Any = nissy


def ended(count: int, last: Any, taken: Optional[List[str]] = None) -> Iterator[Any]:
    """Lines, of which each is noted as it is taken, and what is none after them."""
    for _ in range(count):
        if taken is not None:
            taken.append("F")
        yield "F"
    if isinstance(last, Exception):
        raise last
    yield last
    yield from ["F"] * 10


def iterables(tally: Tally) -> None:
    """Lines come one at a time when they are asked for, and what they raise comes through, after the answers before it; by threads too."""
    taken: List[str] = []
    answers: Any = nissy.solve_all("eofb", ended(10**9, "", taken))
    tally.equal("nothing is taken before it is asked for", taken, [])
    tally.equal("the first two", (list(itertools.islice(answers, 2)), len(taken)), ([["F", "F'"]] * 2, 2))
    answers.close()
    tally.holds("an iterator that was closed is at its end", raised(StopIteration, lambda: next(answers)))
    tally.holds("arguments are judged at the call", raised(ValueError, lambda: untyped.solve_all("htr", [])))
    tally.equal(
        "a set, a tuple, a dict",
        [len(list(nissy.solve_all("eo", it))) for it in ({"R"}, ("R", "U"), {"R": 1})],
        [1, 2, 1],
    )
    nested: Any = nissy.solve_all("drud-eofb", (eo for eo, in nissy.raising(nissy.solve_all("eofb", ["U", "R"]))))
    tally.equal("an iterator over another one", [it[0] for it in nested], ["", ""])
    for threads in (1, 2, 5):
        tally.equal(
            "of nothing",
            (list(nissy.count_all("eofb", [], threads=threads)), list(nissy.facts_all([], threads))),
            ([], []),
        )
        for kind, last, said in (
            (TypeError, 3, "line 21: the line is a str or bytes, not int"),
            (KeyError, KeyError("mine"), "'mine'"),
            (TypeError, TypeError("mine"), "mine"),
        ):
            answers = nissy.count_all("eofb", ended(20, last), threads=threads)
            tally.equal("those before the last one", [it[:2] for it in itertools.islice(answers, 20)], [(1, 2)] * 20)
            tally.equal("what is raised then", str(raised(kind, lambda: next(answers))), said)
            tally.holds("it ends there", raised(StopIteration, lambda: next(answers)))
        answers = nissy.count_all("eofb", itertools.repeat("F"), threads=threads)
        tally.equal("the first two of lines without end", [it[:2] for it in itertools.islice(answers, 2)], [(1, 2)] * 2)
        answers.close()
        tally.holds("one that was closed is at its end", raised(StopIteration, lambda: next(answers)))


def pairs(tally: Tally) -> None:
    """Pairs of a scramble and a solution, of any kind, come one at a time; what is wrong with one has its number."""
    solved, unsolved = nissy.Check(True, 1, 1, ()), nissy.Check(False, 1, 1, ())
    taken: List[Any] = []
    given: List[Any] = [("R", "R'"), [b"R", "R"], ("R q", "R"), {"R": 1, "R q": 2}, iter([bytearray(b"R"), "R'"])]

    def each() -> Iterator[Any]:
        for pair in given:
            taken.append(pair)
            yield pair

    answers: Any = nissy.check_all(each())
    tally.equal("nothing is taken before it is asked for", taken, [])
    tally.equal("the first two", (list(itertools.islice(answers, 2)), len(taken)), ([solved, unsolved], 2))
    first, second, last = answers
    for fault, number, part, said in (
        (first, 3, "scramble", "line 3, scramble, column 3: not a move"),
        (second, 4, "solution", "line 4, solution, column 3: not a move"),
    ):
        tally.equal(
            f"the fault of {number}",
            (type(fault), fault.line, fault.part, str(fault)),
            (nissy.LineFault, number, part, said),
        )
        tally.equal("a copy of it", str(pickle.loads(pickle.dumps(fault))), said)
    tally.equal("the last one", last, solved)
    told: List[Any] = []
    tally.equal(
        "pairs of a list", list(nissy.check_all([("R", "R'")] * 2, progress=lambda *it: told.append(it))), [solved] * 2
    )
    tally.equal("how many are told", told[-1], (2, 2))
    for wrong, kind, words in (
        ("R U", TypeError, "a scramble and a solution are a list or another iterable, not str"),
        (("R",), ValueError, "a scramble and a solution are two, not 1"),
        (("R", 1), TypeError, "the solution is a str or bytes, not int"),
    ):
        answers = untyped.check_all([("R", "R'"), wrong])
        tally.equal("the one before", next(answers), solved)
        tally.equal(f"what is wrong with {wrong}", str(raised(kind, lambda: next(answers))), f"pair 2: {words}")
    tally.holds("arguments are judged at the call", raised(TypeError, lambda: untyped.check_all("R")))
    tally.holds("so is progress", raised(TypeError, lambda: untyped.check_all([], progress=3)))


def plain(answer: Any) -> Any:
    """An answer, or what a fault says."""
    return (type(answer), answer.column, answer.text) if isinstance(answer, nissy.LineFault) else answer


def are_gone() -> bool:
    """Whether the threads of calls end, which nobody waits for."""
    end = time.monotonic() + 20
    while any(it.name.startswith("nissy") for it in threading.enumerate()) and time.monotonic() < end:
        time.sleep(0.01)
    return time.monotonic() < end


def many(tally: Tally) -> None:
    """Many lines have the answers of each, in their order, by one thread and by several; other threads go on meanwhile, and none is left."""
    lines: List[Any] = (
        ["F", "R U F", ""] * 3000
        + ["R Q", "(R (U))", "\u2019", "R\ud800", b"R\0", "(R\nU", "\n", b"R", bytearray(b"F B")]
    ) * 3
    calls: List[Any] = [
        (lambda threads: nissy.count_all("eofb", lines, threads=threads), lambda it: nissy.count("eofb", it)),
        (lambda threads: nissy.facts_all(iter(lines), threads), nissy.facts),
        (lambda threads: nissy.solve_all("eofb", lines, threads=threads), lambda it: nissy.solve("eofb", it)),
    ]
    for call, alone in calls:
        of_each = {
            str(line): plain(raised(nissy.LineFault, lambda: alone(line)) or alone(line)) for line in lines[-100:]
        }
        for threads in (1, 2, 5):
            answers = list(call(threads))
            tally.holds(
                f"{len(lines)} lines by {threads} threads",
                list(map(plain, answers)) == [of_each[str(line)] for line in lines],
            )
            faulty = [at for at, it in enumerate(answers, 1) if isinstance(it, nissy.Fault)]
            tally.equal("the lines of faults", [answers[at - 1].line for at in faulty], faulty)
    counting, turns = threading.Thread(target=lambda: sum(1 for _ in nissy.count_all("eofb", ["R U F"] * 200_000))), 0
    counting.start()
    begun = time.monotonic()
    while counting.is_alive() and turns < 100:
        time.sleep(0.0001)
        turns += 1
    tally.holds("other threads go on", turns >= 20 or time.monotonic() - begun < 0.02)
    counting.join()
    tally.holds("no thread is left", are_gone())


def refilled(tally: Tally) -> None:
    """Lines in a buffer that their iterator fills anew for each one are read as they come."""
    lines = [b"R", b"U2", b"F R U", b"R Q", b""] * 1000
    buffer, fixed = bytearray(), bytearray(8)

    def in_one() -> Iterator[Any]:
        for line in lines:
            buffer[:] = line
            yield buffer

    def in_view() -> Iterator[Any]:
        for line in lines:
            fixed[:] = line.ljust(8)
            yield memoryview(fixed)

    calls: List[Any] = [
        nissy.facts_all,
        lambda it, **given: nissy.count_all("eofb", it, **given),
        lambda it, **given: nissy.solve_all("eofb", it, **given),
    ]
    for call, threads in itertools.product(calls, (1, 2, 5)):
        wanted = list(map(plain, call(lines)))
        for given in (in_one, in_view):
            tally.holds(
                f"{given.__name__}, {threads} threads", list(map(plain, call(given(), threads=threads))) == wanted
            )
    tally.equal(
        "moves of them", [it.moves for it in nissy.facts_all(in_one()) if isinstance(it, nissy.Facts)][:4], [1, 1, 3, 0]
    )
    says_of_third = str(raised(TypeError, lambda: list(untyped.facts_all(iter([b"R", bytearray(b"U"), 3])))))
    tally.equal("what is no line", says_of_third, "line 3: the line is a str or bytes, not int")


def progress(tally: Tally) -> None:
    """How many lines are done is told in the thread that asks, more and more often than once, and of how many where that is known; what is
    raised there ends the call."""
    lines: List[Any] = ["F", "R U F", "R Q", ""] * 5000
    calls: List[Any] = [
        lambda it, **given: nissy.count_all("eofb", it, **given),
        lambda it, **given: nissy.solve_all("eofb", it, **given),
        nissy.facts_all,
    ]
    told: List[Any] = []

    def tell(*given: object) -> None:
        told.append((*given, threading.get_ident()))

    def stop(done: int, _: object) -> None:
        if done > 5:
            raise InterruptedError

    for call, threads in itertools.product(calls, (1, 2, 5)):
        wanted = list(map(plain, call(lines)))
        for given, count in ((lines, len(lines)), (iter(lines), None)):
            told.clear()
            tally.holds(
                "the answers are the same", list(map(plain, call(given, threads=threads, progress=tell))) == wanted
            )
            done, of, by = zip(*told)
            tally.equal("all are done in the end", told[-1][:2], (len(lines), len(lines)))
            tally.equal("of how many, and by whom", (set(of[:-1]), set(by)), ({count}, {threading.get_ident()}))
            tally.holds(
                "it never goes back, and is told in pieces",
                list(done) == sorted(done) and 0 < done[0] and 3 < len(done) < len(lines) // 4,
            )
        told.clear()
        answers = call(itertools.repeat("F"), threads=threads, progress=tell)
        tally.equal("nothing is told before it is asked for", told, [])
        next(answers)
        answers.close()
        tally.equal("the first", told[0][:2], (1, None))
        told.clear()
        tally.equal(
            "of nothing", (list(call([], threads=threads, progress=tell)), [it[:2] for it in told]), ([], [(0, 0)])
        )
        answers = call(lines, threads=threads, progress=stop)
        tally.holds("what it raises", raised(InterruptedError, lambda: list(answers)))
        tally.holds("it ends there", raised(StopIteration, lambda: next(answers)))
        tally.holds("it is a function", raised(TypeError, lambda: call(lines, threads=threads, progress=3)))
    tally.holds("no thread is left", are_gone())


if __name__ == "__main__":
    tried(iterables, pairs, many, refilled, progress)

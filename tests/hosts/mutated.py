#!/usr/bin/env python3
"""Texts as solvers write them, each changed in some places, read by each host: all tell the same of each.

    tests/hosts/mutated.py SEED COUNT HOST..

A host is one of hosts.py, with the library of NISSY_LIBRARY, and here a process of its own: all read side by side, and each many texts without a
wait between. The first one's answers are those of the others; Python's are tried by plain.py. C tells all but the parts of attempts and known
scrambles, which it has no wrapper for. The last line is `N passed, M failed`, and the status is 1 if M isn't 0.
"""
from __future__ import annotations

import random
import sys
from concurrent.futures import ThreadPoolExecutor
from itertools import islice
from typing import Callable, Iterator, List, Set

from hosts import PARTED, Caller, callers_of, question, told_by  # isort: skip

import called
from tally import Tally

# which part of what is told of a text has the doubts
DOUBTS = 2
# how many texts a host is asked of before the others' answers are looked at
PORTION = 1000
# scrambles that some of the texts solve
KNOWN = b"R' U' F D2 L2 F R2 U2 R2 B D2 L B2 D' B2 L' R' B' D2 B2 R' U' F\nR U F\nR' U' F L2 D B2 U R2 F2 D2 B U2 L R' U' F\n"
# what a change puts in: signs that are read otherwise than others, and words of scrambles, sides and solutions
SIGNS = list(
    "RUFDLBMESxyzrw2'\u2019\u2032\u00b4` ()[]<>{}0123456789.,;:/#*|-\u2013\u2014=+_>~\"\\\t\r\n\u00a0\u3000\u2028\u200b\ufeff"
    "\u00e9\u0301\uff1a\u89e3\u0660\u2164\U0001f600\U00010400"
)
WORDS = (
    "\n\n~\r\n~// ~ - ~Scramble: ~Scramble 2:~Attempt 3 of 3~2. ~#2 ~E1 ~E2 ~Extra 1 ~Solution: ~Final solution: ~"
    "EO: ~DR - ~Inverse: ~on inverse~(inv)~NISS~premoves ~switch~(24)~[5/11]~(12 moves)~ = 23~F2L ~DR ~DNF~"
    "R' U' F D R' U' F~R' U' F ~R U F\n~F' U' R'\n~23\n~Solution~[0:12] ~| ~Time: 45:12~\u6253\u4e71\uff1a"
).split("~")


def cut(draw: random.Random, text: str) -> str:
    """Without some signs in a row."""
    begin = draw.randrange(len(text) + 1)
    return text[:begin] + text[begin + draw.randrange(12) :]


def put(draw: random.Random, text: str) -> str:
    """With a sign or a word more."""
    at = draw.randrange(len(text) + 1)
    return text[:at] + draw.choice(draw.choice((SIGNS, WORDS))) + text[at:]


def turned(draw: random.Random, text: str) -> str:
    """With a sign in place of another."""
    at = draw.randrange(len(text) + 1)
    return text[:at] + draw.choice(SIGNS) + text[at + 1 :]


def moved(draw: random.Random, text: str) -> str:
    """With a line in another place."""
    lines = text.split("\n")
    lines.insert(draw.randrange(len(lines) + 1), lines.pop(draw.randrange(len(lines))))
    return "\n".join(lines)


def doubled(draw: random.Random, text: str) -> str:
    """With a line twice."""
    lines = text.split("\n")
    lines.insert(draw.randrange(len(lines) + 1), draw.choice(lines))
    return "\n".join(lines)


CHANGES: List[Callable[[random.Random, str], str]] = [cut, put, put, turned, turned, moved, doubled]


def mutated(draw: random.Random, count: int, texts: List[str]) -> Iterator[str]:
    """Texts of which each is changed, or has the end of another one."""
    for _ in range(count):
        text = draw.choice(texts)
        if draw.random() < 0.1:
            other = draw.choice(texts)
            text = text[: draw.randrange(len(text) + 1)] + other[draw.randrange(len(other) + 1) :]
        for _ in range(draw.randrange(5)):
            text = draw.choice(CHANGES)(draw, text)
        yield text


def answers(host: Caller, texts: List[str]) -> List[str]:
    """What a host tells of each text, as it is written."""
    known = [KNOWN] if host.name != "C" else []
    return host.answers_to([question("text", text.encode(), *known) for text in texts])


def parts(answer: str) -> List[str]:
    """An answer as it is read."""
    return told_by(answer).decode().split(PARTED)


def compare(tally: Tally, host: Caller, texts: List[str], told: List[str], of_first: List[str]) -> None:
    """What a host tells of texts, beside what the first one does."""
    for text, got, wanted in zip(texts, told, of_first):
        # what C tells ends after its last part
        same = got == wanted or (host.name == "C" and wanted.startswith(got.rstrip()))
        # one line for all that hold
        tally.holds("" if same else f"{text!r} in {host.name}: {parts(got)!r} for {parts(wanted)!r}", same)


def main() -> None:
    """Each text, by each host."""
    tally, (seed, count) = Tally(), map(int, sys.argv[1:3])
    hosts = callers_of(sys.argv[3:])
    draw = random.Random(seed)
    base = [
        *(kind.text for kind in called.kinds()),
        *(text for text, _ in called.rows("attempts")),
        *(text for text, *_ in called.rows("plain")),
    ]
    seen: Set[str] = set()
    texts = mutated(draw, count, base)
    with ThreadPoolExecutor(len(hosts)) as room:
        while portion := list(islice(texts, PORTION)):
            of_first, *of_others = room.map(answers, hosts, [portion] * len(hosts))
            for wanted in of_first:
                seen.update(line.partition("@")[0] for line in parts(wanted)[DOUBTS].split("\n"))
            for host, told in zip(hosts[1:], of_others):
                compare(tally, host, portion, told, of_first)
    tally.holds(f"each kind of doubt is there: {seen}", count < 10_000 or len(seen) == 13)
    for host in hosts:
        tally.equal(f"{host.name} ends, and has said no more", host.end(), 0)
    tally.end()


if __name__ == "__main__":
    main()

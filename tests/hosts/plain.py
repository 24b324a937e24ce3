#!/usr/bin/env python3
"""Texts as solvers write them, read by each host as one line and as attempts: the rows of tests/calls.tsv, and drawn texts. All hosts read them
by the engine, C++ and JavaScript as Python does, which tells of checks what its other calls tell.

    tests/hosts/plain.py SEED COUNT HOST..

A host is one of hosts.py, with the library of NISSY_LIBRARY. The last line is `N passed, M failed`, and the status is 1 if M isn't 0.
"""
from __future__ import annotations

import random
import sys
import time
from typing import Dict, Iterator, List, Tuple

from hosts import Host, Python, checked, hosts_of, line_and_column, told  # isort: skip

import called
import nissy
from tally import Tally

# by each call what is given to it, texts mostly, each with what is told of it
Texts = Dict[str, List[List[str]]]
PARTS = """R U2 F' L\u2019 B\u2032 ( ) ` ' \u02bc EO DR Final finale R\u00e9duction re\u0301 \u042d\u041e \u89e3 \U00010400 F2L EO\u00b2 \u00bd A
    Inverse NISS premoves R2w Scramble SCRAMBLE scramble 1. 23) 4 . // / , ; _ - \u2192 \U0001f600 \u200b \u2060 \ufeff
    (2) [1/5] (12 (3] \uff1a""".split() + [
    "(12 moves)",
    "[1 MOVE]",
]
BLANKS = [" "] * 3 + [": ", ":"] + ["\n"] * 2 + ["\r\n", "\r", "\t", "\u00a0", "\u2009", "\u2028", "\u3000", "\u0085"]
BLANKS += [""] * 2 + ["\n\n", " : "]
ALL_NAMES = {"labels", "numbers of moves", "comments", "line numbers", "commas", "signs that aren't seen"}
# what lines of attempts begin with, and go on with
HEADS = (
    "|||| |1. |2) |(3)|#4 |5 |6.07 |E1 |E2 |Extra 1: |Scramble 2:|scramble: |Attempt 3 of 3|Attempt 4/5 - |attempt|"
    "EO: |Solution: |\u00c9tape finale\u00a0: |my solution :|R\u00e9solution: |Inverse: |NISS: |R2: |// |\u2028|"
    "a\u00b2b |1. Scramble: |Solution (3): |EO 2: |Final solution: |\u6253\u4e71\uff1a|R' U' F D R' U' F"
).split("|")
RESTS = (
    "||| |\r|R U|(F2 D\u2019)|L, B // hello|// a note|Hi all|thanks a lot|R (U F) \U0001f600|q|\u200bD\r|3 of 3|"
    "F\rEO: D|\rInverse: R\r(U)|R\u2028Switch: (U // F)|a/b // c| //\u3000d\ufeff|\x1c|2 3. U|R' U' F D R' U' F|"
    "L (2)|Time: 45:12|D // hard|F // EO|I liked it.|D // \u03b9EO|L // a\u2028DR|[3/5] U2 // (3)"
).split("|")
# long texts, with the numbers of their attempts, and of all steps and candidates of these
LONG = {
    "\r" * 1_000_000: "1 0 0",
    "1.\n" * 100_000: "1 0 0",
    "R U // x\n" * 50_000: "1 49999 0",
    "Inverse:\r" * 50_000: "1 0 0",
    "1. R\n" * 20_000: "20000 0 0",
    "R U\n\n" * 20_000: "1 0 19999",
    "Solution: R\n\n" * 20_000: "1 0 19999",
    "Final solution: R\n\n" * 20_000: "1 1 19999",
    "1. Scramble: R\n" * 20_000: "20000 0 0",
    "R' U' F D R' U' F\n" * 15_000: "15000 0 0",
    "Solution (1): R\nR (2) // EO\n" * 10_000: "1 1 19998",
}
SOON = 60
# scrambles and solutions, of which many belong together, some have forms, and others are at fault
CHECKED = [
    "R",
    "R'",
    "R\u2032",
    "R2",
    "R2'",
    "(R)",
    "(R')",
    "M",
    "M\u2019",
    "r Lw'",
    "x",
    "",
    "D (M2 r2\u2019)",
    "\u2028R, U",
    "U' R'",
    "R q",
    "(R",
    "R\u00b4 \u00c9F",
    "R " * 257,
    "\U0001f600 R",
]


def wanted_lines() -> Iterator[List[str]]:
    """Each row of the table that is a line: a text, and what is told of it."""
    for text, line, places, names in called.rows("plain"):
        ranges = (it.partition("-") for it in places.split())
        each = [str(at) for first, _, last in ranges for at in range(int(first), int(last or first) + 1)]
        yield [text, f"{line}\n{' '.join(each)}\n{names}"]


def drawn(draw: random.Random, count: int) -> Iterator[str]:
    """Texts of the signs that are read otherwise than others, each in any place."""
    for _ in range(count):
        yield "".join(draw.choice(BLANKS) + draw.choice(PARTS) for _ in range(draw.randrange(9))) + draw.choice(BLANKS)


def drawn_sheets(draw: random.Random, count: int) -> Iterator[str]:
    """Texts of several lines, of which each may begin an attempt, a block, or a solution."""
    for _ in range(count):
        yield "\n".join(draw.choice(HEADS) + draw.choice(RESTS) for _ in range(draw.randrange(12)))


def drawn_solutions(draw: random.Random, count: int) -> Iterator[str]:
    """Texts of scrambles with a solution each, which a comment or a label tells, or with none."""
    for _ in range(count):
        pairs = [
            (
                draw.choice(CHECKED),
                draw.choice(("{}", "{} // \u00e9", "EO: {}", "\n{}", "")).format(draw.choice(CHECKED)),
            )
            for _ in range(draw.randrange(1, 5))
        ]
        yield "\n".join(f"{at}. {scramble}\n{solution}" for at, (scramble, solution) in enumerate(pairs, 1))


def checks_by_calls(text: str) -> str:
    """What other calls tell of the attempts of a text: `check`, `form_places`, and `place_of`."""

    def of_fault(fault: nissy.LineFault, it: nissy.Attempt) -> str:
        name, plain = ("scramble", it.scramble) if fault.line == 1 else ("solution", it.solution)
        place = nissy.place_of(fault, plain, text) if plain else None
        return f"|{name}:{fault.column}:{fault.text}@{line_and_column(place)}|"

    def of_attempt(it: nissy.Attempt) -> str:
        try:
            solution = it.solution or nissy.plain_line("")
            said = checked(nissy.check(it.scramble.line, solution.line))
        except nissy.LineFault as fault:
            return of_fault(fault, it)
        forms = [
            f"{each.text}/{','.join(each.forms)}@{line_and_column(nissy.place_of(each, solution, text))}"
            for each in nissy.form_places(solution.line)
        ]
        return f"{said}||{' '.join(forms)}" if it.solution else "||"

    return "\n".join(map(of_attempt, nissy.read_attempts(text)))


def names_of(tally: Tally, lines: List[str]) -> None:
    """What is told of lines has each name of what may be left out."""
    tally.equal(
        "each name is there", {name for it in lines for name in it.rpartition("\n")[2].split("|") if name}, ALL_NAMES
    )


def kinds_of(tally: Tally, sheets: List[str]) -> None:
    """What is told of attempts has each field, several attempts, a solution of its own, and one without steps."""
    fields = [line.split("|") for it in sheets for line in it.split("\n")]
    seen = [any(it[at] not in ("", "0") for it in fields) for at in range(6)]
    tally.equal("each field is there", seen, 6 * [True])
    tally.holds("several attempts are", any("\n" in it for it in sheets))
    tally.holds(
        "a solution that isn't its steps", any("/" not in it[3] and it[4] not in (it[3], "none") for it in fields)
    )
    tally.holds("steps, and no solution that can be told", any(it[3] and it[4] == "none" for it in fields))


def checks_of(tally: Tally, sheets: List[str]) -> None:
    """What is told of checks has solved and unsolved attempts, faults of both parts, forms, and attempts without any."""
    fields = [line.split("|") for it in sheets for line in it.split("\n")]
    seen = {check[:1] + fault.partition(":")[0] + "forms" * (forms != "") for check, fault, forms in fields}
    tally.equal("each kind of check is there", seen, {"1", "0", "1forms", "0forms", "scramble", "solution", ""})


def times_of(tally: Tally, host: Host) -> None:
    """A host reads long texts in a time by their length: by its square they would take minutes."""
    for text, wanted in LONG.items():
        begun = time.monotonic()
        tally.equal(
            f"attempt_counts of {text[:12]!r} and so on in {host.name}",
            told(host, "attempt_counts", text.encode()),
            wanted,
        )
        tally.holds(f"{text[:12]!r} and so on soon in {host.name}", time.monotonic() - begun < SOON)


def is_told(tally: Tally, host: Host, texts: Texts) -> None:
    """A host tells of texts what is wanted."""
    for call, those in texts.items():
        for *given, wanted in those:
            tally.equal(
                f"{call} of {given!r} in {host.name}", told(host, call, *(text.encode() for text in given)), wanted
            )


def drawn_pairs(draw: random.Random, count: int) -> Iterator[List[str]]:
    """Several pairs of a scramble and a solution, each on a line, with what is told of each pair alone."""
    lines = [line for line in CHECKED if "\u2028" not in line]
    for _ in range(count):
        pairs = [(draw.choice(lines), draw.choice(lines)) for _ in range(draw.randrange(1, 5))]
        yield ["".join(f"{line}\n" for pair in pairs for line in pair), "\n".join(map(check_alone, pairs))]


def check_alone(pair: Tuple[str, str]) -> str:
    """What is told of a pair alone."""
    try:
        return checked(nissy.check(*pair))
    except nissy.LineFault as fault:
        return f"{fault.part}:{fault.column}:{fault.text}"


def drawn_known(draw: random.Random, count: int) -> Iterator[List[str]]:
    """Texts of several lines, with some scrambles that are known."""
    for text in drawn_sheets(draw, count):
        yield [
            text,
            "".join(f"{line}\n" for line in draw.sample(["R U", "F", "R' U' F D R' U' F", "q", ""], draw.randrange(5))),
        ]


def by_host(host: Host, drawn_texts: Dict[str, List[List[str]]]) -> Texts:
    """What is given to calls, each with what a host tells of it."""
    return {
        call: [[*given, told(host, call, *(text.encode() for text in given))] for given in those]
        for call, those in drawn_texts.items()
    }


def main() -> None:
    """All rows and texts, by each host."""
    tally, python, (seed, count) = Tally(), Python(), map(int, sys.argv[1:3])
    draw = random.Random(seed)
    sheets, kinds = list(drawn_sheets(draw, count)), [kind.text for kind in called.kinds()]
    solved = [*sheets, *drawn_solutions(draw, count), *kinds]
    rows: Texts = {
        "plain_line": list(wanted_lines()),
        "read_attempts": list(called.rows("attempts")),
        "known_checks": list(called.rows("known")),
    }
    by_calls = [[text, checks_by_calls(text)] for text in [*solved, *(text for text, _ in rows["read_attempts"])]]
    is_told(tally, python, {**rows, "check_attempts": by_calls, "check_all": list(drawn_pairs(draw, count // 10))})
    ours = by_host(
        python,
        {
            "plain_line": [[it] for it in drawn(draw, count)],
            "read_attempts": [[it] for it in sheets],
            "check_attempts": [[it] for it in solved],
            "attempt_doubts": [[it] for it in solved],
            "known_checks": list(drawn_known(draw, count)),
            "check_all": [[it] for it, _ in drawn_pairs(draw, count // 10)],
        },
    )
    for host in hosts_of(sys.argv[3:]):
        if not isinstance(host, Python):
            is_told(tally, host, rows)
            is_told(tally, host, ours)
        times_of(tally, host)
        tally.equal(f"{host.name} ends, and has said no more", host.end(), 0)
    for call, check in (("plain_line", names_of), ("read_attempts", kinds_of)):
        check(tally, [wanted for _, wanted in rows[call]])
        check(tally, [wanted for _, wanted in ours[call]])
    checks_of(tally, [wanted for _, wanted in by_calls])
    tally.end()


if __name__ == "__main__":
    main()

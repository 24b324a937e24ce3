#!/usr/bin/env python3
"""Drawn questions to `best`: what Python and each host answer beside C's own calls, byte for byte; the rows beside the independent model, which knows
only the definition; and whether rows go on as they say.

    tests/hosts/best.py SEED COUNT SLACK MODEL COUNTED HOST..

SLACK is that of the questions. MODEL is what was compiled of tests/model/ways.cpp, which has the first COUNTED of them again that aren't cut, and
the rows of the first COUNTED that are. A host is one of hosts.py, with the library of NISSY_LIBRARY. The last line is `N passed, M failed`, and the
status is 1 if M isn't 0.

A question comes to a host as `best SCRAMBLE SO_FAR SLACK MOST NODES PARTIAL ASKS`: PARTIAL is 1 if what was found until a cut is wanted, ASKS how
often `stop` is asked before it ends the search, 2^64 - 1 if it never does. The answer has a line for each row, and then `cut` if it was cut:

    TOTAL;LINE;EO or none;DR;LENGTH ON NORMAL or none;LENGTH ON INVERSE or none;CASE

with an orientation and a reduction as `STEP;MOVES;MOVES ON NORMAL;MOVES ON INVERSE;LENGTH;TWINS`, of which TWINS are parted by commas. All hosts
search in the same pieces, so a bound cuts all of them alike: of each length of the first step, from none on, on each axis in the order F B, R L,
U D, as long as it has longer ones, with the rows before in the room and the nodes that they left.
"""
from __future__ import annotations

import sys
from typing import List, Tuple

from hosts import Host, Python, fault_of, hosts_of, told  # isort: skip

import nissy

from goes_on import goes_on
from questions import Question, drawn
from tally import Tally, side_by_side
from ways import MOST_ROWS, Asked, C, as_model, by_model

CUT = fault_of(0, 0, "cut")
# of so many rows of a question it is tried that they go on
GONE_ON = 5
# one whose best rows take back the F2 that stands before a B, one of a reduced cube, and two that are cut
FIXED = (
    Question("R' B U2 R' U' L' B' D F2 L D' L2 R2 U B F2 D R2 L F R' F L' D L", "L F2 B"),
    Question("U R F", "F' R"),
    Question("U R F L D", "", 0, 20, 500),
    Question("U R F D", "(F)", 0, 20, 2000, 1),
)
# more pieces than any question here has
NO_STOP = 10**9
# questions of the model at once, of which each process builds its tables
CHUNK = 8
# the last line of an answer that was cut
CUT_LINE = "cut"
# by the slack: up to so many moves in all the rows of a cut answer are looked for
MOST_OF_CUT = (20, 11, 10)


def answers(host: Host, questions: List[Question]) -> List[str]:
    """What a host answers."""
    return [told(host, "best", it.scramble.encode(), it.so_far.encode(), *it[2:]) for it in questions]


def of_c(c: C, question: Question) -> str:
    """What a host is to answer, by C's calls."""
    said = c.in_pieces(question, "%d %d", CUT)
    if ";" in said or said in ("", CUT) or said.endswith("cut\n"):
        return said
    line, column = map(int, said.split())
    try:
        nissy.line_after(question.scramble, question.so_far)
    except nissy.Fault as fault:
        return fault_of(line, column, fault.text)
    return fault_of(2, 0, "more than 256 moves")


def asked_of(question: Question, said: str) -> Asked:
    """What the model is asked beside an answer: its rows, or if it was cut all with at most as many moves in all, as far as the model has them in a
    moment."""
    rows = said.splitlines()
    if CUT_LINE not in rows:
        return Asked(question, question.most)
    return Asked(question, MOST_ROWS, min([total_of(row) for row in rows[:-1]][-1], MOST_OF_CUT[question.slack]))


def total_of(row: str) -> int:
    """The moves in all of a row."""
    return int(row.split(";")[0])


def counted(tally: Tally, program: str, answered: List[Tuple[Question, str]]) -> None:
    """Answers beside the model: all rows, or those of one that was cut among the model's."""
    asked = [asked_of(*each) for each in answered]
    chunks = [asked[at : at + CHUNK] for at in range(0, len(asked), CHUNK)]
    rows = [each for part in side_by_side(tally, 2, lambda some: by_model(program, some), chunks) for each in part]
    for (question, said), it, ours in zip(answered, asked, rows):
        theirs = [as_model(row) for row in said.splitlines() if row != CUT_LINE and total_of(row) <= it.total]
        of_cut = [row for row in ours if row in theirs]
        tally.equal(f"{question} by the model", theirs, of_cut if CUT_LINE in said else ours)
    tally.equal("all are counted", len(rows), len(answered))


def stopped(tally: Tally, hosts: List[Host], python: Host, slack: int) -> None:
    """A question that is stopped has the rows of one that is cut there, and those of Python in C++, which asks as often."""
    for question in (Question("R U", "", slack), Question("R U F D", "B (L)", slack)):
        whole = answers(python, [question])[0]
        asked = [question._replace(asks=asks, partial=1) for asks in (0, 1, 2, 9, NO_STOP)]
        for host in [python, *hosts]:
            got = answers(host, asked)
            tally.equal(
                f"{question}: none before the first piece, and all at the end, in {host.name}",
                (got[0], got[-1]),
                ("cut\n", whole),
            )
            tally.equal("it is that of Python", got, answers(python, asked))
            tally.equal(
                "it is cut if that isn't wanted", answers(host, [it._replace(partial=0) for it in asked[:2]]), [CUT] * 2
            )


def main() -> None:
    """All questions, by each host."""
    tally, python, c, (seed, count, slack) = Tally(), Python(), C(), map(int, sys.argv[1:4])
    questions, hosts = [*FIXED, *drawn(seed, count, slack)], hosts_of(sys.argv[6:])
    wanted = [of_c(c, question) for question in questions]
    for host in [python, *hosts]:
        for question, ours, theirs in zip(questions, wanted, answers(host, questions)):
            tally.equal(f"{question} in {host.name}", theirs, ours)
    answered = [each for each in zip(questions, wanted) if not each[1].startswith("fault")]
    whole, cut = ([each for each in answered if (CUT_LINE in each[1]) == is_cut] for is_cut in (False, True))
    for question, said in whole:
        tally.equal(f"{question} by one call of C", c.whole(question), said)
        rows = nissy.best(question.scramble, question.so_far, slack=slack, most=GONE_ON)
        tally.holds(f"{question}: rows go on so", all(goes_on(question, row) for row in rows))
    most = int(sys.argv[5])
    counted(tally, sys.argv[4], [*whole[:most], *[each for each in cut if ";" in each[1]][:most]])
    stopped(tally, [host for host in hosts if host.name != "JavaScript"], python, slack)
    for host in hosts:
        tally.equal(f"{host.name} ends, and has said no more", host.end(), 0)
    tally.holds(
        "some have rows, some have none, and some are cut",
        any(";" in it for it in wanted) and "" in wanted and CUT in wanted,
    )
    tally.end()


if __name__ == "__main__":
    main()

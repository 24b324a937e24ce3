#!/usr/bin/env python3
"""Texts in the ways that solvers write attempts, those of tests/attempts.tsv and others made of words: none may be read wrongly without a word, and
none that is read right may be in doubt. Those of tests/misread.tsv are known to be.

    tests/library/kinds.py
"""
import ctypes
import itertools
import random
import re
import sys
from pathlib import Path
from types import FrameType
from typing import Dict, Iterator

sys.path[:0] = [str(Path(__file__).resolve().parents[1]), str(Path(__file__).resolve().parents[2] / "python")]

import nissy
from called import Kind, kinds as listed
from nissy import _library
from tally import Tally, tried

FIRST = "R' U' F D2 L2 F R2 U2 R2 B D2 L B2 D' B2 L' R' B' D2 B2 R' U' F"
SECOND = "R' U' F L2 D B2 U R2 F2 D2 B U2 L R' U' F"
# what undoes them, and that in steps
STEPS = ["F' U R B2 D2", "B R L B2 D B2", "L' D2 B' R2 U2 R2", "F' L2 D2 F' U R"]
OF_FIRST, OF_SECOND = " ".join(STEPS), "F' U R L' U2 B' D2 F2 R2 U' B2 D' L2 F' U R"
# the last two steps as they are on the inverse
ON_INVERSE = "R' U' F D2 L2 F R2 U2 R2 B D2 L"
# words before each of two scrambles, and before a solution after its steps
HEADS = """Solve %d|Day %d:|Week %d|Cube %d|Try %d:|FMC %d:|Mo3 %d:|Scr %d:|Puzzle %d|Versuch %d|Mezcla %d|\u6253\u4e71 %d:|Attempt no. %d
Group 1 scramble %d|Attempt %d (23 moves)|Attempt %d - 23 moves|Attempt %d, 23 moves|%d. 23 moves|%d. 23|%d) (23)|[%d]|----%d""".replace(
    "\n", "|"
).split(
    "|"
)
# words before each of two solutions of scrambles that are known
KNOWN = "Attempt %d|Attempt %d: 16 moves|Scramble #%d|%d.|%d) 16|#%d:|Cube %d|CUBE #%d:|Cube %d (16)|Solve %d|Solve %d - 16 moves"
ENDS = """Final|Total|Full|Result|All|Sol|Answer|Submitted|Together|Summary|Cleaned|L\u00f6sung|Soluci\u00f3n|Rozwi\u0105zanie|\u89e3\u6cd5|Final answer""".split(
    "|"
)
SIDES = "Inverse|Reverse|Inverted|Inversed|Inverso|Invers|Other side|Second side|EOinv|Backwards|NISSed|DR premoved|Odwrotnie|Obratno".split(
    "|"
)
COMMENTS = "on inverse|DR (inv)|NISS|premoves|inverse|reverse|on the inverse|DR on inv|EOinv".split("|")
# seconds of a processor: what takes a time by the square of a text's length takes hours
SOON = 5
# the first one without its first apostrophe
LOST = FIRST.replace("'", "", 1)
# a scramble that neither begins nor ends with R' U' F, and its steps; the same of another one
FREE = "U2 B' R2 U2 D2 R F' U' F U2 B2 D2\nU2 F U' L D' U2 R2 F' U' L2 R'"
WHOLE = FREE.replace("\n", " ")
FREE_STEPS = "R L2 U F // EO\nR2 U2 D L' U F' U2 D2 // DR\nB2 U2 F' U F R' D2 U2 R2 B U2 // finish"
OTHER = "F2 U2 L D F U' R2 B L R2 U2 B' D' R F L B2 D F' B' U2 D F2"
OTHER_STEPS = "F2 D' U2 B // EO\nF D' B2 L' F' R' D B // DR\nU2 R2 L' B' R2 U F' D' L' U2 F2 // finish"
# their steps as one line each, and the first solution with a letter lost
WHOLE_STEPS, WHOLE_OF_OTHER = (re.sub(r" // \w+\n?", " ", it).strip() for it in (FREE_STEPS, OTHER_STEPS))
SLIPPED = OF_FIRST.replace("L' D2", "L D2")
# how many are read right, of the table and of those that words make: what is stays so
LEAST_RIGHT, LEAST_RIGHT_BY_WORDS = 376, 118
WORDS = "F2L LL xD BLD LUL FML LS ELL SB Dry Bu DR FR EO".split()


def of_words() -> Iterator[Kind]:
    """Kinds that a word makes."""
    labelled = "\n".join(f"{name}: {step}" for name, step in zip(("EO", "DR", "HTR", "finish"), STEPS))
    for head in HEADS:
        yield Kind(
            f"the head {head}", f"{head % 1}\n{FIRST}\n{OF_FIRST}\n\n{head % 2}\n{SECOND}\n{OF_SECOND}", [True, True]
        )
    for end in ENDS:
        yield Kind(f"steps, then {end}", f"Scramble: {FIRST}\n\n{labelled}\n{end}: {OF_FIRST}", [True])
    for side in SIDES:
        yield Kind(f"the label {side}", f"{FIRST}\n\nEO: {STEPS[0]}\n{side}: {ON_INVERSE}\nfinish: {STEPS[1]}", [True])
    for comment in COMMENTS:
        yield Kind(
            f"the comment {comment}",
            f"{FIRST}\n\n{STEPS[0]} // EO\n{ON_INVERSE} // {comment}\n{STEPS[1]} // finish",
            [True],
        )
    for word in WORDS:
        for form in ("{0} {1}", "{1} {0}", "{0}\t{1}", "{0}\n{1}", "{1}\n{0}", "{0} ({1})", "{0} - {1}", "{0}; {1}"):
            yield Kind(f"{word} in {form!r}", f"Scramble: {FIRST}\n\n{form.format(OF_FIRST, word)}", [True])
    yield Kind("a solution, then its steps", f"Scramble: {FIRST}\nSolution: {OF_FIRST}\n{labelled}", [True])
    yield Kind(
        "steps on one line", f"{FIRST}\nSolution: {STEPS[0]} // EO {STEPS[1]} // DR {' '.join(STEPS[2:])}", [True]
    )


def verdict(kind: Kind) -> str:
    """How a text is read: right, at fault, in doubt, without a solution, or silently wrong."""
    checks = nissy.check_attempts(kind.text)
    found = [None if it.check is None else it.check.solved for it in checks]
    is_doubted = any(it.doubt for it in checks)
    if any(it.fault for it in checks):
        return "fault"
    if found == kind.wanted:
        return "right, in doubt" if is_doubted else "right"
    return "doubt" if is_doubted else "silent" if any(it is not None for it in found) else "none"


def kinds(tally: Tally) -> None:
    """No kind is read wrongly without a word."""
    verdicts: Dict[str, str] = {}
    for kind in [*listed(), *of_words()]:
        verdicts[kind.name] = verdict(kind)
        tally.holds(
            f"{kind.name} isn't silently wrong: {verdicts[kind.name]}",
            verdicts[kind.name] not in ("silent", "none", "right, in doubt"),
        )
    of_rows = sum(verdicts[kind.name] == "right" for kind in listed())
    by_words = sum(found == "right" for found in verdicts.values()) - of_rows
    tally.holds(f"at least {LEAST_RIGHT} of the table are right: {of_rows}", of_rows >= LEAST_RIGHT)
    tally.holds(f"and {LEAST_RIGHT_BY_WORDS} that words make: {by_words}", by_words >= LEAST_RIGHT_BY_WORDS)


def known_heads(tally: Tally) -> None:
    """A solution is of the known scramble that its head names, also if the other one's head has another form."""
    for first, second in itertools.permutations(KNOWN.split("|"), 2):
        text = f"{first % 1}\n{OF_FIRST}\n\n{second % 2}\n{OF_SECOND}"
        checks = nissy.check_attempts(text, scrambles=[FIRST, SECOND])
        told = [(it.check is not None and it.check.solved, it.doubt) for it in checks]
        tally.equal(f"the solutions of {text!r}", told, [(True, None)] * 2)


def misread(tally: Tally) -> None:
    """What is known to be read wrongly without a word is so still: else its row goes to the others."""
    for kind in listed("misread.tsv"):
        found = verdict(kind)
        tally.holds(f"{kind.name} is misread still: {found}", found in ("silent", "none"))


def readings(tally: Tally) -> None:
    """An attempt that is checked is as it is read, also if its check tells of another doubt."""
    for kind in listed():
        checked, read = [it.attempt for it in nissy.check_attempts(kind.text)], [*nissy.read_attempts(kind.text)]
        tally.equal(f"the attempts of {kind.name}", checked, read)


def slips(tally: Tally) -> None:
    """A solution with a slip is unsolved, and mostly in no doubt, if its text isn't for another reason."""
    draw, doubts, count = random.Random(1), 0, 0
    for kind in listed():
        checks = nissy.check_attempts(kind.text)
        solution = checks[0].attempt.solution
        if verdict(kind) != "right" or kind.wanted != [True] or solution is None or checks[0].attempt.doubt:
            continue
        places = [at for sign, at in zip(solution.line, solution.places) if sign in "URFDLB"]
        for at in draw.sample(places, min(len(places), 5)):
            other = draw.choice([sign for sign in "URFDLB" if sign != kind.text[at]])
            told = nissy.check_attempts(kind.text[:at] + other + kind.text[at + 1 :])
            doubts += any(it.doubt for it in told)
            count += 1
            tally.holds(f"a slip in {kind.name} is seen", not any(it.check and it.check.solved for it in told))
    tally.holds(f"at most a seventh of {count} are in doubt: {doubts}", count > 200 and doubts * 7 <= count)


def doubts(tally: Tally) -> None:
    """Each reason for a doubt, and where it is seen."""
    texts = {
        f"{FIRST} R U": ("step or scramble", 1, 1),
        "R U F\n\nEO: D\n\nDR: L\n\nD L B": ("several solutions", 3, 5),
        "R U F\n\nR U // premoves\nF' // EO": ("side", 3, 8),
        "R U F\n\nR' U' // EO\nback to normal\nF' // DR": ("side", 4, 1),
        "R U F\n\nEO: on inverse D L": ("side", 3, 8),
        "R U F\n\nEO: twice D L": ("repetition", 3, 5),
        "R U F\n\nEO: should be D L": ("insertion", 3, 5),
        "R U F\n\nF' U' R LUL": ("letters", 3, 10),
        "r u f\n\nF' U' R'": ("small letters", 1, 1),
        "R U F\n\nf' u' r'": ("small letters", 3, 1),
        "R U F\n\nf' u' R'": ("a part", 3, 1),
        "2. R U F\n\nSolutions:\n1. D\n2. F' U' R'": ("several solutions", 4, 4),
        "R U F\n\nF' // EO U' R' D": ("comment", 3, 4),
        "R U R U\n\n(U' R') x2": ("repetition", 3, 9),
        "R U R U\n\n(U' R')\u00d72": ("repetition", 3, 8),
        "R U R U\n\nU' R' // 2x": ("repetition", 3, 10),
        "R U R U\n\nU' R' x2": ("repetition", 3, 7),
        "R U\n\nU' R\n  [1] = R U": ("insertion", 4, 3),
        "R U F\n\nF' [1] R'\n[1] = U' D D'": ("insertion", 3, 4),
        "R U F\n\nF' R' *\n* = U' D D'": ("insertion", 3, 7),
        "R U F\n\nF' R' // Skelett": ("insertion", 3, 10),
        "R U F\n\nAnna: F' U' R'\nBert: F' U' D": ("a part", 3, 7),
        f"{FREE}\n{FREE_STEPS}": ("step or scramble", 2, 1),
        f"{FREE}\n{FREE_STEPS} twice": ("step or scramble", 2, 1),
        f"{OTHER}\n{OTHER_STEPS} twice\n\n{OTHER}\n{OTHER_STEPS}": ("step or scramble", 6, 1),
        f"{OTHER}\n{OTHER_STEPS}\n\n{OTHER}\n{OTHER_STEPS}": ("step or scramble", 6, 1),
        f"{OTHER}\n{OTHER_STEPS}\n---\n{OTHER}\n{OTHER_STEPS}": ("another attempt", 6, 1),
        "1. R U\n1. U' R'\n\n2. F D\n1. D' F'": ("another attempt", 1, 4),
        f"Task: {OTHER}\nAns: {WHOLE_OF_OTHER}\n\nTask: {WHOLE}\nAns: {WHOLE_STEPS}": ("another attempt", 4, 7),
        f"{FIRST}\n{OF_FIRST}\n\nFinal: {SLIPPED}": ("several solutions", 4, 8),
        f"{FIRST}\n{OF_FIRST}\n\nFinal: {OF_SECOND}\n\nPaper: {SLIPPED} // 23": ("several solutions", 6, 8),
        "R U F\n\nF' U, R' D": ("signs", 3, 5),
        "R U F\n\nhttps://cubing/?alg=F-_U-": ("signs", 3, 1),
        "R U F\n\nSolution: \uff26 \uff35": ("signs", 3, 11),
        "R U F\n\nF' U R in chat": ("comment", 3, 6),
        "R U F D\n\nD' F' y U' // EO\nR'": ("comment", 3, 7),
        "R U F D\n\nD' // F' U' here\nR'": ("comment", 3, 7),
        "R U F D\n\nD' // U2 D axis\nR'": ("comment", 3, 7),
        "R U F D\n\nD' // F\u2019 U\nR'": ("comment", 3, 7),
        "R U F\n\nsquare F F' U'": ("comment", 3, 8),
        "R U F\n\nEO F F' U'": ("comment", 3, 4),
        "R U F // EO\n\nF' U' // DR": ("step or scramble", 1, 1),
        # the first step stands on the line of its scramble, which all below it solves
        "R U F D' // EO\nD F' // DR\nU' R' // finish": ("step or scramble", 1, 1),
        f"{FIRST} {STEPS[0]} // EO\n{STEPS[1]} // DR\n{' '.join(STEPS[2:])}": ("step or scramble", 1, 1),
        f"{FIRST} {STEPS[0]}\n\n{STEPS[1]}\n{' '.join(STEPS[2:])}": ("step or scramble", 1, 1),
        "R U F // x\n\nF' U'": ("comment", 1, 7),
        "R U F\n\nEO // F' U' R'": ("comment", 3, 4),
        "R U F\n\nEO // F' U'\nDR // L' F2 U'": ("comment", 4, 4),
        "R U F // F' U' R'": ("comment", 1, 7),
        f"{LOST}\nR U": ("signs", 1, 1),
        f"{FIRST[:-3]} F\nR U": ("signs", 1, 1),
        "R U F\n\nF' U\tR' D": ("signs", 3, 5),
        "R U F D\n\nD' F' 8 // EO\nR' // finish": ("signs", 3, 7),
        "R U F D B\n\nB' D' // EO\n| U' R' // finish": ("signs", 4, 1),
        "R U F D\n\nD' F' // EO, then U'\nR' // finish": ("insertion", 3, 19),
        "R U F D\n\nF' U' // (after D')\nR' // finish": ("insertion", 3, 17),
        "R U2 F D'\n\nD // EO\nR' // DR\nF' U2 // finish": ("insertion", 4, 1),
        "R U F\n\nF' // EO\nU' R' F // finish": ("comment", 4, 7),
        "R U F\n\nF' // EO\nD U' R' // finish": ("comment", 4, 1),
        "R U F\n\nfinish: F' U\nEO: D": ("several solutions", 4, 5),
        "R U F\n\n2) F' U\n1) D": ("several solutions", 4, 4),
        "R U F\n\nSolution: F' U' D\n\nPS: a mistake": ("insertion", 5, 7),
        # the solution stands above its scramble, with which all is solved
        "Solution: F' U' R'\nScramble: R U F": ("step or scramble", 2, 11),
        "Solution: F' U' R'\n\nThe scramble: R U F": ("step or scramble", 3, 15),
        "Solution: F' U' R'\nScramble: R U F // weekly": ("step or scramble", 2, 11),
        "Sol: F' U' R'\nThe scramble: R U F (WCA)": ("step or scramble", 2, 15),
        "Sol (3): F' U' R'\n\nR U F": ("step or scramble", 3, 1),
        f"Solution: {OF_FIRST}\nScramble: {FIRST}": ("step or scramble", 2, 11),
        "R U F\n\nU' R' // DR\nF' // EO": ("several solutions", 4, 1),
        "R U F\n\nDR: U' R'\nEO: F'": ("several solutions", 4, 5),
        "R U F\n\nF' // EO\nR' // HTR\nU' // DR": ("several solutions", 5, 1),
        "R U F\n\nSolution: D' F2 U' R'\n\nInsertion: L'": ("insertion", 5, 1),
        "R U F\n\nSolution: D' F2 U' R'\n\nL' // L3C": ("insertion", 5, 7),
        "R U F\n\nD' F2 U' R'\ncommutator: L'": ("insertion", 4, 1),
        "R U F\n\nD' (1) F2 U' R' // 3c\n(1) L'": ("insertion", 4, 1),
        "R U F\n\nD' (1) F2 U' R' // 3c\n1: L'": ("insertion", 4, 4),
        f"Week 1\n{OTHER}\n{OTHER_STEPS}\nnice\n\nWeek 2\n{WHOLE}\n{FREE_STEPS}": ("step or scramble", 9, 1),
        "R U F D L B U2 R2\n\n\u2191 R2 U2\n\u2193 R U\n\u2191 B' L'\n\u2193 F D": ("a part", 4, 3),
    }
    for text, wanted in texts.items():
        (told,) = [it.doubt for it in nissy.check_attempts(text)]
        tally.equal(f"the doubt of {text!r}", told and (told.reason, told.place.line, told.place.column), wanted)
    undoubted = ("R U F\n\nF' U' R'", "R U F\n\nF' U' R", "R'U'F\n\nF'U'R", "R U F", "R U F\n\nf' u' L'")
    for text in (
        *undoubted,
        "R U F\n\nF', U', R",
        "R U F\n\nF' U' R // on normal",
        "1. R U F\n\nSolutions:\n1. F' U' R'",
        # what names the scramble is of it, names that stand together are of one step, and numbers after moves count these
        "R U F\n\nSolve of the scramble: F' U' R'",
        "R U F\n\nF' // EO, good for HTR\nU' R // DR",
        # axes, letters of words, and a y that is a turn with a sign
        "R U F\n\nF' U' // EO on F B, or U D",
        "R U F\n\nF' U' // 4c4e, or BR UF",
        "R U F\n\nF' y' U'",
        "R U F\n\nF' // EO\nU' // DR-1\nL // EO+DR",
        "R U F\n\nF' U' (1)\n1: L",
        "R U F\n\nSolution: F' U' R\n\nNo insertion",
        # a turn was lost, but nothing shows it: no sign, two signs, a turn in another comment, one of another face, a face
        "R U F D\n\nD' F' // EO\nR' // finish",
        "R U F D B L\n\nL' B' D' 8 // EO\nU' R' ? // finish",
        "R U F D\n\nD' // EO with U'\nF' // DR\nR' // finish",
        "R U F D\n\nD' F' // EO, then L2\nR' // finish",
        "R U F D'\n\nF' U' // EO :D\nR' // finish",
        # two steps stand elsewhere; a half turn is too much, or a letter within the moves
        "R U2 F D' L\n\nR' // EO\nF' U2 // DR\nL' D // finish",
        "R U F\n\nF' U' // EO\nR' U2 // finish",
        "R U F\n\nF' // EO\nU' D R' // finish",
    ):
        tally.equal(f"no doubt of {text!r}", [it.doubt for it in nissy.check_attempts(text)], [None])


def calls_of(text: str) -> float:
    """How many functions of Python are called for each attempt of a text, once the library has told of all."""
    checks, calls = nissy.check_attempts(text), 0

    def seen(_frame: FrameType, event: str, _arg: object) -> None:
        nonlocal calls
        calls += event == "call"

    # lines are looked for once
    list(checks)
    sys.setprofile(seen)
    list(checks)
    sys.setprofile(None)
    return calls / len(checks)


def calls(tally: Tally) -> None:
    """What is told of an attempt takes few calls, into which most of the time of short ones goes."""
    most = {
        "1. R Q\n": 11,
        "1. R U F\n\nF\u2019 U\u2019 R\u2019\n\n": 30,
        "1. R U F\nR' U' // inverse\nF // EO\n\n": 30,
        f"{FIRST}\n{OF_FIRST} R2\n": 14,
    }
    for piece, bound in most.items():
        count = calls_of(piece * 100)
        tally.holds(f"an attempt of {piece!r} takes at most {bound} calls: {count}", count <= bound)


def times(tally: Tally) -> None:
    """A megabyte is read in a time by its length, on a processor, of which a busy machine has others' work too."""
    for piece in (
        "1. R Q\n",
        "R\u2019 U Q ",
        "- ",
        "[0:12] ",
        "inverse ",
        "(1(1",
        "R' U' F ",
        "\r",
        "DR ",
        "R U F\n\nF' // " + "\u89e3" * 300_000,
        f"{FIRST}\n{OF_FIRST} // EO (5/5)\n\n",
    ):
        data = piece.encode() * (1_000_000 // len(piece.encode()))
        room = ctypes.create_string_buffer(88 * (data.count(b"\n") + data.count(b"\r") + 1))
        answer = tally.soon(
            f"a megabyte of {piece[:12]!r}",
            SOON,
            lambda: _library.nissy_text_lines(data, len(data), ctypes.addressof(room), len(room) // 88),
        )
        tally.equal("its status", answer.status, 0)
    # each is checked when it is asked for
    for text in ("R U F\n\nR'" + "()" * 20_000, "1. R Q\n" * 8000):
        is_solved = tally.soon(f"{text[:8]!r}", SOON, lambda: any(it.check for it in nissy.check_attempts(text)))
        tally.equal(f"none of {text[:8]!r} and so on is solved", is_solved, False)


if __name__ == "__main__":
    tried(kinds, known_heads, misread, readings, slips, doubts, calls, times)

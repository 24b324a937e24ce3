#!/usr/bin/env python3
"""Drawn runs of every command of the program against the independent model.

    tests/model/against.py PROGRAM [SEED] [SCALE]

SCALE 1, about ten minutes, draws some 8,700 runs, and takes every position of the steps of one goal. Below 0.5 the searches
are short ones, and neither those positions nor all numbers of `near` are tried.
"""
import sys

import solving
from drawing import DAMAGES, FACES, LETTERS, NUMBERS, VOCABULARY, Drawing
from model import REWRITES
from notation import word_of
from trial import LOOKS, Trial, seed_and_scale

# how many lines of one run stay within its longest input
AT_ONCE = 200_000


def rewriting(trial: Trial, draw: Drawing, count: int) -> None:
    """Files of lines that are spelled."""
    for _ in range(count):
        lines = [draw.line() for _ in range(draw.randrange(0, 12))]
        trial.compare("rewriting, lines", [draw.choice(REWRITES)], draw.ended(lines), draw.random() < 0.5)


def rewriting_words(trial: Trial, draw: Drawing, count: int) -> None:
    """A line as words of the command, with odd words among them."""
    odd = ["", " ", "\n", "R\nU", "\n\n", "-h", "--", "--help", "(", ")", "\u2019", "\u00e9"]
    for _ in range(count):
        text = draw.line(12)
        words = draw.choice([text.split(" "), [text], text.split()]) or [""]
        if draw.random() < 0.15:
            words.insert(draw.randrange(len(words) + 1), draw.choice(odd))
        trial.compare("rewriting, words", [draw.choice(REWRITES)] + words, draw.choice([b"", b"R\n", b"q"]))


def faults(trial: Trial, draw: Drawing, count: int) -> None:
    """Lines that are damaged at a few places."""
    for _ in range(count):
        data = draw.ended([draw.line(8) for _ in range(draw.randrange(1, 4))])
        for _ in range(draw.choice([1, 1, 1, 2, 3])):
            data = draw.damaged(data)
        trial.compare("faults, drawn", [draw.choice(REWRITES)], data)


def faults_everywhere(trial: Trial, every: int) -> None:
    """Each damage at each byte of one line of all kinds of items, and each byte value after each kind of beginning, or every so manieth."""
    whole = "R2\u2019 (Uw) x'2' M(r\u2019)".encode()
    runs = [("each byte", ["unniss"], b"F\n" + whole[:at]) for at in range(len(whole) + 1)]
    runs += [
        ("each byte", ["unniss"], whole[:at] + damage + whole[at:])
        for at in range(len(whole) + 1)
        for damage in DAMAGES
    ]
    beginnings = (b"", b"R", b"R\xe2", b"R2", b"R'", b"(", b"R\xe2\x80", b"R\xe2\x80\x99", b"(U", b"Rw", b"2")
    runs += [
        ("each byte value", ["invert"], before + bytes([byte]))
        for byte in range(256)
        for before in (beginnings if byte % 4 == 0 else beginnings[:3])
    ]
    for kind, words, data in runs[::every]:
        trial.compare("faults, " + kind, words, data)


def most_moves(trial: Trial, draw: Drawing, count: int) -> None:
    """Lines of about 256 moves, some of them in brackets."""
    kinds = [LETTERS, ["M", "E", "S"], FACES, ["Rw", "Uw", "Fw"], ["x", "y", "z"], ["U", "D"], ["R", "r", "M", "x"]]
    for at in range(count):
        words = draw.moves(draw.choice([255, 256, 256, 256, 257, 257, 258, 300, 512]), draw.choice(kinds))
        if draw.random() < 0.5:
            first = draw.randrange(len(words))
            last = draw.randrange(first, len(words))
            words = words[:first] + ["("] + words[first:last] + [")"] + words[last:]
        text = (
            draw.choice(["", "R\n", "\n\n"]) + draw.glued(words) + draw.choice(["", "", "q", ")", "(", "w", "\u2019"])
        )
        trial.compare(
            "limit of 256 moves", [draw.choice(REWRITES)], (text + draw.choice(["", "\n", "\nU"])).encode(), at % 2 == 0
        )
    for moves in (255, 256, 257):
        for words in (["solve", "eofb", "9"], ["count", "eofb", "9"], ["solve", "eo", "9"], ["count", "eo", "9"]):
            trial.compare("limit of 256 moves, steps", words + [" ".join(draw.moves(moves))])


def usage(trial: Trial, draw: Drawing, count: int) -> None:
    """Words that are commands, or nearly."""
    for _ in range(count):
        kind = draw.random()
        if kind < 0.4:
            words = [draw.choice(VOCABULARY) for _ in range(draw.randrange(0, 7))]
        elif kind < 0.7:
            words = [
                draw.choice(["solve", "count", "near"]),
                draw.choice(list(solving.STEPS)[:3] + ["eo", "htr", "EOFB", ""]),
            ]
            words += [draw.choice(NUMBERS) for _ in range(draw.randrange(0, 4))] + draw.choice([[], ["F"], ["F", "B"]])
        else:
            words = ["scramble"] + [draw.choice(NUMBERS) for _ in range(draw.choice([4, 4, 4, 4, 3, 5]))]
            if len(words) == 5 and words[4] == "10000":
                words[4] = "10"
        trial.compare("usage", words, b"F\n")


def scrambles(trial: Trial, draw: Drawing, count: int) -> None:
    """Scrambles of drawn states and streams, the ends of their ranges among them."""
    most = (1 << 64) - 1
    for _ in range(count):
        state = draw.choice([0, 1, most, most - 1, 1 << 63, draw.getrandbits(64), draw.getrandbits(32), 42])
        stream = draw.choice([0, 1, most, 1 << 63, (1 << 63) - 1, draw.getrandbits(64), 54])
        length = draw.choice([0, 1, 2, 20, 25, 255, 256, draw.randrange(257)])
        numbers = [state, stream, length, draw.choice([0, 1, 2, 3, 10, draw.randrange(40)])]
        trial.compare(
            "scramble", ["scramble"] + [draw.choice(["", "", "0", "000"]) + str(number) for number in numbers], b"R\n"
        )
    trial.compare("scramble", ["scramble", "7", "9", "1", "10000"])
    trial.compare("scramble", ["scramble", "7", "9", "256", "200"])


def search_words(draw: Drawing, name: str) -> list[str]:
    """A command that searches a step, with its numbers."""
    command = draw.choice(["solve", "count", "near"])
    limit = draw.choice([20, 20, 12, 9, 8, 7, 6, 5, 4, 3, 2, 1, 0, draw.randrange(21)])
    slack = draw.choice([0, 0, 1, 1, 1, 2, 20])
    if command != "near":
        return [command, name, draw.choice(["", "", "0"]) + str(limit)]
    return [command, name, str(draw.randrange(5) if slack == 20 else limit), str(slack)]


def searches(trial: Trial, draw: Drawing, count: int, names: list[str], most_lines: int) -> None:
    """Searches of steps over lines on which these may start, with a fault or another start now and then."""
    faulty = ["R q", "(R", "F", "F R", "", "x", "U R F", "R)", "U" * 257, "r' F M"]
    for at in range(count):
        name = names[at % len(names)]
        words = search_words(draw, name)
        lines = searchable(trial, words, [draw.started(name, draw.choice([0, 1, 2, 3, 12])) for _ in range(most_lines)])
        kind = "%s, %s" % (words[0], "edge orientation" if name in solving.ORIENTATIONS else "domino reduction")
        if draw.random() < 0.3 and lines:
            trial.compare(kind, words + [lines[0]], b"q\n")
            trial.compare(kind, words + (lines[0].split() or ["F"]), b"q\n")
            continue
        if draw.random() < 0.25:
            lines.insert(draw.randrange(len(lines) + 1), draw.choice(faulty))
        trial.compare(kind, words, draw.ended(lines), at % 2 == 0)


def searchable(trial: Trial, words: list[str], lines: list[str]) -> list[str]:
    """Those of the lines whose search isn't too much for the model."""
    return [text for text in lines if trial.is_searchable(words, text.encode())]


def failing_starts(trial: Trial, draw: Drawing, count: int) -> None:
    """Lines of which one is a start that the step doesn't allow, mostly."""
    for _ in range(count):
        name = draw.choice(solving.DOMINOES)
        command = draw.choice(["solve", "count", "near"])
        words = [command, name, str(draw.randrange(0, 7))] + (["0"] if command == "near" else [])
        lines = [draw.started(name, 3) for _ in range(draw.randrange(0, 3))] + [
            draw.line(8),
            draw.choice(["", "q", draw.line(4)]),
        ]
        trial.compare("failing starts", words, draw.ended(lines), draw.random() < 0.5)


def near_numbers(trial: Trial) -> None:
    """near with most pairs of numbers on cubes near the goal, as far as the search is small."""
    solving.Bounds.looks = 8_000
    for limit, slack in [(limit, slack) for limit in range(21) for slack in range(21)]:
        for text in ("", "F", "F R B", "U F2 B' R F"):
            if (limit + slack) % 3 == len(text) % 3 or min(limit, slack) <= 1:
                trial.compare("near, all numbers", ["near", "eofb", str(limit), str(slack), text])
    solving.Bounds.looks = LOOKS


def distances(trial: Trial, draw: Drawing, count: int, most_lines: int) -> None:
    """Positions of each step, each distance as likely as the others, the farthest among them."""
    for at in range(count):
        name = list(solving.STEPS)[at % len(solving.STEPS)]
        lines = searchable(trial, ["count", name, "20"], [draw.line_by_distance(name) for _ in range(most_lines)])
        trial.compare("positions by distance", [draw.choice(["solve", "count"]), name, "20"], draw.ended(lines))
        words = ["near", name, str(draw.randrange(5, 9)), draw.choice(["0", "1"])]
        trial.compare("positions by distance", words, draw.ended(searchable(trial, words, lines[:10])))


def lines_of_positions(step: solving.Step) -> dict[int, str]:
    """A line at each position of a step's first goal, grown turn by turn."""
    lines, queue = {0: ""}, [0]
    for position in queue:
        for index, turn in enumerate(step.turns):
            turned = step.movers[0](position, index)
            if turned not in lines:
                lines[turned] = lines[position] + word_of(turn)
                queue.append(turned)
    assert len(lines) == len(step.goals[0].distance), len(lines)
    return lines


def every_orientation(trial: Trial) -> None:
    """All positions of the edge orientations on one axis."""
    solving.Bounds.looks = None
    for name in solving.ORIENTATIONS[:3]:
        lines = lines_of_positions(solving.step(name))
        data = "".join(lines[position] + "\n" for position in sorted(lines)).encode()
        for command in ("count", "solve"):
            trial.compare("every edge orientation", [command, name, "20"], data, True)


def every_reduction(trial: Trial) -> None:
    """All positions of the domino reductions on one axis: of each the least length is the model's."""
    for name in solving.DOMINOES[:6]:
        words, distance = ["count", name, "20"], solving.step(name).goals[0].distance
        lines = list(lines_of_positions(solving.step(name)).items())
        for at in range(0, len(lines), AT_ONCE):
            some = lines[at : at + AT_ONCE]
            answers = trial.run(words, "".join(line + "\n" for _, line in some).encode())[0].splitlines()
            wrong = [
                line
                for (position, line), answer in zip(some, answers)
                if not answer.startswith(b"length %d " % distance[position])
            ]
            trial.check("every domino reduction", words, None, (len(answers), wrong[:3]), (len(some), []))


def all_kinds(trial: Trial, draw: Drawing, scale: float) -> None:
    """Every kind of run, as often as the scale says."""

    def scaled(count: int) -> int:
        return max(1, int(count * scale))

    whole = scale >= 0.5
    solving.Bounds.looks, solving.Bounds.depth = (LOOKS, solving.FARTHEST) if whole else (8_000, 6)
    rewriting(trial, draw, scaled(1500))
    rewriting_words(trial, draw, scaled(700))
    faults(trial, draw, scaled(1500))
    # all of these at the scale of model.sh
    faults_everywhere(trial, max(1, round(0.4 / scale)))
    most_moves(trial, draw, scaled(150))
    usage(trial, draw, scaled(700))
    scrambles(trial, draw, scaled(250))
    trial.compare("steps", ["steps"], b"q")
    trial.compare("steps", ["steps", ""], b"q")
    searches(trial, draw, scaled(600), solving.ORIENTATIONS, 12)
    searches(trial, draw, scaled(90), solving.DOMINOES, 25 if whole else 8)
    failing_starts(trial, draw, scaled(60))
    # each step, or some for a program that is slow
    distances(trial, draw, max(13 if scale > 0.02 else 5, scaled(52)), 40 if whole else 8)
    if whole:
        near_numbers(trial)
        every_orientation(trial)
        every_reduction(trial)


def main() -> None:
    """Runs all kinds and reports."""
    if len(sys.argv) < 2:
        sys.exit(__doc__)
    seed, scale = seed_and_scale(sys.argv[2:])
    trial = Trial(sys.argv[1])
    print("drawn runs, seed %d, scale %g" % (seed, scale))
    all_kinds(trial, Drawing(seed), scale)
    sys.exit(trial.report())


if __name__ == "__main__":
    main()

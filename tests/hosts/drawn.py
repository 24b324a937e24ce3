#!/usr/bin/env python3
"""Drawn runs and calls, by each host beside the built program, and beside the independent model where the program has no command.

    tests/hosts/drawn.py PROGRAM SEED SCALE HOST..

A host is `python` by the library of NISSY_LIBRARY, `c++=CALLER` of caller.cpp, `js=MODULE`, or another program as `program=COMMAND`. The draws are
those by which the program is compared with the model (tests/model/against.py), files of many lines, and lines that are
judged; hosts with calls have the rows of tests/runs.tsv and tests/calls.tsv too. A run is made with room that grows and
with room of a drawn size, and then by a call for each line of its input.
"""
import random
import re
import sys
from itertools import chain

from hosts import ALL, Given, Host, fault_of, hosts_of, told  # isort: skip

import against
import bad_pieces
import called
import model
import solving
from cube import LAYERS, Move
from drawing import Drawing
from notation import ITEM, ReadFault, read, word_of
from runs import runs
from trial import Trial

# the calls on a line, by the program's words for them, and how many words each search has before its line
REWRITINGS = {"invert": "invert", "unniss": "unniss", "cleanup": "cleanup", "print": "facelets"}
SEARCHES = {"solve": 3, "count": 3, "near": 4}
FAULT = re.compile(rb"nissy: line (\d+)(?:, column (\d+))?: (.*)\n")
# files of many lines, and lines that are judged, at scale 1; how many lines a file has that is rewritten, and one that is searched
FILES, JUDGED = 100, 6_000
REWRITTEN, SEARCHED = 200, 60
# limit and slack of a search that ends soon on any line
NUMBERS = [(0, 0), (3, 0), (20, 0), (2, 1), (3, 2), (3, 20)]
# which fields of a row of tests/calls.tsv are lines
LINES_OF = {"text": [1], "fault": [0], "forms": [0], "facts": [0], "check": [0, 1], "tokens": [0]}
# what a system might take for the end of a line or of a file
OF_SYSTEMS = [b"R\r\nU\r\n", b"R\x1aU\n", b"\x1a", b"U\r", b"\xef\xbb\xbfR\n"]
# only after these several steps hold, or all
HALF_TURNS: list[Move] = [(face, 2) for face in "UDRLFB"]
ORDER = model.run(["steps"])[0].decode().split()
# of facts how many steps hold, and of checks whether they solve
CAME = ("facts, 0 steps", "facts, 2 steps", "facts, 13 steps", "check, solved", "check, unsolved")


def lines_in(data: bytes) -> list[bytes]:
    """The lines of an input, whose last one may have no line feed."""
    lines = data.split(b"\n")
    return lines if lines[-1] else lines[:-1]


def answers_in(words: list[str], out: bytes) -> list[str]:
    """What the program wrote for each line of its input, as a call returns it."""
    if words[0] in REWRITINGS:
        return out.decode().split("\n")[:-1]
    if words[0] == "count":
        return [" ".join(line.split(" ")[1::2]) for line in out.decode().split("\n")[:-1]]
    return ["" if part.startswith("no solution within ") else part + "\n" for part in out.decode().split("\n\n")[:-1]]


class BesideHosts(Trial):
    """Runs of the program, and the same by each host."""

    def __init__(self, program: str, seed: int, hosts: list[Host]) -> None:
        super().__init__(program)
        self.draws, self.hosts = random.Random(seed), hosts

    def compare(self, kind: str, words: list[str], data: bytes = b"", by_file: bool = False) -> None:
        try:
            expected = self.run(words, data, by_file)
        except ValueError:
            return  # no system hands a word with a zero byte to a program
        for host in self.hosts:
            if host.has_runs:
                self.check(f"{host.name}: {kind}", words, data, host.run(words, data), expected + (False,))
            if host.has_runs and host.has_calls:
                self.compare_in_room(host, words, data, expected)
            if host.has_calls and words and expected[2] in (0, 1):
                self.compare_calls(host, words, data, expected)

    def compare_in_room(self, host: Host, words: list[str], data: bytes, expected: model.Answer) -> None:
        """The run with room of a drawn size: the same, or a beginning of the output if that is longer."""
        out, err, status = expected
        room = self.draws.choice([0, len(out), max(len(out) - 1, 0), self.draws.randrange(len(out) + 2)])
        wanted = (out, err, status, False) if len(out) <= room else (out[:room], model.CANNOT_WRITE, 3, True)
        self.check(f"{host.name}: room of a drawn size", words, data, host.run(words, data, room), wanted)

    def compare_calls(self, host: Host, words: list[str], data: bytes, expected: model.Answer) -> None:
        """A call for each line that the program came to, or for what has no lines."""
        out, err, _ = expected
        if words[0] == "steps":
            self.check(f"{host.name}: steps", words, data, told(host, "steps"), out.decode())
        elif words[0] == "scramble" and out:
            wanted = out.decode().split("\n", 1)[0] + "\n" + out.decode()
            self.check(f"{host.name}: scrambles", words, data, told(host, "scrambles", *map(int, words[1:])), wanted)
        elif SEARCHES.get(words[0], 1 if words[0] in REWRITINGS else 0) == len(words):
            answers = answers_in(words, out)
            fault = FAULT.fullmatch(err)
            if fault:
                answers.append(fault_of(0, int(fault[2] or 0), fault[3].decode()))
            for line, wanted in zip(lines_in(data), answers):
                self.compare_line(host, words, line, wanted)

    def compare_line(self, host: Host, words: list[str], line: bytes, wanted: str) -> None:
        """One line by its call; of a search also a count, and how many there are at most."""
        if words[0] in REWRITINGS:
            call = REWRITINGS[words[0]]
            self.check(f"{host.name}: {call}", words, line, told(host, call, line), wanted)
            return
        search: list[Given] = [words[1].encode(), int(words[2]), int((words + ["0"])[3])]
        if words[0] == "count":
            self.check(f"{host.name}: count", words, line, told(host, "count", *search, ALL, line), wanted)
            return
        self.check(f"{host.name}: solve", words, line, told(host, "solve", *search, ALL, line), wanted)
        found, count = wanted.splitlines(keepends=True), told(host, "count", *search, ALL, line)
        if wanted.startswith("fault"):
            self.check(f"{host.name}: count with a slack", words, line, count, wanted)
            return
        length = found[0].rpartition("(")[2].rstrip(")\n") if found else "none"
        self.check(f"{host.name}: count with a slack", words, line, count.split(" ")[:2], [length, str(len(found))])
        most = self.draws.choice(
            [0, 1, len(found), max(len(found) - 1, 0), len(found) + 1, self.draws.randrange(len(found) + 1)]
        )
        self.check(
            f"{host.name}: so many at most",
            words,
            line,
            told(host, "solve", *search, most, line),
            "".join(found[:most]),
        )


def many_lines(trial: Trial, draw: Drawing, files: int) -> None:
    """Files of many lines, rewritten and searched, of which the last line is damaged in half of the files. A run of the program is the longest
    part of most comparisons, and here one serves for all the lines."""

    def with_damage(lines: list[str]) -> bytes:
        *whole, last = (line.encode() for line in lines)
        return b"\n".join([*whole, draw.damaged(last) if draw.random() < 0.5 else last])

    for at in range(files):
        lines = [draw.line(draw.choice([2, 20, 20, 230])) for _ in range(REWRITTEN)]
        trial.compare("many lines, rewritten", [model.REWRITES[at % len(model.REWRITES)]], with_damage(lines))
        name = list(solving.STEPS)[at % len(solving.STEPS)]
        limit, slack = draw.choice(NUMBERS)
        _, turns, _ = solving.STEPS[name]
        lines = [draw.started_from_solved(solving.TURNS_OF[turns], draw.choice([1, 3, 6])) for _ in range(SEARCHED)]
        words = draw.choice([["near", name, str(limit), str(slack)], ["count", name, str(limit)]])
        trial.compare("many lines, searched", words, with_damage(lines))


def listed_lines() -> list[bytes]:
    """The lines of tests/calls.tsv but those that are searched."""
    rows = ((row, places) for kind, places in LINES_OF.items() for row in called.rows(kind))
    return [row[at].encode("utf-8", "surrogateescape") for row, places in rows for at in places]


def listed(trial: BesideHosts) -> None:
    """The rows of both tables, a line by each command that rewrites and by a search."""
    for run in runs():
        trial.compare("listed runs", [word.decode("utf-8", "surrogateescape") for word in run.words], run.data)
    for line in listed_lines():
        for words in (*([command] for command in model.REWRITES), ["solve", "eofb", "2"]):
            trial.compare("listed lines", words, line)
    reduced(trial)
    for it in called.searches():
        for words in (["near", it.step, str(it.limit), str(it.slack)], ["count", it.step, str(it.limit)]):
            trial.compare("listed searches", words, it.line.encode())
    for state, stream, length, count, _ in called.rows("scrambles"):
        trial.compare("listed scrambles", ["scramble", state, stream, length, count])


def reduced(trial: BesideHosts) -> None:
    """Each line that is listed by a step that may not start everywhere. A run builds the tables of a reduction anew and
    ends at a fault, so there is one for all lines without a fault, and calls ask the others, beside the model."""
    words, whole = ["count", "dr-eofb", "2"], b""
    for line in listed_lines():
        expected = model.run(words, line)
        if expected[2] == 0:
            whole += line + b"\n"
        for host in trial.hosts:
            if expected[2] != 0 and host.has_calls:
                trial.compare_calls(host, words, line, expected)
    trial.compare("listed lines", words, whole)


def token_of_model(move: Move, inverse: bool) -> str:
    """A move as it is told."""
    axis, layers, clockwise = LAYERS[move[0]]
    return f"{word_of(move)}/{'xyz'[axis]}/{','.join(map(str, layers))}/{ {1: 1, 2: 2, 3: -1}[clockwise * move[1] % 4]}/{inverse:d}"


def facts_of_model(line: bytes) -> str:
    """What the model sees of a line."""
    seen = bad_pieces.seen(line)
    axes = ["/".join(",".join(places) for places in seen.axes[axis]) for axis in ("fb", "rl", "ud")]
    return " ".join(
        [
            str(int(seen.solved)),
            str(seen.moves),
            str(seen.clean_moves),
            ",".join(step for step in ORDER if step in seen.holds),
            *axes,
        ]
    )


def form_places_of_model(line: bytes) -> str:
    """Where a line that is spelled has forms, each move and bracket cut out by the model and judged by itself."""
    items = (
        (it, () if it.group().isspace() else bad_pieces.forms(b"(" if it.group() == b")" else it.group()))
        for it in ITEM.finditer(line)
    )
    return " ".join(f"{it.start() + 1}/{it.group().decode()}/{','.join(forms)}" for it, forms in items if forms)


def of_model(call: str, lines: list[bytes]) -> str:
    """What the model answers of one line or two."""
    for number, line in enumerate(lines, 1):
        try:
            normal, bracketed = read(line)
        except ReadFault as fault:
            return fault_of(number if len(lines) == 2 else 0, fault.column, fault.kind)
    if call == "check":
        seen = bad_pieces.seen(lines[1])
        return (
            f"{bad_pieces.is_solution(*lines):d} {seen.moves} {seen.clean_moves} {','.join(bad_pieces.forms(lines[1]))}"
        )
    if call == "tokens":
        # sorted, since the model keeps the two parts of a line alone
        return " ".join(
            [token_of_model(move, False) for move in normal] + [token_of_model(move, True) for move in bracketed]
        )
    return facts_of_model(lines[0]) if call == "facts" else form_places_of_model(lines[0])


def drawn_line(draw: Drawing) -> bytes:
    """A line that is judged, damaged now and then."""
    line = draw.line(draw.choice([4, 15, 30])) if draw.random() < 0.9 else draw.started_from_solved(HALF_TURNS, 12)
    return draw.damaged(line.encode()) if draw.random() < 0.15 else line.encode()


def came_of(call: str, wanted: str) -> str:
    """What came of facts or a check without a fault, as it is counted."""
    if call == "facts":
        return "facts, %d steps" % len(wanted.split(" ")[3].replace(",", " ").split())
    return "check, solved" if wanted[0] == "1" else "check, unsolved"


def judged(trial: BesideHosts, draw: Drawing, count: int) -> None:
    """Calls that the program has no command for, on the lines that are listed and on drawn ones."""
    last = b""
    trial.awaits(*CAME)
    for line in chain(listed_lines(), (drawn_line(draw) for _ in range(count))):
        undone = model.run(["invert"], last + b"\n")[0].rstrip(b"\n") or last
        # the last of the checks may solve
        asked = [(call, [line]) for call in ("facts", "tokens", "form_places")]
        for call, lines in [*asked, ("check", [last, line]), ("check", [last, undone])]:
            wanted = of_model(call, lines)
            if call in ("facts", "check") and not wanted.startswith("fault"):
                trial.counts[came_of(call, wanted)] += 1
            for host in (it for it in trial.hosts if it.has_calls):
                trial.check(f"{host.name}: {call}", [call], b"\n".join(lines), told(host, call, *lines), wanted)
        last = line


def main() -> None:
    """Draws all kinds and reports."""
    if len(sys.argv) < 5:
        sys.exit(__doc__)
    program, seed, scale = sys.argv[1], int(sys.argv[2]), float(sys.argv[3])
    trial = BesideHosts(program, seed, hosts_of(sys.argv[4:]))
    print("drawn calls, seed %d, scale %g" % (seed, scale))
    against.all_kinds(trial, Drawing(seed), scale)
    many_lines(trial, Drawing(seed + 1), int(FILES * scale))
    for words in ([command] for command in model.REWRITES):
        for data in OF_SYSTEMS:
            trial.compare("bytes of systems", words, data)
    if any(host.has_calls for host in trial.hosts):
        listed(trial)
        judged(trial, Drawing(seed + 2), int(JUDGED * scale))
        trial.awaits(
            *(
                f"{host.name}: {call}"
                for host in trial.hosts
                for call in (*REWRITINGS.values(), "solve", "count", "scrambles", "steps")
            )
        )
    for host in trial.hosts:
        trial.check(f"{host.name} ends, and has said no more", [], b"", host.end(), 0)
    sys.exit(trial.report())


if __name__ == "__main__":
    main()

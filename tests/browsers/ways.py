"""The best ways on as the independent model has them, tests/model/ways.cpp: of the questions in ways.txt each stands before its rows, and ends with
an empty line. `c++ -O2 -o ways tests/model/ways.cpp && sed -n 's/.*;.*/& ; 100000 ; 1000/p' tests/browsers/ways.txt | ./ways` writes the rows anew."""
import subprocess
from pathlib import Path
from typing import NamedTuple

from program import program_answers
from wanted import SIDES, TITLES, Position

AXES = {"fb": "F/B", "rl": "R/L", "ud": "U/D"}


class Way(NamedTuple):
    """A way on: all moves, the length of its first step, its case, the axes of its orientation and its reduction, and the moves of both on both
    sides."""

    total: int
    length: int
    case: str
    axis: str
    reduction: str
    eo: tuple[str, str]
    dr: tuple[str, str]

    @property
    def rank(self) -> tuple[int, ...]:
        """What puts rows in order: all moves, those of the first step, what its case counts, and its axis."""
        return self.total, self.length, int(self.case[0]) + int(self.case[2:-1]), list(AXES).index(self.axis)

    @property
    def step(self) -> str:
        """The name of its reduction."""
        return f"dr{self.reduction}-eo{self.axis}"


def line_of(sides: tuple[str, str]) -> str:
    """Moves on both sides as a solver writes them."""
    return " ".join(text for text in (sides[0], f"({sides[1]})" if sides[1] else "") if text)


def way_of(row: str) -> Way:
    """A row of the model."""
    head, *moves = row.split("|")
    total, length, corners, edges, axis, reduction = head.split()
    one, other, third, last = (text.strip() for text in moves)
    return Way(int(total), int(length), f"{corners}c{edges}e", axis, reduction, (one, other), (third, last))


def ways(question: str) -> list[Way]:
    """All ways on of a question, `slack ; turns that lead to the cube ; turns made on the normal side ; on the inverse`, in their order."""
    blocks = (Path(__file__).parent / "ways.txt").read_text().split("\n\n")
    [rows] = [block.splitlines()[1:] for block in blocks if block.splitlines()[:1] == [question]]
    return [way_of(row) for row in rows]


def lengths_after(program: str, scramble: str, found: list[Way]) -> list[list[str]]:
    """The least length of each way's reduction on each side alone, after its orientation, by the built program."""
    lines = [Position(scramble, *way.eo).lines for way in found]
    told: dict[tuple[str, str], str] = {}
    for step in {way.step for way in found}:
        asked = [line[side] for way, line in zip(found, lines) if way.step == step for side in SIDES]
        told |= {
            (step, line): said.split()[1]
            for line, said in zip(asked, program_answers(program, ["count", step, "20"], asked), strict=True)
        }
    return [[told[way.step, line[side]] for side in SIDES] for way, line in zip(found, lines)]


def rows_of(program: str, scramble: str, found: list[Way]) -> list[list[str]]:
    """Ways on with an orientation as the page shows them: the number, moves, what they reach, the reduction, its case and lengths."""
    return [
        [str(way.total), line_of(way.eo), f"EO {AXES[way.axis]}", f"DR {AXES[way.reduction]}", *lengths]
        for way, lengths in zip(found, lengths_after(program, scramble, found), strict=True)
    ]


def then_of(way: Way) -> str:
    """What a row says of its reduction: its moves, after their number if they are over both sides, and nothing if there are none."""
    line = line_of(way.dr)
    number = f"{len(line.split())}: " if all(way.dr) else ""
    return f"then {number}{line}" if line else ""


def state_of(step: str) -> str:
    """What holds once a step is reached."""
    return TITLES[step].split(" after")[0]


def title_of(way: Way) -> str:
    """What the way on reaches by its reduction."""
    return state_of(way.step)


class Model:
    """The model at work, which answers one question after another."""

    def __init__(self, program: str) -> None:
        self.process = subprocess.Popen([program], stdin=subprocess.PIPE, stdout=subprocess.PIPE, text=True)
        self.asked: list[str] = []
        self.known: dict[str, list[Way]] = {}

    def ask(self, scramble: str, normal: str = "", inverse: str = "", slack: int = 0) -> str:
        """Has it look for all ways on, and waits for none."""
        lines = Position(scramble, normal, inverse).lines
        question = " ; ".join([str(slack), lines["normal"], normal, inverse, "100000", "1000"])
        if question not in [*self.asked, *self.known] and self.process.stdin:
            self.asked.append(question)
            self.process.stdin.write(question + "\n")
            self.process.stdin.flush()
        return question

    def ways(self, scramble: str, normal: str = "", inverse: str = "", slack: int = 0) -> list[Way]:
        """All ways on."""
        question = self.ask(scramble, normal, inverse, slack)
        while question not in self.known and self.process.stdout:
            rows = iter(self.process.stdout.readline, "\n")
            self.known[self.asked.pop(0)] = [way_of(row) for row in rows]
        return self.known[question]

    def end(self) -> None:
        """Ends it."""
        self.process.communicate()


def compiled(room: str) -> str:
    """The model as a program, in this folder."""
    program, source = f"{room}/ways", Path(__file__).parent.parent / "model/ways.cpp"
    subprocess.run(["g++", "-std=c++17", "-O3", "-o", program, source], check=True)
    return program

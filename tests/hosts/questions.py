"""Questions to `best`, as they are drawn: scrambles with slices, rotations and brackets, moves so far on both sides, oriented cubes, reduced ones,
lines with faults, and bounds."""
import random
from typing import Iterator, List, NamedTuple, Tuple

import nissy

ORIENTATIONS: Tuple[nissy.Step, ...] = ("eofb", "eorl", "eoud")
SUFFIXES = ("", "2", "'")
# moves that leave the centres elsewhere
TURNING = ("Rw", "f'", "M", "E2", "S'", "x", "y'", "z2", "u")
ALL = 2**64 - 1
FAULTS = ("R Q", "(U", "R (F (U))", "F)", "R'3")


class Question(NamedTuple):
    """What is asked."""

    scramble: str
    so_far: str = ""
    slack: int = 0
    most: int = 20
    nodes: int = ALL
    # 1 if what was found until a cut is wanted
    partial: int = 0
    # how often it is asked whether to end before it is to
    asks: int = ALL


class Drawing(random.Random):
    """Questions by a seed."""

    def turns(self, count: int) -> List[str]:
        """Face turns, no two of one face after each other."""
        faces: List[str] = []
        while len(faces) < count:
            face = self.choice("UDRLFB")
            if faces[-1:] != [face]:
                faces.append(face)
        return [face + self.choice(SUFFIXES) for face in faces]

    def scramble(self) -> str:
        """One of 25 turns."""
        return " ".join(self.turns(25))

    def mixed(self) -> str:
        """Some that leave the centres elsewhere among them, and some in brackets."""
        moves = [turn if self.random() < 0.85 else self.choice(TURNING) for turn in self.turns(22)]
        cut = self.randrange(12, 20)
        return f"{' '.join(moves[:cut])} ({' '.join(moves[cut:])})"

    def both_sides(self) -> str:
        """A few turns on each side, in an order of their own."""
        parts = [" ".join(self.turns(self.randrange(1, 4))), f"({' '.join(self.turns(self.randrange(1, 4)))})"]
        self.shuffle(parts)
        return " ".join(parts)

    def turning(self) -> str:
        """A few moves that leave the centres elsewhere, some in brackets."""
        moves = [*self.turns(2), self.choice(TURNING), *self.turns(1)]
        return f"{' '.join(moves[:2])} ({self.choice(TURNING)} {moves[3]}) {moves[2]}"

    def orientation(self, scramble: str) -> str:
        """The moves of an orientation, on either side."""
        step = self.choice(ORIENTATIONS)
        side, line = self.choice((("{}", scramble), ("({})", nissy.invert(scramble))))
        return side.format(self.choice(nissy.solve(step, line)))

    def oriented(self, slack: int) -> Question:
        """A scramble with an orientation after it."""
        scramble = self.choice((self.scramble, self.mixed))()
        return Question(scramble, self.orientation(scramble), slack, self.choice((5, 20, 50)))


def drawn(seed: int, count: int, slack: int) -> Iterator[Question]:
    """Yields questions of each kind, over and over."""
    draw = Drawing(seed)
    kinds = [
        lambda: draw.oriented(slack),
        lambda: Question(" ".join(draw.turns(draw.randrange(4))), draw.choice(("", "R", "(F2)", "U (D)")), slack, 50),
        lambda: Question(draw.scramble(), "", slack),
        lambda: Question(
            draw.scramble(),
            draw.choice(("", draw.both_sides())),
            slack,
            20,
            draw.choice((1000, 20_000, 100_000, 10**6)),
            1,
        ),
        lambda: Question(*draw.choice(((draw.mixed(), draw.choice(FAULTS)), (draw.choice(FAULTS), "R"))), slack),
        # moves so far make more ways alike, so these take longer
        lambda: Question(draw.mixed(), draw.turning(), slack),
        lambda: Question(draw.mixed(), draw.both_sides(), slack, draw.choice((1, 3, 20, 50))),
        lambda: Question(draw.scramble(), draw.turning(), slack, 20, draw.choice((0, 1, 50, 5000, 10**9))),
        lambda: Question(
            f"{draw.scramble()} {draw.choice(TURNING)}", f"{draw.both_sides()} {draw.choice(TURNING)}", slack
        ),
        lambda: Question(
            " ".join(draw.turns(draw.choice((130, 240, 252)))), " ".join(draw.turns(draw.choice((0, 20, 130)))), slack
        ),
    ]
    for at in range(count):
        yield kinds[at % len(kinds)]()

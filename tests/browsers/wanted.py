"""What the page should show, by the independent model of tests/model: it has no line of the page's or of the engine's."""
import re
import sys
from functools import lru_cache
from pathlib import Path

sys.path.insert(0, str(Path(__file__).resolve().parent.parent / "model"))

import bad_pieces  # noqa: E402
import model  # noqa: E402
from program import fewer_over_both  # noqa: E402

SIDES = ("normal", "inverse")
TITLES = {"eofb": "EO F/B", "eorl": "EO R/L", "eoud": "EO U/D"}
TITLES |= {
    f"dr{axis}-{start}": f"DR {letters} after {TITLES[start]}"
    for start, axes in {"eofb": ("ud", "rl"), "eorl": ("ud", "fb"), "eoud": ("rl", "fb")}.items()
    for axis, letters in {"ud": "U/D", "rl": "R/L", "fb": "F/B"}.items()
    if axis in axes
}


@lru_cache(maxsize=None)
def run(words: tuple[str, ...], line: str) -> tuple[str, str, int]:
    """The output, the text of faults and the status for one line."""
    out, err, status = model.run(list(words), line.encode() + b"\n")
    return out.decode(), err.decode(), status


def answer(command: str, line: str) -> str:
    """The one line that a rewriting command answers."""
    return run((command,), line)[0].removesuffix("\n")


def fault(line: str) -> str:
    """What is said of a line that can't be read."""
    return run(("unniss",), line)[1].strip()


def fault_column(line: str) -> int:
    """The column of that fault, a byte of the line, from 1."""
    [column] = re.findall(r"column (\d+)", fault(line))
    return int(column)


def by_faces(line: str) -> str:
    """A line by its face turns alone, without the turns of the whole cube at its end."""
    return " ".join(move for move in answer("cleanup", line).split() if move[0] not in "xyz")


AXES = ("UD", "RL", "FB")
# the axis whose quarter turns end a step's solutions
LAST_AXES = {"eofb": "FB", "eorl": "RL", "eoud": "UD"}
LAST_AXES |= {
    step: next(axis for axis in AXES if axis.lower() not in step.replace("lr", "rl"))
    for step in TITLES
    if step.startswith("dr")
}


def one_axis(turns: list[str]) -> bool:
    """Whether turns turn opposite faces."""
    return any(all(turn[0] in axis for turn in turns) for axis in AXES)


def twin_key(moves: str, step: str) -> str:
    """What twins have in common: their last turns of the step's axis have no direction."""
    turns, count = moves.split(), 0
    while count < len(turns) and turns[-1 - count][0] in LAST_AXES[step]:
        count += 1
    kept = turns[: len(turns) - count]
    return " ".join([*kept, *(turn.replace("'", "") for turn in turns[len(turns) - count :])])


def is_earlier(moves: str, solutions: set[str]) -> bool:
    """Whether a solution holds another one at its beginning, of two opposite turns either first."""
    turns = moves.split()
    for count in range(len(turns)):
        if " ".join(turns[:count]) in solutions:
            return True
        if (
            count > 0
            and one_axis(turns[count - 1 : count + 1])
            and " ".join([*turns[: count - 1], turns[count]]) in solutions
        ):
            return True
    return False


def rows_of(solutions: list[str], step: str) -> list[str]:
    """What the page lists of solutions: none that held earlier, and twins once."""
    known, seen, rows = set(solutions), set(), []
    for moves in solutions:
        key = twin_key(moves, step)
        if key not in seen and not is_earlier(moves, known):
            rows.append(moves)
            seen.add(key)
    return rows


@lru_cache(maxsize=None)
def merged_count(line: str) -> int:
    """How many moves a line has once turns of one face are merged that nothing stands between but turns of the opposite one."""
    made: list[tuple[str, int]] = []
    for turn in line.split():
        face, quarters = turn[0], {"": 1, "2": 2, "'": 3}[turn[1:]]
        at = len(made) - 1
        while at >= 0 and made[at][0] != face and one_axis([made[at][0], face]):
            at -= 1
        if at >= 0 and made[at][0] == face:
            quarters = (quarters + made.pop(at)[1]) % 4
        if quarters:
            made.append((face, quarters))
    return len(made)


class Position:
    """A scramble and the moves after it on both sides, as the definition of the inverse scramble has them."""

    def __init__(self, scramble: str, normal: str = "", inverse: str = "") -> None:
        whole = by_faces(answer("unniss", scramble))
        self.made = {"normal": normal, "inverse": inverse}
        self.lines = {
            "normal": " ".join([answer("invert", inverse), whole, normal]),
            "inverse": " ".join([answer("invert", f"{whole} {normal}"), inverse]),
        }

    def letters(self, side: str) -> str:
        """The 54 letters of the cube on a side."""
        return answer("print", self.lines[side])

    def case(self, axis: str) -> str:
        """The case of a reduction on an axis."""
        pieces = bad_pieces.seen(self.lines["normal"].encode()).axes[axis]
        return f"{len(pieces.bad_corners)}c{len(pieces.misplaced_edges)}e"

    def bad_edges(self, axis: str) -> int:
        """How many edges are bad on an axis."""
        return len(bad_pieces.seen(self.lines["normal"].encode()).axes[axis].bad_edges)

    def may_start(self, step: str) -> bool:
        """Whether a step may start: an orientation does, and a reduction after its own."""
        return step.startswith("eo") or self.count(step.split("-")[1], "normal")[0] == 0

    def count(self, step: str, side: str) -> tuple[int, int, int]:
        """The least length, how many solutions have it, and the looks."""
        text = run(("count", step, "20"), self.lines[side])[0]
        [(length, solutions, looks)] = re.findall(r"length (\d+) solutions (\d+) nodes (\d+)\n", text)
        return int(length), int(solutions), int(looks)

    def open_steps(self) -> list[list[str]]:
        """The steps that may start and aren't reached: reductions, and then orientations."""
        steps = [step for step in TITLES if self.may_start(step) and self.count(step, "normal")[0] > 0]
        return [[step for step in steps if step.startswith(kind)] for kind in ("dr", "eo")]

    def reached(self) -> list[str]:
        """The steps that it has reached."""
        return [step for step in TITLES if self.may_start(step) and self.count(step, "normal")[0] == 0]

    def is_reduced(self) -> bool:
        """Whether a reduction is reached."""
        return any(step.startswith("dr") for step in self.reached())

    def keeps(self, group: list[str]) -> bool:
        """Whether steps keep what is reached: reductions keep an orientation, and no step keeps a reduction."""
        return not self.reached() or (not self.is_reduced() and all(step.startswith("dr") for step in group))

    def in_all(self, side: str = "normal", moves: str = "") -> int:
        """How many moves there are once neighbours are merged on each side, with some more on one of them."""
        made = {**self.made, side: f"{self.made[side]} {moves}"}
        return sum(merged_count(each) for each in made.values())

    def totals(self, step: str, side: str) -> list[int]:
        """The number of moves in all with each shortest solution, the least first."""
        return sorted(self.in_all(side, moves) for moves in self.solutions(step, side))

    def total(self, step: str, side: str) -> int:
        """The least number of moves in all with a shortest solution."""
        return self.totals(step, side)[0]

    def in_words(self, step: str, side: str, solutions: int) -> str:
        """How many solutions there are, or how many of them have the fewest moves in all; after moves with that number."""
        if not self.in_all():
            return counted(solutions, "solution")
        totals = self.totals(step, side)
        best = totals.count(totals[0])
        return f"{totals[0]} in all, {f'{best:,} of ' if best < solutions else ''}{counted(solutions, 'solution')}"

    def over_both(self, program: str) -> dict[str, int]:
        """The least lengths over both sides, by the built program, of the steps that may follow and take less so than on each side alone; after a
        reduction, which all of them give up, none is told."""
        steps = [] if self.is_reduced() else [step for group in self.open_steps() for step in group]
        alone = {step: min(self.count(step, side)[0] for side in SIDES) for step in steps}
        found = {
            step: fewer_over_both(program, step, tuple(self.lines.values()), least) for step, least in alone.items()
        }
        return {step: length for step, length in found.items() if length is not None}

    def cells(self, program: str) -> list[str]:
        """What is pressed in the page's table, row by row: what takes less over both sides than on each alone, and a cell of each side. The shortest
        are marked: on a side that takes more than a step over both sides none is."""
        names = []
        over = self.over_both(program)
        for group in self.open_steps():
            counts = {(step, side): self.count(step, side) for step in group for side in SIDES}
            lengths = [length for length, _, _ in counts.values()] + [over[step] for step in group if step in over]
            least = min(lengths, default=0) if self.keeps(group) else None
            for (step, side), (length, solutions, _) in counts.items():
                if side == SIDES[0] and step in over:
                    both = f"{TITLES[step]}, {counted(over[step], 'move')} over both sides"
                    names.append(f"{both}{', shortest' if over[step] == least else ''}")
                said = f"{counted(length, 'move')}, {self.in_words(step, side, solutions)}"
                names.append(f"{TITLES[step]}, {side} side: {said}{', shortest' if length == least else ''}")
        return names

    def rows(self, step: str, side: str, slack: int = 0) -> list[str]:
        """The rows of a list, without their lengths: after moves those first that have the fewest in all."""
        solutions = self.solutions(step, side, slack)
        return rows_of(
            sorted(solutions, key=lambda moves: self.in_all(side, moves)) if self.in_all() else solutions, step
        )

    def solutions(self, step: str, side: str, slack: int = 0) -> list[str]:
        """The solutions of a step, without their lengths."""
        text = run(("near", step, "20", str(slack)), self.lines[side])[0]
        return [re.sub(r" ?\(\d+\)$", "", line) for line in text.splitlines() if line]

    def listed(self, step: str, side: str, slack: int) -> list[str]:
        """Those of a list with each twin by itself: none that reaches the step before its last move."""
        solutions = self.solutions(step, side, slack)
        return [moves for moves in solutions if not is_earlier(moves, set(solutions))]


def counted(number: int, word: str) -> str:
    """A number with its word."""
    return f"{number:,} {word}{'' if number == 1 else 's'}"

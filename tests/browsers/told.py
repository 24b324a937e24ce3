"""What the page is to tell of a scramble with steps after it, and of the steps that may follow, by the independent model: nothing of it is read of the
page or of the engine."""
from functools import lru_cache
from typing import NamedTuple

from passage import begin_of, passage_of
from wanted import LAST_AXES, SIDES, TITLES, Position, answer, counted, merged_count
from ways import state_of

# of the folder of the model, which `wanted` names
import bad_pieces  # isort: skip
from cube import EFFECTS, FACELETS, Effect, brought_home, inverse_effect, then  # isort: skip
from notation import TURNS, meaning, read, word_of  # isort: skip

# the moves of a step on the normal side, and on the inverse
Moves = tuple[str, str]
NOTHING: Moves = ("", "")
AXES = {"fb": "F/B", "rl": "R/L", "ud": "U/D"}
TURN = {word_of(turn): EFFECTS[turn] for turn in TURNS}
# rows of a list that are shown at first
MOST_SHOWN = 200


def bracketed(*steps: Moves) -> str:
    """Steps as one line, with what is on the inverse side in brackets; neighbours on a side share these."""
    runs: list[tuple[int, str]] = []
    for side, moves in ((side, step[side]) for step in steps for side in (0, 1) if step[side]):
        if runs and runs[-1][0] == side:
            runs[-1] = (side, f"{runs[-1][1]} {moves}")
        else:
            runs.append((side, moves))
    return " ".join(f"({moves})" if side else moves for side, moves in runs)


def joined(steps: tuple[Moves, ...]) -> Moves:
    """The moves of steps on each side."""
    normal, inverse = (" ".join(step[side] for step in steps if step[side]) for side in (0, 1))
    return normal, inverse


def case_of(effect: Effect, axis: str) -> str:
    """The case of a reduction."""
    pieces = bad_pieces.of_axis(axis, brought_home(effect))
    return f"{len(pieces.bad_corners)}c{len(pieces.misplaced_edges)}e"


def effects_by(at: Position, step: Moves) -> list[Effect]:
    """The cube before each move of a step and after all of them: those on the normal side come first, and one on the inverse is undone before all
    that led to the cube."""
    effects = [meaning(*read(at.lines["normal"].encode()))]
    for turn in step[0].split():
        effects.append(then(effects[-1], TURN[turn]))
    for turn in step[1].split():
        effects.append(then(inverse_effect(TURN[turn]), effects[-1]))
    return effects


def passed(at: Position, step: Moves, axis: str) -> list[list[object]]:
    """The cases of a reduction that a step passes, as the page has them: the case, the moves after it, whether these are of the trigger."""
    cases = [case_of(effect, axis) for effect in effects_by(at, step)[:-1]]
    return passage_of(cases, bracketed(step))


def trigger(at: Position, step: Moves, axis: str) -> str:
    """The case from which the trigger goes, "" if there is none."""
    cases = [case_of(effect, axis) for effect in effects_by(at, step)[:-1]]
    return [*cases, ""][begin_of(cases)]


def ends_of(moves: str, step: str) -> list[str]:
    """The last quarter turns of a step on one side."""
    turns, count = moves.split(), 0
    while count < len(turns) and turns[-1 - count][0] in LAST_AXES[step]:
        count += 1
    return turns[len(turns) - count :]


def members(step: str, moves: Moves) -> int:
    """How many solutions share a row: those with the last quarter turns in other directions."""
    return int(2 ** (len(ends_of(moves[0], step)) + len(ends_of(moves[1], step))))


def twins_said(step: str, moves: Moves) -> str:
    """What a row says of its twins: the last turn of the one, or how many they are."""
    twins, ends = members(step, moves) - 1, [*ends_of(moves[0], step), *ends_of(moves[1], step)]
    if twins == 1:
        return f" / {ends[0][0]}" + ("" if ends[0].endswith("'") else "'")
    return f" or {twins} twins" if twins else ""


def states(at: Position) -> list[str]:
    """What a cube has reached, in the page's order."""
    holds = bad_pieces.seen(at.lines["normal"].encode()).holds
    return list(dict.fromkeys(state_of(step) for step in TITLES if step in holds))


def is_reduced(at: Position) -> bool:
    """Whether a reduction is reached."""
    return any(state.startswith("DR") for state in states(at))


def newly(before: list[str], after: list[str]) -> list[str]:
    """What a step reaches that wasn't there: a reduction says what holds with it."""
    fresh = [state for state in after if state not in before]
    return [state for state in fresh if state.startswith("DR")] or fresh


def shortest(at: Position, group: list[str], over: dict[str, int]) -> int | None:
    """The least length of some steps, on a side or over both; none of those that give up what is reached."""
    lengths = [at.count(step, side)[0] for step in group for side in SIDES] + [
        over[step] for step in group if step in over
    ]
    return min(lengths, default=0) if at.keeps(group) else None


def chosen_by(at: Position, step: str) -> str:
    """What one chooses a step by."""
    return counted(at.bad_edges(step[2:4]), "bad edge") if step.startswith("eo") else at.case(step[2:4])


def heads(at: Position, program: str) -> list[list[str]]:
    """What stands before the cells of the table: the step, what one chooses it by, and the least length over both sides if that is less, with what is
    said of it."""
    over = at.over_both(program)
    rows = []
    for group in at.open_steps():
        is_one_of, least = len({step[5:] for step in group}) > 1, shortest(at, group, over)
        for step in group:
            rows.append([TITLES[step] if is_one_of else state_of(step), chosen_by(at, step), "", ""])
            if step in over:
                length, last = counted(over[step], "move"), ", shortest" if over[step] == least else ""
                rows[-1][2:] = [f"{length} over both", f"{TITLES[step]}, {length} over both sides{last}"]
    return rows


def cells(at: Position, program: str) -> list[list[str]]:
    """The cells of the table: step, side, length, solutions, and whether it is one of the shortest."""
    shown = []
    for group in at.open_steps():
        counts = {(step, side): at.count(step, side) for step in group for side in SIDES}
        least = shortest(at, group, at.over_both(program))
        for (step, side), (length, solutions, _) in counts.items():
            words = [TITLES[step], f"{side} side", counted(length, "move"), at.in_words(step, side, solutions)]
            shown.append([*words, "shortest" if length == least else ""])
    return shown


class Line(NamedTuple):
    """A scramble, and steps after it."""

    scramble: str
    steps: tuple[Moves, ...] = ()

    def and_then(self, step: Moves) -> "Line":
        """It with one more step."""
        return Line(self.scramble, (*self.steps, step))

    @property
    def at(self) -> Position:
        """The cube."""
        return position(self.scramble, joined(self.steps))

    def beginnings(self) -> list[Position]:
        """The cube after none of the steps, after one, and so on."""
        return [position(self.scramble, joined(self.steps[:count])) for count in range(len(self.steps) + 1)]

    def is_solved(self) -> bool:
        """Whether it solves the scramble."""
        return bad_pieces.seen(self.at.lines["normal"].encode()).solved

    def said(self) -> list[str]:
        """What each step is said to reach; of the one that solves only that."""
        reached = [states(at) for at in self.beginnings()]
        words = [", ".join(newly(*each)) for each in zip(reached, reached[1:])]
        return [*words[:-1], "solved"] if words and self.is_solved() else words

    def passages(self) -> list[list[list[object]]]:
        """Of each step the cases that it passes, if it leads on from an orientation to the first reduction."""
        ats = self.beginnings()
        end = next((number for number, at in enumerate(ats) if is_reduced(at)), 0)
        none: list[list[list[object]]] = [[] for _ in self.steps]
        before = states(ats[end - 1]) if end else []
        ways = [step for step in TITLES if step.startswith("dr") and TITLES[step[5:]] in before]
        step = next((step for step in ways if state_of(step) in states(ats[end])), None)
        if step is None:
            return none
        begin = end
        while begin > 0 and TITLES[step[5:]] in states(ats[begin - 1]):
            begin -= 1
        ways_on = range(begin, end)
        return [passed(ats[at], self.steps[at], step[2:4]) if at in ways_on else [] for at in range(len(self.steps))]

    def missed(self, number: int) -> str:
        """What is said of a step that reaches nothing new: what it gives up, and what it would reach on the other side."""
        ats = self.beginnings()
        before, after = states(ats[number]), states(ats[number + 1])
        if newly(before, after):
            return ""
        step = self.steps[number]
        other = Line(self.scramble, (*self.steps[:number], (step[1], step[0])))
        there = ["solved"] if other.is_solved() else newly(before, states(other.at))
        if is_reduced(ats[number + 1]):
            return "solved on the other side" if there == ["solved"] else ""
        given_up = [f"gives up {state}" for state in before if state not in after]
        return ", ".join([*given_up, *(f"{state} on the other side" for state in there)]) or "reaches no step"

    def rows(self) -> list[list[object]]:
        """Its steps as they are listed: moves, what is reached, how long it is, what else is said, and the cases."""
        totals = [at.in_all() for at in self.beginnings()]
        rows: list[list[object]] = []
        for number, (step, reaches, cases) in enumerate(zip(self.steps, self.said(), self.passages())):
            own = sum(merged_count(moves) for moves in step)
            side = "" if all(step) else f"{SIDES[not step[0]]} "
            length = counted(own, f"{side}move") + (f", {totals[number + 1]} in all" if number else "")
            rows.append([bracketed(step), reaches, length, self.missed(number), cases])
        return rows

    def fmc(self) -> str:
        """It as solvers write it, a step a line."""
        lines = [self.scramble]
        totals = [at.in_all() for at in self.beginnings()]
        for number, (step, reaches) in enumerate(zip(self.steps, self.said())):
            own = sum(merged_count(moves) for moves in step)
            length = f"({own}/{totals[number + 1]})" if number else f"({totals[1]})"
            lines.append(f"{bracketed(step)} // {reaches} {length}" if reaches else f"{bracketed(step)} // {length}")
        return "\n".join(lines)

    def finish(self) -> str:
        """What is said at the end of a line."""
        total = counted(self.at.in_all(), "move")
        if not self.steps or not is_reduced(self.at):
            return ""
        if self.is_solved():
            left = merged_count(answer("unniss", bracketed(joined(self.steps))))
            return f"Solved: {total}" + (f", {left} without brackets." if left < self.at.in_all() else ".")
        *some, last = [state for state in states(self.at) if state.startswith("DR")]
        words = f"{', '.join(some)} and {last} are" if some else f"{last} is"
        return f"{words} reached: {total}. nissy has no step after a DR: go on by hand."

    def set_ups(self) -> list[str]:
        """How each side is set up from a solved cube."""
        normal, inverse = (shortened(moves) for moves in joined(self.steps))
        back = answer("invert", self.scramble)
        lines = ((answer("invert", inverse), self.scramble, normal), (answer("invert", normal), back, inverse))
        return [" ".join(part for part in line if part) for line in lines]

    def without_brackets(self) -> str:
        """It on the normal side only."""
        normal, inverse = (shortened(moves) for moves in joined(self.steps))
        whole = answer("unniss", bracketed((normal, inverse)))
        return shortened(whole) if self.is_solved() else whole


def shortened(moves: str) -> str:
    """Moves as they are written, or clean if some of them cancel."""
    clean = answer("cleanup", moves)
    return clean if len(clean) < len(moves) else moves


@lru_cache(maxsize=None)
def position(scramble: str, made: Moves) -> Position:
    """The cube after moves on both sides, of which each is worked out once."""
    return Position(scramble, *made)


def spoken(moves: str) -> str:
    """Moves as they are said."""
    return moves.replace("'", " prime").replace("(", "on the inverse side ").replace(")", "")


class Listed(NamedTuple):
    """A list of a step's solutions as it is shown: its note, its groups, each with its heading and rows, and the cases by which rows are chosen."""

    note: str
    groups: dict[str, list[list[object]]]
    cases: list[list[str]]


def listed(line: Line, step: str, side: str, slack: int) -> Listed:
    """The solutions on one side, each with its twins, and the cases after it, or those that it passes."""
    every = line.at.listed(step, side, slack)
    rows = line.at.rows(step, side, slack)
    return grouped(line, step, [(moves, "") if side == "normal" else ("", moves) for moves in rows], len(every))


def grouped(line: Line, step: str, rows: list[Moves], count: int) -> Listed:
    """Rows by their length, all moves with them and their trigger, in the order in which each group comes first."""
    groups: dict[str, list[list[object]]] = {}
    cases = [cases_of_row(line, step, moves) for moves in rows]
    for moves, own in zip(rows, cases):
        length = counted(len(bracketed(moves).split()), "move")
        total = f", {line.and_then(moves).at.in_all()} in all" if line.steps else ""
        last = f", trigger from {own[0]}" if step.startswith("dr") and own else ""
        groups.setdefault(length + total + last, []).append(row_of(line, step, moves))
    sentences = [counted(count, "solution")]
    if count > len(rows):
        sentences.append(f"{counted(len(rows), 'row')}: twins share one")
    if len(rows) > MOST_SHOWN:
        sentences.append(f"The first {MOST_SHOWN} are shown: type moves to narrow the list")
    headed = {f"{name}: {counted(len(each), 'row')}": each for name, each in groups.items()}
    return Listed(" ".join(f"{sentence}." for sentence in sentences), first_of(headed, MOST_SHOWN), cases)


def cases_of_row(line: Line, step: str, moves: Moves) -> list[str]:
    """By which cases a row is chosen: of a reduction that of its trigger, if it has one, and of an orientation those after it."""
    if step.startswith("dr"):
        return [case for case in (trigger(line.at, moves, step[2:4]),) if case]
    effect = effects_by(line.at, moves)[-1]
    return [case_of(effect, axis) for axis in axes_after(step)]


def axes_after(step: str) -> list[str]:
    """The axes of the reductions that may follow an orientation."""
    return [each[2:4] for each in TITLES if each.endswith(f"-{step}")]


def first_of(groups: dict[str, list[list[object]]], most: int) -> dict[str, list[list[object]]]:
    """The first rows of some groups."""
    left, shown = most, {}
    for name, rows in groups.items():
        if left > 0:
            shown[name] = rows[:left]
        left -= len(rows)
    return shown


def row_of(line: Line, step: str, moves: Moves) -> list[object]:
    """A row: its moves, its twins, the cases after an orientation, and those that a reduction passes."""
    cases = cases_of_row(line, step, moves)
    after = [f"{AXES[axis]} {case}" for axis, case in zip(axes_after(step), cases)]
    way = passed(line.at, moves, step[2:4]) if step.startswith("dr") else []
    return [bracketed(moves), twins_said(step, moves), after, way]

"""What is kept of the scrambles of a desk, by the independent model: how it is shown, copied and compared."""
from typing import NamedTuple

from compared import steps_of
from sighted import marked
from told import AXES, Line, bracketed, is_reduced, joined, newly, states
from wanted import SIDES, counted
from ways import Model, Way, state_of, title_of

COPIED_DESK = "Scrambles of nissy: paste all of this where its page has a scramble."


class Kept(NamedTuple):
    """A line that is kept, the reduction that it was kept with, or "", and its note."""

    line: Line
    next: str = ""
    note: str = ""


class Sheet:
    """A scramble of the desk, with what was done: the line so far, what is kept, and the address when it was left."""

    def __init__(self, text: str, model: Model) -> None:
        self.line, self.model = Line(text), model
        self.kept: list[Kept] = []
        self.hash = ""
        model.ask(text)

    def ways(self, line: Line, slack: int = 0) -> list[Way]:
        """All ways on after a line of this scramble."""
        return self.model.ways(line.scramble, *joined(line.steps), slack=slack)

    def next_of(self, kept: Kept) -> Way | None:
        """The best of the reduction that a line was kept with."""
        if kept.next == "":
            return None
        return next(way for way in self.ways(kept.line) if way.reduction == kept.next[2:4])

    def total_of(self, kept: Kept) -> int:
        """All moves of a line that is kept, with its reduction."""
        way = self.next_of(kept)
        return way.total if way else kept.line.at.in_all()

    def stage_of(self, kept: Kept) -> int:
        """How far a line has come: to a reduction, also to one that is still to be made, to an orientation, or not so far."""
        return 2 if kept.next or is_reduced(kept.line.at) else min(1, len(states(kept.line.at)))

    def in_order(self) -> list[Kept]:
        """Those that have come furthest first, and of these those with the fewest moves in all."""
        return sorted(self.kept, key=lambda it: (-self.stage_of(it), self.total_of(it)))

    def row(self, kept: Kept) -> list[object]:
        """A line as it is shown: its steps with what they reach and the cases that they pass, all moves, what follows, its note and its set-ups."""
        line = kept.line
        said = [[each] if each == "solved" else each.split(", ") if each else [] for each in line.said()]
        steps = [list(each) for each in zip(([bracketed(step) for step in line.steps]), said, line.passages())]
        return [steps, [f"{self.total_of(kept)} in all"], self.after(kept), kept.note, line.set_ups()]

    def after(self, kept: Kept) -> list[str]:
        """What follows a line: the reduction that it was kept with, and the first one, or the case of each that may."""
        way, at = self.next_of(kept), kept.line.at
        if way is None:
            open_steps = [] if is_reduced(at) else at.open_steps()[0]
            return list(dict.fromkeys(f"{AXES[step[2:4]]} {at.case(step[2:4])}" for step in open_steps))
        alone = [f"{at.count(way.step, side)[0]} {side}" for side in SIDES]
        both = [f"{way.length} over both"] if all(way.dr) else []
        said = f"DR {AXES[way.reduction]} {at.case(way.reduction)}: {', '.join([*alone, *both])}"
        return [said, f"then {bracketed(way.dr)}"]

    def copied(self) -> list[str]:
        """All that is kept as it is copied, block by block, without the address at its end."""
        return [self.line.scramble, *(self.block(each) for each in self.in_order())]

    def block(self, kept: Kept) -> str:
        """A line as it is copied: a step a line, the first of its reduction, and what is noted."""
        way, lines = self.next_of(kept), kept.line.fmc().split("\n")[1:]
        if way:
            lines.append(f"{bracketed(way.dr)} // {title_of(way)} ({way.length}/{way.total})")
            lines.append(f"// {self.after(kept)[0]}")
        return "\n".join([*lines, *([f"// {kept.note}"] if kept.note else [])])

    def beside(self, kept: Kept, program: str) -> list[object]:
        """A line as it is compared: its cube with what is marked, the steps that follow with how many there are, the first of the best, its note."""
        at, way = kept.line.at, self.next_of(kept)
        rows = steps_of(at, program)
        first = way or (self.ways(kept.line)[0] if rows else None)
        choice = "" if first is None else state_of(f"eo{first.axis}" if any(first.eo) else first.step)
        marks = [marked(at.lines[side], choice) if choice else ["", []] for side in SIDES]
        captions = [[f"{side.title()}{said}", bad] for side, (said, bad) in zip(SIDES, marks)]
        said = f"Best way on: {bracketed(first.eo, first.dr)}, {title_of(first)}, {first.total} in all" if first else ""
        texts = [*([] if rows else ["nissy has no step after a DR."]), said, kept.note]
        total = ", ".join([counted(at.in_all(), "move"), *newly([], states(at))])
        return [bracketed(*kept.line.steps), total, [at.letters(side) for side in SIDES], captions, rows, texts]


def desk_text(sheets: list[Sheet]) -> str:
    """All scrambles as one text, each with its address."""
    blocks = [f"\n{number}. {sheet.line.scramble}\n{sheet.hash}" for number, sheet in enumerate(sheets, 1)]
    return "\n".join([COPIED_DESK, *blocks])


def chips(sheets: list[Sheet], shown: Sheet) -> list[list[str]]:
    """The strip of the desk: number and stars, the scramble, the name, and which one is shown."""
    rows = []
    for number, sheet in enumerate(sheets, 1):
        text, kept = sheet.line.scramble, len(sheet.kept)
        label = f"Scramble {number}: {text}" + (f", {counted(kept, 'line')} kept" if kept else "")
        rows.append([f"{number} \u2605{kept}" if kept else str(number), text, label, "page" if sheet is shown else ""])
    return rows

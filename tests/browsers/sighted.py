"""What the page shows, read of it card by card in the form in which `told` says what is wanted, and a comparison that counts the values."""
import re
from collections import Counter

from browser import Browser
from passage import sides_of
from told import AXES, Line, Listed, Moves, bracketed, cells, heads, is_reduced, passed, states, trigger, twins_said
from wanted import SIDES, TITLES, counted
from tally import Tally  # isort: skip
from ways import Way, state_of, then_of  # isort: skip

# of the folder of the model, which `wanted` names
import bad_pieces  # isort: skip
from cube import FACELETS  # isort: skip

PASSED = """const passed = (each) => [...each.querySelectorAll('.passed')].map((one) =>
        [one.dataset.case, one.textContent, one.matches('.trigger')]);
    const texts = (each, selector) => [...each.querySelectorAll(selector)].map((one) => one.textContent);
    const text = (each, selector) => { const it = each.querySelector(selector); return it?.checkVisibility() ? it.textContent : ''; };"""
STEPS = (
    PASSED
    + """return all('#line-list li').map((each) =>
    [...['.moves', '.reaches', '.count', '.otherwise'].map((name) => text(each, name)), passed(each)])"""
)
HEADS = (
    PASSED
    + """return all('#steps-body tr:not(.anew) th').map((each) =>
    [each.children[0].textContent, each.children[1].textContent.trim(), each.children[2]?.textContent ?? '', each.children[2]?.ariaLabel ?? ''])"""
)
CELLS = "return all('#steps-body td .cell').map((each) => [each.ariaLabel, each.children[0].textContent, each.children[1].textContent])"
BEST = (
    PASSED
    + """return all('#best-body tr').map((row) => [
    row.children[0].textContent, row.querySelector('.take').textContent, text(row, '.twins'), texts(row, '.axis'),
    [...row.querySelectorAll('.number')].map((one) => [one.textContent, one.matches('.best')]),
    text(row, '.first'), texts(row, '.first .best'), passed(row), row.querySelector('.axis').dataset.trigger])"""
)
LIST = (
    PASSED
    + """return [part('solutions-note').textContent, all('#solutions-groups .group').map((group) =>
    [group.querySelector('h3').textContent, [...group.querySelectorAll('li')].map((row) =>
        [row.querySelector('.take').dataset.key, text(row, '.twins'), texts(row, '.cases .case'), passed(row)])])]"""
)
KEPT = (
    PASSED
    + """return all('#kept-list > li').map((each) => [
    [...each.querySelectorAll(':scope > .step > .step')].map((one) => [one.querySelector('.moves').textContent, texts(one, '.chip'), passed(one)]),
    texts(each, '.total'), texts(each, ':scope > .step > .case'), each.querySelector('.note-field').value, texts(each, 'dl output')])"""
)
COMPARED = """return all('#comparison-lines li').map((each) => [
    each.querySelector('h3').textContent, each.querySelector('.total').textContent,
    [...each.querySelectorAll('.net')].map((net) => [...net.querySelectorAll('.sticker')].map((one) => one.dataset.colour).join('')),
    [...each.querySelectorAll('figure')].map((one) => [one.querySelector('figcaption').textContent,
        [...one.querySelectorAll('.sticker')].flatMap((sticker, at) => sticker.matches('.bad') ? [at] : [])]),
    [...each.querySelectorAll('tbody tr')].map((row) => [...row.children].map((cell) => cell.textContent)),
    [...each.querySelectorAll(':scope > p')].slice(1).map((one) => one.textContent)])"""
CASES = """return all('#%s-cases-chips button').map((each) => each.textContent.trim().split(' '))"""
MARKED = """return ['normal', 'inverse'].map((side) => [part(`marked-${side}`).textContent,
    all(`#net-${side} .sticker`).flatMap((each, at) => each.matches('.bad') ? [at] : [])])"""
CHIPS = (
    "return all('#desk-chips a').map((each) => [each.textContent, each.title, each.ariaLabel, each.ariaCurrent ?? ''])"
)
CELL = re.compile(
    r"(?P<step>.*), (?P<side>\w+ side): (?P<length>\d+ moves?), (?P<solutions>.*?)(?:, (?P<least>shortest))?"
)
MARKS = ("EO F/B", "EO R/L", "EO U/D", "DR U/D", "DR R/L", "DR F/B")


def leaves(value: object) -> int:
    """How many values there are in what is compared: a list of lists is as many as all within."""
    if isinstance(value, dict):
        return sum(1 + leaves(each) for each in value.values())
    return sum(map(leaves, value)) if isinstance(value, (list, tuple)) else 1


class Beside:
    """A page beside the model."""

    def __init__(self, tally: Tally, browser: Browser) -> None:
        self.tally, self.browser, self.values = tally, browser, 0

    def same(self, what: str, got: object, wanted: object) -> None:
        """Values that must be the same, of which lists are told apart row by row."""
        self.values += leaves(wanted)
        if isinstance(got, list) and isinstance(wanted, list) and len(got) == len(wanted):
            differ = [pair for pair in zip(got, wanted) if pair[0] != pair[1]]
            self.tally.holds(f"{what}: {differ[:2]}", not differ)
        else:
            self.tally.equal(what, got, wanted)

    def cube(self, what: str, line: Line) -> None:
        """The nets of both sides, and what is marked on them, by the axes of orientations and of reductions."""
        self.same(
            f"{what}: the nets",
            [self.browser.letters(side) for side in SIDES],
            [line.at.letters(side) for side in SIDES],
        )
        for choice in MARKS:
            self.browser.choose("marks", choice)
            self.same(
                f"{what}: {choice}",
                self.browser.script(MARKED),
                [marked(line.at.lines[side], choice) for side in SIDES],
            )
        self.browser.choose("marks", "follow")

    def table(self, what: str, line: Line) -> None:
        """The steps that may follow, with their counts on both sides, and what is reached."""
        program = self.browser.program
        self.same(f"{what}: the steps that may follow", self.browser.script(HEADS), heads(line.at, program))
        shown = [in_parts(*cell) for cell in self.browser.script(CELLS)]
        wanted = [[*words, words[2], short(words[3])] for words in cells(line.at, program)]
        self.same(f"{what}: the cells", shown, wanted)
        reached = states(line.at)
        self.same(f"{what}: what is reached", self.browser.texts("#reached .chip"), reached)
        orientation = "Going on from here, this DR given up" if is_reduced(line.at) else ""
        self.same(f"{what}: what is given up", self.browser.content("steps-anew"), orientation)

    def line(self, what: str, line: Line) -> None:
        """The line so far: step by step, and the whole."""
        self.same(f"{what}: the steps", self.browser.script(STEPS), line.rows())
        whole = bracketed(*line.steps)
        if not line.steps:
            self.same(f"{what}: it is empty", self.browser.text("whole"), "")
            return
        total = counted(line.at.in_all(), "move")
        names = {
            "bracketed": whole,
            "bar-line": whole,
            "total": total,
            "bar-total": total,
            "joined": line.without_brackets(),
        }
        names |= {"fmc": line.fmc(), "finished": line.finish()}
        for name, wanted in names.items():
            self.same(f"{what}: {name}", self.browser.content(name), wanted)
        self.same(f"{what}: the set-ups", self.browser.texts("#set-ups output"), line.set_ups())

    def best(self, what: str, line: Line, ways: list[Way], note: str) -> None:
        """The best ways on, as many as are shown of them, and what is said of how many there are."""
        shown = self.browser.script(BEST)
        rows = [best_row(line, way) for way in ways[: len(shown)]]
        self.tally.holds(f"{what}: some are shown", shown)
        self.same(f"{what}: the best", shown, rows)
        self.same(f"{what}: how many", self.browser.text("best-note"), note)

    def cases(self, what: str, card: str, cases: list[list[str]]) -> None:
        """The chips of cases, each with how many rows have it: the nearest first."""
        counts = Counter(each for some in cases for each in dict.fromkeys(some))
        nearest = sorted(counts.items(), key=lambda it: int(it[0][0]) + int(it[0][2:-1]))
        self.same(
            f"{what}: the cases", self.browser.script(CASES % card), [[case, f"{count:,}"] for case, count in nearest]
        )

    def listed(self, what: str, wanted: Listed) -> None:
        """The list that is open: what is said of it, each group with its rows, and the cases that choose among them."""
        note, groups = self.browser.script(LIST)
        self.same(f"{what}: the note", note, wanted.note)
        self.same(f"{what}: the headings", [name for name, _ in groups], list(wanted.groups))
        for (name, rows), own in zip(groups, wanted.groups.values()):
            self.same(f"{what}: {name}", rows, own)
        self.cases(what, "list", wanted.cases)


def in_parts(label: str, length: str, words: str) -> list[str]:
    """What a cell says, to be read and to be heard."""
    found = CELL.fullmatch(label)
    return [*(each or "" for each in found.groups()), length, words] if found else [label]


def short(words: str) -> str:
    """The number of solutions as it is read beside that of all."""
    return words.removesuffix("s").removesuffix(" solution") if " of " in words else words


def marked(line: str, choice: str) -> list[object]:
    """What is said beside a net, and which of its stickers are marked."""
    kind, axis = choice.split(" ")
    seen = bad_pieces.seen(line.encode())
    bad = seen.axes[axis.replace("/", "").lower()]
    if kind == "EO":
        words, pieces = f"{len(bad.bad_edges)} bad", list(bad.bad_edges)
    else:
        words, pieces = f"{len(bad.bad_corners)}c{len(bad.misplaced_edges)}e", [*bad.bad_corners, *bad.misplaced_edges]
    if choice in [state_of(step) for step in TITLES if step in seen.holds]:
        words = "done"
    places = {place for piece in pieces for place in bad_pieces.STICKERS[piece]}
    return [f" \u00b7 {choice}: {words}", [at for at, place in enumerate(FACELETS) if place in places]]


def best_row(line: Line, way: Way) -> list[object]:
    """A row of the best: its moves with their twins, what they reach, and of an orientation what follows, with its numbers on each side alone."""
    first, step = (way.eo, f"eo{way.axis}") if any(way.eo) else (way.dr, way.step)
    head = [str(way.total), bracketed(first), twins_said(step, first)]
    reached = f"DR {AXES[way.reduction]}"
    if step == way.step:
        way_on = passed(line.at, first, way.reduction)
        return [*head, [reached], [], "", [], way_on, trigger(line.at, first, way.reduction)]
    after = line.and_then(first).at
    numbers = [after.count(way.step, side) for side in SIDES]
    alone = [bool(moves) and not other for moves, other in (way.dr, way.dr[::-1])]
    least = len(bracketed(way.dr).split())
    shown = [
        [f"{length}\u00d7{solutions:,}", is_alone or length == least]
        for is_alone, (length, solutions, _) in zip(alone, numbers)
    ]
    # what is as short as that stands in no column
    over = [str(least)] if all(way.dr) else []
    axes = [TITLES[step], f"{reached} {way.case}"]
    return [*head, axes, shown, then_of(way), over, passed(after, way.dr, way.reduction), ""]


def moves_of(row: str) -> Moves:
    """The moves of a row on both sides."""
    normal, inverse = sides_of(row)
    return " ".join(normal), " ".join(inverse)

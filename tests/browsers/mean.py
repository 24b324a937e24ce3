"""What a solver does in a mean, by a mouse or by a finger, and what the page has to show then by the independent model."""
import random

from attempts import PASTE, chip
from browser import TURN, Browser
from further import FOUND
from kept import KEPT_SAID
from phone import tap
from sheets import Kept, Sheet, chips, desk_text
from sighted import CHIPS, COMPARED, KEPT, Beside, moves_of
from tally import Tally
from told import AXES, Line, Moves, bracketed, grouped, listed, members, spoken, states
from wanted import SIDES, TITLES, counted
from ways import Model, Way

# of the folder of the model, which `wanted` names
from model import Generator, scramble  # isort: skip

TURNS = 25
# so many rows of longer ones are kept
MOST_LONGER = 200
# for so many rows there is room on a desktop, at first and once more are shown
ROOMS = (6, 46)
IN_LIST = "return document.activeElement.closest('#solutions-groups') !== null"
NOTE = """const field = all('.note-field').find((each) => each.ariaLabel === `Note: ${arguments[0]}`);
    field.value = arguments[1];
    field.dispatchEvent(new Event('change'))"""
SHOWN_CHIP = "return document.querySelector(arguments[0]).ariaCurrent === 'page'"
INTO_VIEW = "document.querySelector(arguments[0]).scrollIntoView({ block: 'center', behavior: 'instant' })"


def drawn(seed: int, count: int) -> list[str]:
    """Scrambles on whose cube no step is reached."""
    every = (scramble(Generator(seed, number), TURNS) for number in range(100 * count))
    return [each for each in every if not states(Line(each).at)][:count]


class Mean(Beside):
    """A mean on the page."""

    def __init__(self, tally: Tally, browser: Browser, seed: int, program: str, is_phone: bool) -> None:
        super().__init__(tally, browser)
        self.is_phone, self.draw = is_phone, random.Random(seed)
        self.sheets = [Sheet(text, Model(program)) for text in drawn(seed, 3)]
        self.opened: list[Sheet] = []
        self.sheet = self.sheets[0]

    @property
    def ways(self) -> list[Way]:
        """The ways on after the line so far."""
        return self.sheet.ways(self.sheet.line)

    def press(self, selector: str) -> None:
        """A click, or on a phone a finger, on what one scrolls to, and the answers."""
        self.browser.script(INTO_VIEW, selector)
        if self.is_phone:
            tap(self.browser, selector)
        else:
            self.browser.click(selector)
        self.browser.wait()

    def begin(self, sheet: Sheet) -> None:
        """The next scramble, which is pasted: the second one in place of the first, and the third into the empty field of a new one."""
        if self.opened:
            self.leave()
        if len(self.opened) > 1:
            self.press("#desk-new")
        elif self.opened and self.is_phone:
            self.press("#scramble-edit")
        self.sheet = sheet
        self.opened.append(sheet)
        self.browser.script(PASTE, sheet.line.scramble)
        self.tally.holds("it is there", self.browser.comes("scramble=", sheet.line.scramble))
        self.look("a scramble")
        self.look_best("the first of them")
        self.press("#best-more")
        self.look_best("more of them")

    def look_best(self, what: str) -> None:
        """The best ways on, once they are counted."""
        self.browser.wait_best()
        self.best(f"{what}, {self.sheet.line}", self.sheet.line, self.ways, f"{counted(len(self.ways), 'row')}.")

    def choose_case(self) -> None:
        """The best with one case before the DR, and all again."""
        self.browser.script("part('best-options').open = true")
        self.browser.wait_best()
        self.cases("the best", "best", [[way.case] for way in self.ways])
        case = self.draw.choice(self.ways).case
        self.press(f"#best-cases-chips [data-case='{case}']")
        self.browser.wait_best()
        left = [way for way in self.ways if way.case == case]
        note = f"{len(left)} of {len(self.ways):,} rows." if len(left) < len(self.ways) else f"{len(left):,} rows."
        self.best(f"those with {case}", self.sheet.line, left, note)
        self.press("#best-clear")
        self.browser.script("part('best-options').open = false")
        self.look_best("all again")

    def longer(self) -> None:
        """The best with orientations that are one move longer, as the page looks for them by itself or is asked to, and as they are chosen."""
        ways = self.sheet.ways(self.sheet.line, 1)
        self.browser.script(TURN, True)
        self.tally.holds("they are looked for", self.browser.until(FOUND % 1))
        self.browser.script(TURN, False)
        self.look_longer("by itself")
        self.browser.choose("best-slack", "1")
        self.browser.wait_best()
        some = f"The best {MOST_LONGER} of " if len(ways) > MOST_LONGER else ""
        self.best("one move longer", self.sheet.line, ways, f"{some}{counted(len(ways), 'row')}.")
        self.browser.choose("best-slack", "0")
        self.look_best("the shortest again")

    def look_longer(self, what: str) -> None:
        """What is told of longer ones beside the rows that are shown: how many there are, and how many of the best would stand among those."""
        self.browser.wait_best()
        ways = self.sheet.ways(self.sheet.line, 1)
        shown = self.ways[: len(self.browser.texts("#best-body .take"))]
        # as many come in as there is room for
        joining = [way for way in ways[: next(each for each in ROOMS if len(shown) <= each)] if way not in shown]
        button = f"{counted(len(joining), 'more row')}, from {joining[0].total} moves" if joining else ""
        self.same(f"{what}: the button", self.browser.text("best-new"), button)
        longer = f"Up to 1 longer: {counted(len(ways), 'row')}{'' if joining else ', none better'}."
        self.best(what, self.sheet.line, self.ways, f"{counted(len(self.ways), 'row')}. {longer}")

    def look(self, what: str) -> None:
        """All that is said of the line, of the cube and of the steps that may follow."""
        what = f"{what}, {self.sheet.line}"
        self.cube(what, self.sheet.line)
        self.table(what, self.sheet.line)
        self.line(what, self.sheet.line)

    def desk(self, what: str) -> None:
        """What is kept of the scramble, and the strip with those that were opened."""
        self.browser.until(KEPT_SAID)
        rows = [self.sheet.row(each) for each in self.sheet.in_order()]
        self.same(f"{what}: what is kept", self.browser.script(KEPT), rows)
        count = counted(len(self.sheet.kept), "line") if self.sheet.kept else ""
        self.same(f"{what}: how many", self.browser.text("kept-count"), count)
        if len(self.opened) > 1:
            self.same(f"{what}: the desk", self.browser.script(CHIPS), chips(self.opened, self.sheet))

    def takes(self, step: Moves) -> None:
        """What is shown once a step is taken."""
        self.sheet.line = self.sheet.line.and_then(step)
        self.tally.holds(f"{self.sheet.line} is taken", self.browser.comes("steps", len(self.sheet.line.steps)))
        self.look("a step that was taken")

    def take_best(self) -> None:
        """One of the best that are shown, whose reductions are listed then."""
        at = self.draw.randrange(len(self.browser.texts("#best-body .take")))
        way = self.ways[at]
        self.press(f"#best-body tr:nth-child({at + 1}) .take")
        self.browser.settle(IN_LIST)
        self.takes(way.eo)
        side = "both" if all(way.dr) else SIDES[not way.dr[0]]
        words = f"{TITLES[way.step]}, {'both sides' if side == 'both' else f'{side} side'}"
        self.same("its list", self.browser.text("solutions-heading"), words)
        if side == "both":
            self.look_over_both(way.step)
        else:
            self.listed(words, listed(self.sheet.line, way.step, side, 0))

    def look_over_both(self, step: str) -> None:
        """The list of a step over both sides."""
        ways = [way for way in self.ways if way.step == step]
        least = min(way.length for way in ways)
        rows = [way.dr for way in ways if way.length == least]
        self.listed(step, grouped(self.sheet.line, step, rows, sum(members(step, dr) for dr in rows)))

    def open_list(self, step: str, side: str, slack: int) -> None:
        """The list of a cell, with solutions that are longer by so many moves, and its cases."""
        self.press(f'[data-cell="{step}.{side}"]')
        if slack:
            self.browser.choose("slack", str(slack))
            self.browser.wait()
        words = f"{TITLES[step]}, {side} side"
        self.same("the heading of a list", self.browser.text("solutions-heading"), words)
        self.listed(f"{words}, {slack} longer", listed(self.sheet.line, step, side, slack))

    def one_listed(self) -> str:
        """The moves of one of the rows that are listed."""
        keys: list[str] = self.browser.script("return all('#solutions-groups .take').map((each) => each.dataset.key)")
        return self.draw.choice(keys)

    def take_listed(self) -> None:
        """One of the rows that are listed."""
        key = self.one_listed()
        self.press(f'#solutions-groups .take[data-key="{key}"]')
        self.takes(moves_of(key))

    def star_listed(self, note: str) -> None:
        """One of the rows that are listed, which is kept as it is."""
        key = self.one_listed()
        self.press(f'#solutions-groups li:has(.take[data-key="{key}"]) .star')
        self.note(Kept(self.sheet.line.and_then(moves_of(key)), "", note))

    def keep(self, note: str) -> None:
        """The line so far, with a note, unless it is drawn a second time: then the star would take it away."""
        if not any(each.line == self.sheet.line for each in self.sheet.kept):
            self.press("#keep-line")
            self.note(Kept(self.sheet.line, "", note))

    def note(self, kept: Kept) -> None:
        """A line that was kept by now, and its note."""
        self.sheet.kept.append(kept)
        self.tally.holds("it is kept", self.browser.comes("kept", len(self.sheet.kept)))
        said = spoken(bracketed(*kept.line.steps))
        self.browser.script(NOTE, f"{said}, DR {AXES[kept.next[2:4]]}" if kept.next else said, kept.note)
        self.desk("a line that is kept")

    def star_best(self, note: str) -> Kept:
        """One of the best that are shown and aren't kept, with its reduction."""
        stars = self.browser.script("return all('#best-body .star').map((each) => each.ariaPressed === 'true')")
        at = self.draw.choice([at for at, is_kept in enumerate(stars) if not is_kept])
        self.press(f"#best-body tr:nth-child({at + 1}) .star")
        kept = Kept(self.sheet.line.and_then(self.ways[at].eo), self.ways[at].step, note)
        self.note(kept)
        return kept

    def go_on(self, kept: Kept) -> None:
        """On with a line that is kept, to the list of its reduction."""
        place = self.sheet.in_order().index(kept) + 1
        self.press(f"#kept-list > li:nth-child({place}) [data-control^='on ']")
        self.browser.settle(IN_LIST)
        self.takes(kept.line.steps[0])

    def compare(self) -> None:
        """All that is kept beside each other."""
        shown = self.sheet.in_order()[:4]
        for place in range(len(shown)):
            self.press(f"#kept-list > li:nth-child({place + 1}) [data-control^='compare ']")
        self.press("#kept-compare")
        self.tally.holds("they are compared", self.browser.until("return part('comparison').open"))
        self.same(
            "compared lines",
            self.browser.script(COMPARED),
            [self.sheet.beside(each, self.browser.program) for each in shown],
        )
        self.press("#comparison-close")

    def copied(self, button: str) -> str:
        """What a button copies."""
        self.browser.script("window.copied = ''")
        self.press(button)
        self.tally.holds(f"{button} copies", self.browser.until("return window.copied !== ''"))
        return str(self.browser.script("return window.copied"))

    def copy(self) -> None:
        """The line, and what is kept, as texts."""
        *blocks, address = self.copied("#copy-kept").split("\n\n")
        self.same("what is kept, copied", blocks, self.sheet.copied())
        self.same("with the address", address.split("&kept=")[1], self.browser.hash().split("&kept=")[1])
        if self.sheet.line.steps:
            self.same("the line, copied", self.copied("#copy-fmc").split("\n"), self.sheet.line.fmc().split("\n"))

    def clear(self) -> None:
        """All steps away, as one does it: the last one by the bar of a phone or by the key."""
        while self.sheet.line.steps:
            if self.is_phone:
                self.press("#bar-undo")
            else:
                self.browser.script("document.activeElement.blur()")
                self.browser.press("u")
            self.sheet.line = Line(self.sheet.line.scramble, self.sheet.line.steps[:-1])
            self.tally.holds("it is undone", self.browser.comes("steps", len(self.sheet.line.steps)))
            if self.browser.look("solutions?"):
                self.press("#solutions-close")
            self.line("an undone step", self.sheet.line)

    def by_hand(self, step: Moves) -> None:
        """Moves that are typed as one writes them down."""
        if self.browser.text("side") != "normal side":
            self.press("#switch")
        self.browser.submit("own", bracketed(step))
        self.takes(step)

    def leave(self) -> None:
        """What the address is as one goes on to another scramble."""
        self.browser.until(KEPT_SAID)
        self.sheet.hash = self.browser.hash()

    def returns(self, number: int) -> None:
        """By a scramble's chip to all that was done with it, once the page goes by the address, which changes before it does."""
        self.press(chip(number))
        self.browser.settle(SHOWN_CHIP, chip(number))
        self.sheet = self.opened[number - 1]
        self.is_as_it_was(f"back at scramble {number}")

    def is_as_it_was(self, what: str) -> None:
        """The scramble that is shown has its line, its address and what was kept."""
        self.same(f"{what}: the address", self.browser.hash(), self.sheet.hash)
        self.look(what)
        self.desk(what)

    def goes_away(self) -> None:
        """To another page, and back by the browser."""
        self.browser.load("about:blank")
        self.browser.driver.back()
        self.browser.wait()
        self.is_as_it_was("away and back")

    def moves(self, paste: str) -> None:
        """With all scrambles as one text to a browser that has none of them."""
        text = self.copied("#copy-desk")
        self.same("the desk, copied", text.split("\n"), desk_text(self.opened).split("\n"))
        self.browser.open()
        self.browser.script(paste, text)
        self.tally.holds("they come", self.browser.comes("scramble=", self.opened[0].line.scramble))
        self.sheet = self.opened[0]
        self.is_as_it_was("elsewhere, scramble 1")

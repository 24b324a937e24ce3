"""A solver's mean: three scrambles that are drawn at each run, from the paste to lines that are kept by several ways, away from the page and back.

Each number, side and word that the page shows on the way is compared with the independent model. Each run prints its seed, by which
`NISSY_SEED=7 tests/browsers/drive.py PAGE PROGRAM walk` makes it again.
"""
import os
import shutil
import tempfile
import time

from browser import Browser
from mean import Mean
from scrambles import NO_CLIPBOARD, PASTE_ALL
from tally import Tally
from told import Moves
from wanted import SIDES
from ways import compiled

ORIENTATIONS = ("eofb", "eorl", "eoud")
# so many values are compared at the least
LEAST_VALUES = 600


def by_the_best(mean: Mean) -> None:
    """A line by a row of the best, and another one by the lists of an orientation and of its reductions."""
    mean.take_best()
    mean.take_listed()
    mean.keep("by the best")
    mean.copy()
    mean.clear()
    step, side = mean.draw.choice(ORIENTATIONS), mean.draw.choice(SIDES)
    mean.open_list(step, side, 1)
    mean.press("#solutions-close")
    mean.open_list(step, side, 0)
    mean.take_listed()
    mean.look_best("its reductions")
    follows = [each for group in mean.sheet.line.at.open_steps() for each in group if each.endswith(f"-{step}")]
    for each in follows[:1]:
        mean.open_list(each, mean.draw.choice(SIDES), 0)
        mean.take_listed()
    mean.keep("2. by its list, R (U F)")


def by_stars(mean: Mean) -> None:
    """Lines that are kept by their stars, with the reduction that follows, of which one is gone on with; all are compared."""
    mean.choose_case()
    mean.star_best("a star")
    mean.open_list(mean.draw.choice(ORIENTATIONS), mean.draw.choice(SIDES), 0)
    mean.star_listed("only an EO")
    mean.press("#solutions-close")
    mean.go_on(mean.star_best("better?"))
    mean.take_listed()
    mean.keep("gone on with")
    mean.compare()
    mean.copy()


def halved(moves: str) -> Moves:
    """Moves in two, of which the last of the one and the first of the other are one move: so they count one less together."""
    first, *rest = moves.split() or [""]
    one, other = {"": ("2", "'"), "2": ("", ""), "'": ("2", "")}[first[1:]]
    return (first[0] + one, " ".join([first[0] + other, *rest])) if first else ("", "")


def by_typing(mean: Mean) -> None:
    """A line of moves by hand: an orientation in two steps that share a move, and its reduction, over both sides or on one."""
    if not mean.is_phone:
        mean.longer()
    way = mean.draw.choice(mean.ways[:20])
    halves = [halved(moves) for moves in way.eo]
    first, rest = ((halves[0][at], halves[1][at]) for at in (0, 1))
    for step in (first, rest, way.dr):
        if any(step):
            mean.by_hand(step)
    mean.keep("by hand")
    mean.clear()
    if mean.is_phone:
        mean.look_best("as before")
    else:
        mean.look_longer("as before")


def walk(tally: Tally, browser: Browser, name: str, is_phone: bool) -> None:
    """The mean, from one scramble to the next, and then to all of them once more: after another page, and in another browser."""
    seed = int(os.environ.get("NISSY_SEED", time.time_ns() % 1_000_000))
    begun = time.monotonic()
    stub = browser.before_page(NO_CLIPBOARD)
    with tempfile.TemporaryDirectory() as room:
        mean = Mean(tally, browser, seed, compiled(room), is_phone)
        print(f"{name}: NISSY_SEED={seed}", flush=True)
        browser.open()
        for sheet, way_on in zip(mean.sheets, (by_the_best, by_stars, by_typing)):
            mean.begin(sheet)
            way_on(mean)
        mean.leave()
        for number in (1, 2, 3):
            mean.goes_away()
            mean.returns(number)
        mean.moves(PASTE_ALL)
        mean.returns(2)
        mean.returns(3)
        for sheet in mean.sheets:
            sheet.model.end()
    browser.no_longer(stub)
    print(f"{name}: {mean.values:,} values in {time.monotonic() - begun:.0f} seconds")
    tally.holds(f"there are enough values: {mean.values}", mean.values >= LEAST_VALUES)


def on_a_desktop(tally: Tally, browser: Browser) -> None:
    """By a mouse."""
    if shutil.which("g++") is None:
        print("skipped: a solver's mean, since there is no g++ for the model of the best ways on")
    else:
        walk(tally, browser, "a desktop", False)


def on_a_phone(tally: Tally, browser: Browser) -> None:
    """By a finger."""
    if shutil.which("g++") is not None:
        browser.resize(390, 844, True)
        browser.command("Emulation.setTouchEmulationEnabled", enabled=True)
        walk(tally, browser, "a phone", True)

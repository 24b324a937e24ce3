"""Filters that stay for the next scramble are seen when they are folded, can be cleared at once, and how many rows they leave is said."""
import re

from best import LONGER, SCRAMBLE, TYPE, address_of
from browser import Browser
from passage import EO, cases_of, trigger_of
from tally import Tally
from wanted import Position


def of_the_best(tally: Tally, browser: Browser) -> None:
    """Those of the best."""
    browser.open(address_of(LONGER))
    browser.wait_best()
    first = browser.texts("#best-body tr")
    every = browser.script(
        "return ['best-axis', 'best-side', 'best-next'].map((name) => document.getElementById(name).options[0].text)"
    )
    tally.equal("what leaves any is called so", every, ["any"] * 3)
    tally.equal("without a filter nothing is said", browser.text("best-clear"), "")
    browser.choose("best-axis", "EO F/B")
    browser.choose("best-side", "inverse")
    left = browser.texts("#best-body tr")
    tally.equal("two are on", browser.text("best-clear"), "Clear 2 filters")
    tally.holds("and leave less", left != first)
    browser.fill("scramble", SCRAMBLE)
    browser.wait_best()
    tally.holds("they are folded", not browser.script("return document.getElementById('best-options').open"))
    tally.equal("for the next scramble too", browser.text("best-clear"), "Clear 2 filters")
    # none goes on to the axis that its EO has
    browser.choose("best-next", "DR F/B")
    tally.equal("nothing is left", browser.texts("#best-body tr"), [])
    tally.equal("three are on", browser.text("best-clear"), "Clear 3 filters")
    tally.holds("which is said", browser.text("best-note").startswith("0 of "))
    browser.click("#best-clear")
    tally.equal("they are cleared", browser.text("best-clear"), "")
    tally.holds("and all are there", browser.texts("#best-body tr"))
    tally.equal(
        "the focus is at the fold",
        browser.script("return document.activeElement.closest('#best-options') !== null"),
        True,
    )
    values = "return [...document.querySelectorAll('#best-filters select, #best-cases')].map((each) => each.value)"
    tally.equal("no field is set", browser.script(values), [""] * 4)


def of_many(tally: Tally, browser: Browser) -> None:
    """A filter leaves as many rows seen as were asked for; beside a mouse it is at hand below them, and stays where it is."""
    browser.open(address_of(LONGER))
    browser.wait_best()
    browser.click("#best-more")
    browser.wait_best()
    count = len(browser.texts("#best-body tr"))
    place = "return document.getElementById('best-options').getBoundingClientRect().top"
    browser.script("scrollTo({ top: 0, behavior: 'instant' })")
    tally.holds(
        f"it is in view: {browser.script(place)}", browser.script(place) < browser.script("return innerHeight") - 20
    )
    browser.script("document.getElementById('best-options').open = true")
    top = browser.script(place)
    browser.choose("best-side", "inverse")
    left = re.match(r"([0-9,]+) of ", browser.text("best-note"))
    tally.equal(
        "as many are seen",
        len(browser.texts("#best-body tr")),
        min(count, int(left[1].replace(",", "")) if left else 0),
    )
    tally.holds(f"and not as few as at first: {count}", len(browser.texts("#best-body tr")) > 6)
    tally.equal("the filters stay", browser.script(place), top)
    browser.choose("best-side", "")


def of_a_list(tally: Tally, browser: Browser) -> None:
    """Those of a list."""
    browser.open(address_of(LONGER) + "&list=eorl.normal.0")
    tally.equal("without a filter nothing is said", browser.text("list-clear"), "")
    count = len(browser.listed())
    browser.script(TYPE, "", "U U")
    tally.equal("nothing is left", (browser.listed(), browser.text("list-clear")), ([], "Clear 1 filter"))
    tally.holds("which is said", "0 rows match." in browser.text("solutions-note"))
    browser.click("#list-clear")
    tally.equal("they are cleared", (len(browser.listed()), browser.text("list-clear")), (count, ""))
    browser.click("#list-cases-chips button")
    tally.equal("a case", browser.text("list-clear"), "Clear 1 filter")
    browser.act('[data-cell="eofb.normal"]')
    tally.equal("another list has none", browser.text("list-clear"), "")


# how far a list's field begins right of the first one, and how far below that the rows begin
PLACES = """const [above, field, note] = ['[for=slack]', '[for=filter]', '#solutions-note'].map((each) =>
        document.querySelector(each).getBoundingClientRect());
    return [field.left - above.left, note.top - above.top]"""


def of_one(tally: Tally, browser: Browser) -> None:
    """A case that all rows have is no choice, nor is one row by its moves: neither is offered, but both keep their place; no fold hides the moves."""
    after = f"{address_of(LONGER)}&steps=inverse.B_D_R_F2_B_D"
    for width in (1280, 360, 320):
        browser.resize(width, 740)
        places = []
        for step, side, is_choice in (
            ("drrl-eoud", "inverse", False),
            ("drrl-eoud", "normal", True),
            ("drfb-eoud", "normal", False),
        ):
            rows = Position(LONGER, "", EO).rows(step, side)
            lines = [row if side == "normal" else f"({row})" for row in rows]
            triggers = {trigger_of(cases_of(LONGER, EO, step[2:4], line)) for line in lines}
            tally.equal(f"{step} {side}: whether there are several triggers", len(triggers) > 1, is_choice)
            browser.open(f"{after}&list={step}.{side}.0")
            offered = (
                "return ['list-filters', 'filter'].map((each) => getComputedStyle(part(each)).visibility === 'visible')"
            )
            tally.equal(
                f"{width}: {step} {side}: whether these are offered, and moves may be typed",
                browser.script(offered),
                [is_choice, len(rows) > 1],
            )
            places.append(browser.script(PLACES))
        _, top = places[0]
        tally.equal(f"{width}: at the left, and as far above the rows", places, [[0, top]] * len(places))
    tally.equal("the last list has one row", len(rows), 1)
    browser.open(f"{after}&list=drrl-eoud.normal.0")
    browser.script(TYPE, "", "U U")
    browser.walk(tally, "one that is typed is cleared", ("click", "#list-clear", {"focus": "filter", "filter=": ""}))
    browser.resize()


def of_both_sides(tally: Tally, browser: Browser) -> None:
    """A list over both sides is filtered by the turns of each."""
    browser.open(address_of(LONGER) + "&list=eofb.both.1.all")
    every = [re.split(r" ?\(", key.replace(")", "")) for key in browser.listed()]
    turns = " ".join(every[0][0].split()[:2] or every[0][1].split()[:2])
    browser.script(TYPE, "", turns)
    found = [re.split(r" ?\(", key.replace(")", "")) for key in browser.listed()]
    wanted = [sides for sides in every if any(f" {turns} " in f" {side} " for side in sides)]
    tally.holds(
        f"those with {turns}, and twins", wanted and all(sides in found for sides in wanted) and len(found) < len(every)
    )

"""From a scramble to a finished skeleton on both sides, by keyboard alone, and what the page keeps in its address."""
from addresses import is_shown
from browser import LAST_STEP_AWAY, Browser, Keys
from tally import Tally
from wanted import TITLES, Position, answer

SCRAMBLE = "R' U' F D2 L2 F R2 U2 R2 B D2 L B2 D' B2 L' R' B' D2 B2 R' U' F"
FIRST = "B D R F2 B D"


def shows(tally: Tally, browser: Browser, what: str, *made: str) -> None:
    """The nets and the table of a position: each step that may start, and no other."""
    is_shown(tally, browser, f"{what}: the nets", SCRAMBLE, *made)
    browser.walk(tally, f"{what}: the table", ("wait", {"cells": Position(SCRAMBLE, *made).cells(browser.program)}))


def shows_skeleton(tally: Tally, browser: Browser, line: str) -> None:
    """The whole of the skeleton in both forms, of which the other is seen where it differs, and how long it is."""
    # moves that cancel on a side are gone
    moves, joined = sum(letter in "UDRLFB" for letter in answer("cleanup", line)), answer(
        "unniss", answer("cleanup", line)
    )
    looks = {
        "bracketed": line,
        "joined": "" if joined == line else joined,
        "total": f"{moves} moves",
        "content joined": joined,
    }
    browser.walk(tally, "the skeleton", ("wait", looks))


def orient(tally: Tally, browser: Browser) -> None:
    """Types the scramble, and opens the list of an orientation on the inverse side, whose first solution has the focus."""
    browser.walk(
        tally,
        "the scramble",
        ("open", {}),
        ("tab_to", "scramble", 7, {}),
        ("press", SCRAMBLE, {}),
        ("until", "return location.hash.endsWith('_R-_U-_F')", {}),
    )
    shows(tally, browser, "the scramble")
    tally.holds("no reduction is offered before an orientation", browser.text("no-reduction") != "")
    listed = Position(SCRAMBLE).rows("eoud", "inverse")
    seen = {"#solutions-groups .take": [f"({moves})" for moves in listed], "focus": f"({listed[0]})", "listed": listed}
    browser.walk(tally, "the list of a cell", ("tab_to", "eoud.inverse", {}), ("press", Keys.ENTER, seen))


def lengthen(tally: Tally, browser: Browser) -> None:
    """Has the list one move longer, with and without all twins, and takes an orientation from the filtered list."""
    position = Position(SCRAMBLE)
    rows, every, shortest = (
        position.rows("eoud", "inverse", 1),
        position.listed("eoud", "inverse", 1),
        len(position.rows("eoud", "inverse")),
    )
    heads = [f"5 moves: {shortest} rows", f"6 moves: {len(rows) - shortest} rows"]
    cut = {"#solutions-groups h3": heads, "listed": rows[:200]}
    browser.walk(tally, "with one move more the list is cut", ("tab_to", "slack", 60, True, {}), ("press", "1", cut))
    note = browser.text("solutions-note")
    tally.holds(
        f"and says both counts: {note}",
        note.startswith(f"{len(every)} solutions") and f"{len(rows)} rows" in note and "The first 200" in note,
    )
    filtered = [moves for moves in rows if " B D R F2 B " in f" {moves} "]
    browser.walk(
        tally,
        "the switch, and the filter",
        ("tab_to", "twins", {}),
        ("press", Keys.SPACE, {"listed": every[:200]}),
        ("press", Keys.SPACE, {"listed": rows[:200]}),
        ("tab_to", "filter", 60, True, {}),
        ("press", "b d r f2 b", {"listed": filtered}),
    )
    browser.walk(
        tally,
        "Home",
        ("tab_to", f"({FIRST})", 9, {}),
        ("press", Keys.ARROW_UP, Keys.HOME, {"focus": f"({filtered[0]})"}),
        ("press", Keys.ENTER, {"#line-list .reaches": ["EO U/D"], "focus": "drfb-eoud.normal"}),
    )
    shows(tally, browser, "an orientation on the inverse side", "", FIRST)
    shows_skeleton(tally, browser, f"({FIRST})")


def reduce(tally: Tally, browser: Browser) -> None:
    """Takes the shortest reduction on the normal side, which has the focus."""
    listed = Position(SCRAMBLE, "", FIRST).rows("drfb-eoud", "normal")
    said = "DR F/B is reached: 10 moves. nissy has no step after a DR: go on by hand."
    browser.walk(
        tally, "the reductions", ("press", Keys.ENTER, {"listed": listed}), ("press", Keys.ENTER, {"finished": said})
    )
    shows_skeleton(tally, browser, f"({FIRST}) {listed[0]}")
    shows(tally, browser, "a reduction", listed[0], FIRST)


def switch(tally: Tally, browser: Browser) -> None:
    """Takes two moves back, and finishes on the inverse side."""
    browser.walk(
        tally,
        "moves are taken back",
        ("tab_to", "Remove", 60, True, {}),
        ("press", Keys.ENTER, {"bracketed": f"({FIRST})"}),
        ("tab_to", "own", 60, {}),
        ("press", "R B'", Keys.ENTER, {}),
        ("comes", "steps", 2, {"bracketed": f"({FIRST}) R B'"}),
    )
    shows(tally, browser, "in mid-solution", "R B'", FIRST)
    listed = Position(SCRAMBLE, "R B'", FIRST).rows("drfb-eoud", "inverse")
    line = f"({FIRST}) R B' ({listed[0]})"
    total = sum(letter in "UDRLFB" for letter in answer("cleanup", line))
    counts = [
        "6 inverse moves",
        "2 normal moves, 8 in all",
        f"{len(listed[0].split())} inverse moves, {total} in all",
    ]
    browser.walk(
        tally,
        "moves by hand go on the inverse side",
        ("wait", {"finished": ""}),
        ("tab_to", "switch", {}),
        ("press", Keys.ENTER, {"side": "inverse side"}),
        ("tab_to", "own", 60, True, {}),
        ("press", listed[0], Keys.ENTER, {}),
        ("comes", "steps", 3, {"#line-list .count": counts}),
    )
    shows(tally, browser, "both sides", "R B'", f"{FIRST} {listed[0]}")
    shows_skeleton(tally, browser, line)
    tally.holds("both sides are finished", browser.text("finished").startswith("DR F/B is reached"))


def keep(tally: Tally, browser: Browser) -> None:
    """Loads the page again from its address."""
    browser.act('[data-cell="drrl-eoud.normal"]')
    before = (browser.cells(), browser.text("bracketed"), browser.text("side"), browser.listed())
    heading = TITLES["drrl-eoud"] + ", normal side"
    browser.walk(tally, "a reload", ("open", browser.hash(), {"scramble=": SCRAMBLE, "solutions-heading": heading}))
    tally.equal(
        "after a reload", (browser.cells(), browser.text("bracketed"), browser.text("side"), browser.listed()), before
    )
    browser.walk(
        tally,
        "an emptied skeleton",
        *(("act", LAST_STEP_AWAY, {"steps": left}) for left in (2, 1)),
        ("act", LAST_STEP_AWAY, {"bracketed": "", "line-empty?": True}),
    )
    shows(tally, browser, "an emptied skeleton")

"""The best go on by themselves: after the shortest EOs those of one move more, then of two, while the page is seen and nothing else is
asked. Rows that are seen stay in their place until they are asked to make room."""
import re
import time

from at_once import LISTEN
from best import ROWS, SCRAMBLE, address_of
from browser import LAST_STEP_AWAY, PROCESSORS, TURN, Browser
from searches import FLIPPED
from tally import Tally
from wanted import counted

SEEN = "window.isSeen = true;"
NOTE = "document.getElementById('best-note').textContent"
ENDED = "return document.getElementById('best-stop').disabled"
KEYS = "return [...document.querySelectorAll('#best-body .take')].map((each) => each.dataset.key)"
FIRST_ROW = "return Math.round(document.querySelector('#best-body .take').getBoundingClientRect().top)"
IS_NEW = "return !document.getElementById('best-new').hidden"
# where the rows begin, whatever the head says: nothing, or the longest that it may
TOPS = """
const [note, found, rows] = ["best-note", "best-new", "best-rows"].map((name) => document.getElementById(name));
const said = (text, button) => {
  [note.textContent, found.textContent, found.hidden] = [text, button, button === ""];
  return Math.round(rows.getBoundingClientRect().top);
};
const tried = "1,160 rows. Up to 2 longer: 1,244,538 rows, none better.", held = "The best 200 of 307,200 rows. Up to 2 longer: about 11,000,000 EOs, 2 min.";
return [said("", ""), said(tried, ""), said(tried, "120 more rows, from 10 moves"), said(`Stopped. ${tried}`, "120 more rows, from 10 moves"),
  said(held, ""), said(held, "120 more rows, from 10 moves")];
"""
# by how many points the button of what was found reaches below the line that it stands in, on a phone
COVERED = """
const [note, found] = ["best-note", "best-new"].map((name) => document.getElementById(name));
[found.textContent, found.hidden] = ["1,160 more rows", false];
return Math.max(0, Math.round(found.getBoundingClientRect().bottom - note.getBoundingClientRect().top));
"""
WIDTHS = (1920, 1440, 1180, 1024, 960, 900, 768, 640, 601, 600, 430, 390, 360, 320)
# longer than the page waits before it goes on
LONGER_THAN_REST = 2
# it waits until it is asked for, and what was asked of the best
HELD_IS = "part('best-stop').textContent === 'Go on' && !part('best-stop').disabled"
HELD = f"return {HELD_IS}"
# it goes on however slow the machine is
GO_ON = f"if ({HELD_IS}) part('best-stop').click();"
# what the button of the best says once nothing that was asked for is looked for, if it may be pressed
WORDS = """window.words = new Set();
    new MutationObserver(() => {
        const [best, stop] = ["best", "best-stop"].map((name) => document.getElementById(name));
        if (stop && !stop.disabled && best.ariaBusy === "false") words.add(stop.textContent);
    }).observe(document, { attributes: true, childList: true, subtree: true });"""
# those of so many moves more were looked at
FOUND = GO_ON + f"return / Up to %d longer: [0-9,]+ rows/.test({NOTE})"
# what an older page kept of a choice that is gone
CHOSEN = "localStorage.setItem('nissy-further', 'none')"
ASKED = "return window.asked.filter((each) => each === 'best').length"
# how many EOs have at most one move more than the shortest of their axis, over both sides or on one: told by all turns on both sides
ORIENTATIONS = {"R U F": 68, "F R U F": 112}
# longer EOs lead to none that is better than the best, but to some that are better than the sixth
NO_BETTER = SCRAMBLE
# longer EOs lead to a better one
WORSE = "F' B2 U2 L2 D' B R' D' F2 R' U2 L2 F' U' B L2 U' F U B2 D F' U' R2 U"


def begins(browser: Browser, scramble: str) -> None:
    """Opens a page that isn't seen yet, with what was asked for."""
    browser.open(address_of(scramble))
    browser.wait_best()


def shows_all(browser: Browser) -> list[list[str]]:
    """Has what was found since shown, and as many rows as are compared."""
    browser.script("const it = part('best-new'); if (!it.hidden) it.click()")
    while len(rows := browser.script(ROWS)) < 48:
        browser.script("part('best-more').click()")
        browser.wait_best()
    return rows


def goes_on(tally: Tally, browser: Browser) -> None:
    """
    Not while the page isn't seen; then to two moves more, to the same rows as if these had been asked for. Rows that are seen stay until they are
    asked to make room, and the note tells of these; then the first that is new has the focus, and nothing has moved before.
    """
    begins(browser, WORSE)
    note, first, keys, top = (
        browser.text("best-note"),
        browser.script(ROWS),
        browser.script(KEYS),
        browser.script(FIRST_ROW),
    )
    height = "return part('best-head').offsetHeight"
    before = browser.script(height)
    time.sleep(LONGER_THAN_REST)
    seen = (browser.text("best-note"), browser.script(ROWS), browser.script(ENDED))
    tally.equal("it waits while the page isn't seen", seen, (note, first, True))
    browser.script(TURN, True)
    tally.holds("then come those of one move more", browser.until(FOUND % 1))
    tally.holds("more is found", browser.until(IS_NEW))
    tally.equal("the rows stay", (browser.script(KEYS), browser.script(FIRST_ROW)), (keys, top))
    tally.holds("and those of two", browser.until(FOUND % 2))
    tally.holds("to their end", browser.until(ENDED))
    tally.equal(
        "to the end", (browser.script(KEYS), browser.script(FIRST_ROW), browser.script(height)), (keys, top, before)
    )
    said = browser.text("best-note")
    tally.holds(
        f"of the rows it is said how many they are, and of longer ones that they were found: {said}",
        re.fullmatch(re.escape(note) + r" Up to 2 longer: [0-9,]+ rows\.", said),
    )
    # more of the same are no others
    browser.click("#best-more")
    browser.wait_best()
    tally.equal(
        "more rows let none in",
        (browser.script(KEYS)[: len(keys)], browser.script(IS_NEW), browser.value("best-slack")),
        (keys, True, "0"),
    )
    shows_found(tally, browser, first, top)


def shows_found(tally: Tally, browser: Browser, first: list[list[str]], top: int) -> None:
    """What was found is shown once it is asked for, and is what a search of two moves more finds."""
    words = browser.text("best-new")
    said = re.fullmatch(r"[0-9,]+ more rows?, from (\d+) moves", words)
    tally.holds(f"a button says that better ones are there: {words}", said and int(said[1]) < int(first[0][0]))
    browser.script("scrollTo({ top: 0, behavior: 'instant' })")
    before = browser.script(KEYS)
    browser.click("#best-new")
    rows = browser.script(ROWS)
    fresh = [key for key in browser.script(KEYS) if key not in before]
    tally.equal("as many as it says come in", len(fresh), int(words.split()[0].replace(",", "")))
    tally.equal(
        "which it shows",
        (rows[0][0], browser.script(FIRST_ROW), browser.script(IS_NEW)),
        (said[1] if said else "", top, False),
    )
    tally.equal(
        "the first of them has the focus",
        browser.script("return document.activeElement.dataset.key"),
        browser.script(KEYS)[0],
    )
    tally.equal(
        "and the number of moves says it",
        (browser.value("best-slack"), "longer" in browser.text("best-note")),
        ("2", False),
    )
    found = shows_all(browser)
    tally.equal("by all moves", [int(row[0]) for row in found], sorted(int(row[0]) for row in found))
    stays(tally, browser)
    # by a page that has found none of them yet
    begins(browser, WORSE)
    browser.choose("best-slack", "2")
    browser.wait_best()
    # of those that are as good as the last another one may be shown
    below = [sorted(row for row in rows if row[0] != found[-1][0]) for rows in (found, shows_all(browser))]
    tally.equal("they are what a search of two moves more finds", below[0], below[1])
    tally.holds("of which there are some", len(below[0]) > 6)
    tally.holds("which is more than the shortest", found[: len(first)] != first)


def stays(tally: Tally, browser: Browser) -> None:
    """What was shown stays: once a row is taken and removed, and once the page is loaded again; another scramble begins without."""
    shown = (browser.script(KEYS)[:5], False, "2")
    browser.act("#best-body .take")
    browser.wait_best()
    for what, act in (
        ("after Remove", lambda: browser.act(LAST_STEP_AWAY)),
        ("after a reload", lambda: browser.reopen(browser.hash())),
    ):
        act()
        browser.wait_best()
        tally.equal(what, (browser.script(KEYS)[:5], browser.script(IS_NEW), browser.value("best-slack")), shown)
    browser.fill("scramble", "R U F")
    browser.wait_best()
    tally.equal("of another scramble the shortest are shown", browser.value("best-slack"), "0")


def says_more(tally: Tally, browser: Browser) -> None:
    """Rows that belong before the last that is seen are offered too, also if none belongs before the first."""
    begins(browser, NO_BETTER)
    before = browser.script(ROWS)
    browser.script(TURN, True)
    tally.holds("longer ones are found", browser.until(GO_ON + IS_NEW))
    words = browser.text("best-new")
    browser.click("#best-new")
    fresh = [int(row[0]) for row in browser.script(ROWS) if row not in before]
    tally.holds(
        f"some belong before the last, and none before the first: {fresh}",
        fresh and int(before[0][0]) <= fresh[0] <= int(before[-1][0]),
    )
    tally.equal("so it is said", words, f"{counted(len(fresh), 'more row')}, from {fresh[0]} moves")


def pauses(tally: Tally, browser: Browser) -> None:
    """A page that is left looks for nothing, and goes on once it is seen again; a stop ends it."""
    script = browser.before_page(LISTEN)
    begins(browser, WORSE)
    asked = "return window.asked.filter((each) => each === 'best').length"
    count = browser.script(asked)
    browser.script(TURN, True)
    browser.until(FOUND % 1)
    # those of two moves more
    browser.until(GO_ON + f"return window.asked.filter((each) => each === 'best').length > {count + 3}")
    workers = browser.workers()
    browser.script(TURN, False)
    end = time.monotonic() + 10
    while browser.workers() >= workers and time.monotonic() < end:
        time.sleep(0.1)
    tally.holds("what it looked for is given up", browser.workers() < workers)
    left = (browser.script(asked), browser.text("best-note"))
    time.sleep(LONGER_THAN_REST)
    tally.equal("and nothing is asked", (browser.script(asked), browser.text("best-note")), left)
    browser.script(TURN, True)
    tally.holds(
        "it goes on", browser.until(f"return window.asked.filter((each) => each === 'best').length > {left[0]}")
    )
    browser.click("#best-stop")
    note = browser.text("best-note")
    tally.holds(f"a stop says how far it came: {note}", re.match(r"Stopped\. [0-9,]+ rows\. Up to 1 longer: ", note))
    count = browser.script(asked)
    time.sleep(LONGER_THAN_REST)
    tally.equal("and ends it, and offers to go on", (browser.script(asked), browser.script(HELD)), (count, True))
    for is_seen in (False, True):
        browser.script(TURN, is_seen)
        time.sleep(LONGER_THAN_REST)
        said = (browser.text("best-note"), browser.script(HELD), browser.script(asked))
        tally.equal("what it said stays once the page is left, and seen again", said, (note, True, count))
    browser.click("#best-stop")
    tally.holds(
        "asked, it goes on to those of two moves more",
        browser.until(f"return / Up to 2 longer: [0-9,]+ rows/.test({NOTE})"),
    )
    tally.holds("to its end", browser.until(ENDED))
    browser.no_longer(script)
    browser.open(address_of(SCRAMBLE))


def is_measured(tally: Tally, browser: Browser) -> None:
    """
    A phone, and whoever has few processors, waits until it is asked for longer ones, with how many there are, as the model counts them, and about how
    long they take; then it goes on.
    """
    script = browser.before_page(LISTEN + SEEN + WORDS)
    for of_what, prepared in (("few processors", browser.before_page(PROCESSORS % 2)), ("a phone", "")):
        browser.command("Emulation.setTouchEmulationEnabled", enabled=not prepared)
        for scramble, count in ORIENTATIONS.items():
            begins(browser, scramble)
            tally.holds(f"{of_what}: it waits", browser.until(HELD))
            tally.equal(
                f"{of_what}: what may be pressed once the best are there",
                browser.script("return [...words]"),
                ["Go on"],
            )
            note, longer = browser.text("best-note"), rf"[0-9,]+ rows\. Up to 1 longer: {count} EOs, about [0-9]+ s\."
            tally.holds(f"{of_what}: it says how many there are: {note}", re.fullmatch(longer, note))
            tally.equal(f"{of_what}: and has asked nothing more", browser.script(ASKED), 3)
        browser.click("#best-stop")
        tally.holds(
            f"{of_what}: asked, it goes on, and waits with the next ones",
            browser.until(f"return {NOTE}.includes('Up to 2 longer: ') && {HELD_IS}"),
        )
        tally.equal(f"{of_what}: once more of each axis", browser.script(ASKED), 6)
        if prepared:
            browser.no_longer(prepared)
    browser.command("Emulation.setTouchEmulationEnabled", enabled=False)
    browser.no_longer(script)


def has_a_limit(tally: Tally, browser: Browser) -> None:
    """By itself it goes up to ten seconds of one processor, and waits with more, whatever an older page kept."""
    script = browser.before_page(LISTEN + SEEN)
    begins(browser, FLIPPED)
    tally.holds("many are waited with", browser.until(HELD))
    note = browser.text("best-note")
    tally.holds(f"which it says: {note}", re.search(r" Up to 2 longer: about [0-9,]{9,} EOs, [0-9]+ (s|min)\.$", note))
    browser.script(CHOSEN)
    begins(browser, "R U F")
    tally.holds(
        "it goes on with few", browser.until(f"return {NOTE}.includes('Up to 2 longer: ')") and browser.until(ENDED)
    )
    browser.no_longer(script)


def three_moves(tally: Tally, browser: Browser) -> None:
    """Three moves more are looked for if they are asked for."""
    begins(browser, "R U F")
    before = browser.text("best-note")
    browser.choose("best-slack", "3")
    browser.wait_best()
    note = browser.text("best-note")
    tally.holds(f"three moves more: {note}", note != before and "rows" in note)


def has_room(tally: Tally, browser: Browser) -> None:
    """The rows begin at one place in each width, however much the head says."""
    begins(browser, SCRAMBLE)
    for width in WIDTHS:
        browser.resize(width, 900)
        tops = browser.script(TOPS)
        tally.equal(f"{width} points: the head has one height", tops, tops[:1] * len(tops))
    for width in (430, 390, 360):
        browser.resize(width, 900)
        tally.equal(f"{width} points: no button covers what is said", browser.script(COVERED), 0)

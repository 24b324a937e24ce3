"""A teacher's page: why a piece is good or bad, moves that are covered until they are asked for, and nets for a projector."""
import base64
import re

from browser import Browser, Keys
from looks import KEPT, SCRAMBLE, is_legible
from marks import channels, contrast
from sighted import MARKED, marked
from steps import EXAMPLE
from tally import Tally
from wanted import SIDES, Position

STICKERS = "all('#net-normal .sticker')"
BAD = f"return [...{STICKERS}].flatMap((each, at) => each.matches('.bad') ? [at] : [])"
PRESS = f"""{STICKERS}[arguments[0]].dispatchEvent(new MouseEvent('click', {{ bubbles: true }}));
    return part('why').textContent"""
# of each net the stickers whose middle is within a line round them, and what its name says of that
OUTLINED = """return ['normal', 'inverse'].map((side) => {
        const net = document.querySelector(`#net-${side} svg`), line = net.querySelector('.asked');
        const within = all(`#net-${side} .sticker`).flatMap((each, at) => {
            const { e, f } = each.transform.baseVal.consolidate().matrix;
            return line.isPointInFill(new DOMPoint(e + 5, f + 5)) ? [at] : [];
        });
        return [within, /(?<=; )[^;]* is outlined/.exec(net.ariaLabel)?.[0] ?? ''];
    })"""
# the colours of the line and of what is behind it, and how many times wider it is than any other line of a sticker
LINES = """const [line, rect] = ['.asked', '.bad rect'].map((name) => getComputedStyle(document.querySelector(`#net-normal ${name}`)));
    return [line.stroke, getComputedStyle(part('cube')).backgroundColor, parseFloat(line.strokeWidth) / parseFloat(rect.strokeWidth)]"""
EDGE_PLACES = (1, 3, 5, 7)
CHOICES = ("EO F/B", "EO R/L", "EO U/D", "DR U/D", "DR R/L", "DR F/B")
COVERED = """return seen('.take').map((each) =>
    getComputedStyle(each).color === 'rgba(0, 0, 0, 0)')"""

# the move that is told apart in the line of large nets
MADE = "#shown-line [aria-current=true]"
LABELS = "return all('#choices :is(.take, .star)').map((each) => each.ariaLabel)"
# a turn as it is said; the axes of a case, such as F/B, are none
TURN = r"\b[UDRLFB](?:2|\b(?!/))(?<!/.)"


def tells_why(tally: Tally, browser: Browser) -> None:
    """A sticker that is pressed tells of its piece just what is marked on it, for each choice of marks; a field does for keys."""
    browser.go(SCRAMBLE)
    for choice in CHOICES:
        browser.choose("marks", choice)
        bad = set(browser.script(BAD))
        places = [
            place for place in range(54) if place % 9 != 4 and (place % 9 in EDGE_PLACES or choice.startswith("DR"))
        ]
        said = {place: browser.script(PRESS, place) for place in places}
        words = {place: f"is {'bad' if place in bad else 'good'} for {choice}" for place in places}
        tally.holds(f"{choice}: some are bad", bad)
        wrong = [
            (place, text) for place, text in said.items() if not text.startswith("Normal: ") or words[place] not in text
        ]
        tally.equal(f"{choice}: what is said otherwise than marked", wrong, [])
    browser.choose("marks", "none")
    said_of_one = browser.script(PRESS, 1)
    tally.equal(
        "without marks each axis is told", [f"EO {axis}" in said_of_one for axis in ("U/D", "F/B", "R/L")], [True] * 3
    )
    browser.choose("piece", "1")
    tally.equal(
        "the field tells of both sides",
        re.findall(r"(Normal|Inverse): (?:\w\w at )?UB is ", browser.text("why")),
        ["Normal", "Inverse"],
    )
    again = "const it = part('why').firstChild; part('marks').dispatchEvent(new Event('change')); return part('why').firstChild === it"
    tally.holds("what stays isn't said again", browser.script(again))
    # what is said of a piece is of the cube that is shown
    browser.go("#scramble=F&steps=normal.F-")
    browser.choose("marks", "EO F/B")
    said_in_the_end = browser.script(PRESS, 7)
    browser.act("#play-back")
    browser.until("return part('played').textContent.startsWith('0 of 1')")
    tally.equal(
        "before the move",
        [" is bad for EO F/B" in text for text in (said_in_the_end, browser.text("why"))],
        [False, True],
    )
    # by hand: a quarter turn of F makes its four edges bad for F/B, and UR stays as it was
    browser.go("#scramble=F")
    browser.choose("marks", "EO F/B")
    rule = "(U or D tells, else F or B)"
    tally.equal("UF", browser.script(PRESS, 7), f"Normal: FL at UF is bad for EO F/B: its F is on F, not on U {rule}.")
    tally.equal("UR", browser.script(PRESS, 5), f"Normal: UR is good for EO F/B: its U is on U {rule}.")
    # an edge is in its slice or not by its colours, which is no reason for where it is
    browser.choose("marks", "DR U/D")
    why = "since it has U or D"
    tally.equal(
        "UR in its place",
        browser.script(PRESS, 5),
        f"Normal: UR is good for DR U/D: it is outside the slice, and belongs there, {why}.",
    )
    tally.equal(
        "UF in the slice",
        browser.script(PRESS, 23),
        f"Normal: UF at FR is bad for DR U/D: it belongs outside the slice, {why}.",
    )


def outlines(tally: Tally, browser: Browser) -> None:
    """The piece of which it is told why has a line round each of its stickers, on each net that is told of, and the net's name says so."""
    for colours in ("light", "dark"):
        browser.media(prefers_color_scheme=colours)
        browser.open("#scramble=F")
        browser.choose("marks", "EO F/B")
        tally.equal(f"{colours}: none is asked for", browser.script(OUTLINED), [[[], ""]] * 2)
        browser.script(PRESS, 7)
        tally.equal(f"{colours}: a sticker of UF", browser.script(OUTLINED), [[[7, 19], "UF is outlined"], [[], ""]])
        around, ground, least = browser.script(LINES)
        tally.holds(f"{colours}: it is seen: {around} on {ground}", contrast(channels(around), channels(ground)) >= 3)
        tally.holds(f"{colours}: it is wider than others: {least}", least >= 2)
        browser.choose("piece", "8")
        tally.equal(f"{colours}: a corner", browser.script(OUTLINED), [[[8, 9, 20], "URF is outlined"]] * 2)
        browser.script("part('play-back').click()")
        browser.choose("piece", "")
        tally.equal(f"{colours}: none any more", browser.script(OUTLINED), [[[], ""]] * 2)
    browser.script(PRESS, 7)
    browser.walk(tally, "nor on another cube", ("submit", "own", "R", {}), ("comes", "steps", 1, {}))
    tally.equal("none there", browser.script(OUTLINED), [[[], ""]] * 2)
    browser.media(prefers_color_scheme="light")


def covers(tally: Tally, browser: Browser) -> None:
    """Moves are covered until their row is pressed, whose next press takes them; the numbers beside them are seen."""
    browser.go(SCRAMBLE + "&list=eorl.normal.0")
    browser.wait_best()
    tally.equal("moves are seen", set(browser.script(COVERED)), {False})
    browser.script("part('cover').click()")
    tally.equal("moves are covered", set(browser.script(COVERED)), {True})
    shown = """return all('.twins, .first').filter((each) => getComputedStyle(each).visibility !== 'hidden').length"""
    tally.equal("and what would tell them", browser.script(shown), 0)
    tally.holds(
        "numbers aren't", browser.script("return document.querySelector('#best-body .number').checkVisibility()")
    )
    tally.equal("no label tells them either", [each for each in browser.script(LABELS) if re.search(TURN, each)], [])
    browser.click("#solutions-groups .take")
    tally.equal("the first press shows them", browser.script(COVERED).count(False), 1)
    told = [each for each in browser.script(LABELS) if re.search(TURN, each)]
    tally.equal(f"and its buttons' labels tell them: {told}", [each.split()[0] for each in told][1:], ["Keep"])
    tally.equal("and takes nothing", browser.text("line-list"), "")
    line = browser.texts("#solutions-groups .take")[0]
    browser.act("#solutions-groups .take")
    tally.equal("the next one takes them", browser.text("bracketed"), line)
    browser.script("part('cover').click()")
    browser.wait_best()
    tally.equal("all are seen again", set(browser.script(COVERED)), {False})
    tally.equal("and told", [each for each in browser.script(LABELS) if not re.search(TURN, each)], [])


def enlarges(tally: Tally, browser: Browser) -> None:
    """The nets fill the window, and Escape brings the page back, and leaves the list."""
    browser.resize(1440, 900)
    browser.go(SCRAMBLE + "&list=eorl.normal.0")
    width = "return document.querySelector('.net').getBoundingClientRect().width"
    small = browser.script(width)
    browser.click("#cube-large")
    box = """const { left, top, width, height } = part('cube').getBoundingClientRect();
        const isOver = [0.1, 0.5, 0.9].every((across) => [0.1, 0.5, 0.9].every((down) =>
            document.elementFromPoint(across * innerWidth, down * innerHeight).closest('#cube')));
        return [left, top, width === innerWidth, height === innerHeight, isOver]"""
    tally.equal("the card fills the window, and nothing stands above it", browser.script(box), [0, 0, True, True, True])
    tally.holds(f"the nets are larger: {small}, {browser.script(width)}", browser.script(width) > 1.5 * small)
    within = (
        "const at = document.activeElement; return at === document.body ? '' : at.closest('#cube') ? 'cube' : at.id"
    )
    stops = []
    for _ in range(12):
        browser.press(Keys.TAB)
        stops.append(browser.script(within))
    tally.equal("the Tab key leads to nothing behind them", set(stops) - {""}, {"cube"})
    browser.walk(
        tally,
        "its help closes, and nothing else",
        ("act", "#cube .help", {"n :popover-open": 1}),
        ("press", Keys.ESCAPE, {"n :popover-open": 0, "n .large": 1}),
        ("script", "document.activeElement.blur()", {}),
    )
    browser.walk(tally, "Escape brings the page back", ("press", Keys.ESCAPE, {"focus": "cube-large"}))
    tally.equal("as it was", (browser.script(width), browser.listed() != []), (small, True))


def shows_a_reduction(tally: Tally, browser: Browser) -> None:
    """
    Large nets show a line to a class: its moves with their cases, and at each move what the step that it belongs to has left; a step that is done is
    said to be, before what the next one has left, and a cube keeps its colours then.
    """
    first, second = "B D R F2 B D", "R B' D2 R"
    browser.go(SCRAMBLE + f"&steps=inverse.{first.replace(' ', '_')}~normal.R_B-_D2_R")
    browser.choose("marks", "follow")
    browser.click("#cube-large")
    line = browser.script(
        "return [part('shown-line').innerText.trim(), all('#shown-line .passed').map((each) => each.dataset.case)]"
    )
    cases = [Position(EXAMPLE, " ".join(second.split()[:at]), first).case("fb") for at in range(5)]
    tally.equal(
        "the line, with its cases",
        line,
        [f"({first}) {second}", [each for at, each in enumerate(cases[:4]) if at == 0 or each != cases[at - 1]]],
    )
    marked = "return [part('marked-normal').textContent.replace(' \u00b7 ', ''), document.querySelector('#net-normal .net').matches('.marked')]"
    tally.equal("the cube in the end", (cases[4], browser.script(marked)), ("0c0e", ["DR F/B: done", False]))
    moves = ["", *first.split(), *second.split()]
    browser.walk(
        tally, "the last move is told apart, and no key undoes it", ("press", "u", {"steps": 2, MADE: moves[10:]})
    )
    for at in (3, 2, 1, 0):
        browser.click("#play-back")
        browser.until("return part('played').textContent.startsWith(arguments[0])", f"{at + 6} of 10")
        tally.equal(f"before move {at + 1} of the DR", browser.script(marked), [f"DR F/B: {cases[at]}", True])
        tally.equal("the move that was made", browser.look(MADE), [moves[at + 6]])
        # the one before the reduction is the last of those on the inverse
        side = "" if at > 0 else "on the inverse side "
        said = f"{at + 6} of 10: {side}{moves[at + 6]} · DR F/B: {cases[at]}".replace("'", " prime")
        tally.equal("and what is said of it", browser.look("said"), said)
    browser.click("#play-back")
    browser.until("return part('marked-normal').textContent.includes('EO')")
    # the same cube is looked at once more, for what was reached by it: no edge is bad
    tally.equal(
        "the EO is done",
        (Position(EXAMPLE, "", first).bad_edges("ud"), browser.script(marked)),
        (0, ["EO U/D: done", False]),
    )
    tally.equal(
        "the move that did it", (browser.look(MADE), browser.text("played")), ([moves[6]], f"6 of 10: ({moves[6]})")
    )
    tally.equal("and what is said", browser.look("said"), f"6 of 10: on the inverse side {moves[6]} · EO U/D: done")
    browser.click("#play-back")
    browser.until("return part('played').textContent.startsWith('5 of 10')")
    bad = Position(EXAMPLE, "", " ".join(moves[1:6])).bad_edges("ud")
    tally.equal("before its last move", browser.script(marked), [f"EO U/D: {bad} bad", True])
    done = {"played": f"6 of 10: ({moves[6]})", "marked-normal": "\u00b7 EO U/D: done", "focus": "cube-large"}
    browser.script("part('cube-large').focus()")
    browser.walk(
        tally, "an arrow key leads on", ("press", Keys.ARROW_RIGHT, {}), ("comes", "played", done["played"], done)
    )
    browser.walk(tally, "and back", ("press", Keys.ARROW_LEFT, {}), ("comes", "played", f"5 of 10: ({moves[5]})", {}))
    browser.script("part('piece').focus()")
    browser.walk(tally, "a field has its keys", ("press", Keys.ARROW_LEFT, {"played": f"5 of 10: ({moves[5]})"}))
    browser.press(Keys.ESCAPE)
    tally.equal("beside the page the line stands by itself", browser.text("shown-line"), "")
    browser.press(Keys.ARROW_LEFT)
    tally.equal("and has no keys", browser.text("played"), f"5 of 10: ({moves[5]})")


FIRST, SECOND = "B D R F2 B D", "R B' D2 R"
TAUGHT = SCRAMBLE + f"&steps=inverse.{FIRST.replace(' ', '_')}~normal.R_B-_D2_R"


def looks_of_the_line() -> list[list[object]]:
    """The looks at the line, one move after another: what is told of each net and marked in it, and the moves that are made."""
    moves = [(f"({turn})", "EO U/D") for turn in FIRST.split()] + [(turn, "DR F/B") for turn in SECOND.split()]
    looks: list[list[object]] = []
    for count in range(len(moves) + 1):
        own = Position(EXAMPLE, " ".join(SECOND.split()[: max(0, count - 6)]), " ".join(FIRST.split()[:count]))
        said = f"{count} of 10" + (f": {moves[count - 1][0]}" if count else "")
        # a step that is done is looked at by its own goal, and then by that of the next one
        goals = dict.fromkeys(goal for _, goal in moves[max(0, count - 1) : count + 1])
        looks += [[said, [marked(own.lines[side], goal) for side in SIDES]] for goal in goals]
    return looks


def leads_by_keys(tally: Tally, browser: Browser) -> None:
    """In a dark room arrow keys lead through all of a line and back, from case to case, and all is legible."""
    browser.media(prefers_color_scheme="dark")
    browser.resize(1440, 900)
    browser.open(TAUGHT)
    browser.wait_best()
    browser.choose("marks", "follow")
    browser.click("#cube-large")
    looks = looks_of_the_line()
    shown = f"return [part('played').textContent, (() => {{ {MARKED} }})()]"
    for key, ways in ((Keys.ARROW_LEFT, looks[-2::-1]), (Keys.ARROW_RIGHT, looks[1:])):
        for wanted in ways:
            browser.press(key)
            tally.holds(f"{key}: {wanted[0]}, {browser.look(shown)} for {wanted}", browser.comes(shown, wanted))
    tally.equal("all looks", len(looks), 12)
    browser.press(Keys.ARROW_LEFT)
    browser.comes(shown, looks[-2])
    is_legible(tally, browser, "large nets in the dark")
    browser.press(Keys.ESCAPE)
    browser.media(prefers_color_scheme="light")


def pages_of(browser: Browser) -> int:
    """How many pages of A4 are printed."""
    printed = browser.command("Page.printToPDF", paperWidth=8.27, paperHeight=11.69)["data"]
    return len(re.findall(rb"/Type\s*/Page\b", base64.b64decode(printed)))


def prints(tally: Tally, browser: Browser) -> None:
    """A handout of a line has one page, and says nothing twice; so has one of large nets, which shows only them."""
    browser.resize()
    browser.open(TAUGHT)
    browser.wait_best()
    tally.equal("a line has one page", pages_of(browser), 1)
    browser.media("print")
    blocks = browser.script("return seen('#whole dd, #line-list li .moves').map((each) => each.innerText.trim())")
    tally.equal(
        "what stands on it twice", [each for each in blocks if each and (blocks.count(each) > 1 or "//" in each)], []
    )
    browser.media(prefers_color_scheme="light")
    browser.open(TAUGHT + KEPT)
    browser.wait_best()
    browser.click("#cube-large")
    tally.equal("large nets have one page", pages_of(browser), 1)
    browser.media("print")
    cards = "return seen('header, footer, .card').map((each) => each.id || each.localName)"
    tally.equal("with nothing else", browser.script(cards), ["cube"])
    browser.media(prefers_color_scheme="light")
    browser.press(Keys.ESCAPE)

"""Cases and marks, long lists with a stop in mid-search, what is asked for in haste, and random scrambles."""
import re
import time

from best import CHOOSE, LONGER, SCRAMBLE, TYPE, address_of
from browser import Browser
from marks import channels
from program import program_answers
from tally import Tally
from wanted import SIDES, Position, is_earlier

# every edge is flipped here, so the orientations are as long as any, and there are millions of longer ones
FLIPPED = "U R2 F B R B2 R U2 L B2 R U' D' R2 F R' L B2 U2 F2"
# how many solutions a list may have
MOST_LISTED = 100_000
GIVE_UP = CHOOSE + "part('solutions-close').click()"
ANOTHER = """const it = part('scramble'); it.value = arguments[0];
    it.dispatchEvent(new InputEvent('input', { inputType: 'insertFromPaste' }));"""
BLUR = "document.activeElement?.blur()"


def cases(tally: Tally, browser: Browser) -> None:
    """Bad edges and cases of a scramble, as solvers counted them, in the table, the list and the best; and filters by case."""
    # without what is said of both sides
    heads = "return all('#steps-body th').map((each) => [...each.children].slice(0, 2).map((it) => it.textContent).join(''))"
    browser.go(address_of(program_answers(browser.program, ["scramble", "20261125", "1", "25", "1"], [])[0]))
    tally.equal("bad edges", browser.script(heads), ["EO F/B 4 bad edges", "EO R/L 6 bad edges", "EO U/D 6 bad edges"])
    browser.act('[data-cell="eofb.normal"]')
    listed = dict(
        browser.script(
            """return all('#solutions-groups li').map((each) =>
        [each.querySelector('.take').dataset.key, [...each.querySelectorAll('.case')].map((one) => one.textContent)])"""
        )
    )
    two = [["U/D 4c4e", "R/L 4c6e"], ["U/D 4c2e", "R/L 6c6e"]]
    tally.equal("the cases of two", [listed.get("R2 L D' F"), listed.get("R2 D' L F")], two)
    pressed: list[str] = []
    for case in ("4c2e", "4c4e"):
        pressed.append(case)
        browser.click(f"#list-cases-chips [data-case='{case}']")
        few = [moves for moves, names in listed.items() if any(name.split()[1] in pressed for name in names)]
        tally.equal(f"those with {pressed} on an axis", browser.listed(), few)
        tally.holds("are some, and one alone leaves not all", few and (len(few) < len(listed) or len(pressed) > 1))
    browser.walk(tally, "a step", ("submit", "own", "R2 D' L F", {}), ("comes", "steps", 1, {}))
    tally.equal("the cases of the steps that follow", browser.script(heads)[:2], ["DR U/D 4c2e", "DR R/L 6c6e"])


def marked(tally: Tally, browser: Browser) -> None:
    """Bad pieces have a ring and a dot, the rest is grey; what is marked follows the list that is open, and the focus."""
    normal, inverse = (
        "return all('#net-%s .sticker').flatMap((each, place) => each.matches('.bad') ? [place] : [])" % side
        for side in SIDES
    )
    # F flips four edges of its own: their stickers are on F, and beside it
    edges = [7, 12, 19, 21, 23, 25, 28, 41]
    browser.walk(
        tally,
        "bad edges on both sides",
        ("go", "#scramble=F", {normal: []}),
        ("choose", "marks", "EO F/B", {normal: edges, inverse: edges}),
    )
    looks = """return ['.bad', '.sticker:not(.bad)'].map((each) => document.querySelector(`#net-normal ${each}`)).map((it) => {
        const own = getComputedStyle(it.querySelector('rect'));
        return [own.fill, getComputedStyle(it.querySelector('.mark')).visibility]; })"""
    (_, mark), (grey, none) = browser.script(looks)
    tally.equal("a bad one has a ring and a dot, another neither", (mark, none), ("visible", "hidden"))
    parts = channels(grey)
    tally.holds(f"the rest is grey: {parts}", max(parts) - min(parts) < 20)
    named = re.search(
        "EO F/B: 4 bad, ([A-Z ]+);", browser.script("return document.querySelector('#net-normal svg').ariaLabel")
    )
    tally.equal("and they are named", sorted(named[1].split()) if named else None, ["DF", "FL", "FR", "UF"])
    ends = "return part('marked-normal').innerText.slice(-13)"
    count = normal + ".length"
    # of a reduction corners, and edges of both sides of the slice
    browser.walk(
        tally,
        "what is marked",
        ("choose", "marks", "DR U/D", {count: 4 * 3 + 4 * 2}),
        ("choose", "marks", "follow", {}),
        ("go", address_of(LONGER), {}),
        ("script", "document.querySelector('[data-cell=\"eofb.normal\"]').focus()", {count: 12, ends: "EO F/B: 6 bad"}),
        ("script", BLUR, {count: 0}),
        ("act", '[data-cell="eorl.normal"]', {}),
        ("script", BLUR, {ends: "EO R/L: 6 bad"}),
    )


def long_list(tally: Tally, browser: Browser) -> None:
    """The longest list that the page offers, and one that is closed meanwhile; a filter that is typed. What isn't known is never said to be none."""
    note = "return part('solutions-note').textContent"
    browser.open(address_of(LONGER) + "&list=eoud.inverse.0")
    tally.equal(
        "a filter that is typed while a list is looked for",
        browser.script(CHOOSE + TYPE + note, "1", "B D R"),
        "Looking \u2026",
    )
    browser.wait()
    wanted = [moves for moves in Position(LONGER).rows("eoud", "inverse", 1) if " B D R " in f" {moves} "]
    tally.equal("it is kept for the list", browser.listed(), wanted)
    browser.walk(
        tally,
        "a list is closed while it is looked for",
        ("script", GIVE_UP, "3", {"solutions?": False}),
        ("act", '[data-cell="eoud.inverse"]', {"filter=": "", "slack=": "0"}),
        ("script", CHOOSE, "2", {}),
    )
    lines = program_answers(browser.program, ["near", "eoud", "20", "2", f"({LONGER})"], [])
    found = [line.split(" (")[0] for line in lines if line.endswith(")")]
    count = sum(not is_earlier(moves, set(found)) for moves in found)
    tally.holds(f"some of {len(found)} reach it earlier: {count}", count < len(found))
    tally.equal(
        "a long one is counted whole, and cut",
        (browser.text("solutions-note").split(".")[0], len(browser.listed())),
        (f"{count:,} solutions", 200),
    )
    browser.go(address_of(FLIPPED) + "&list=eofb.normal.3")
    said = browser.text("solutions-note")
    fewer = program_answers(browser.program, ["near", "eofb", "20", "2", FLIPPED], [])
    is_cut = re.match("More than [0-9,]+ solutions. .*The first 200 are shown", said)
    tally.holds(f"a list without room for all: {said}", is_cut and len(fewer) > MOST_LISTED)
    tally.equal("its beginning", browser.listed(), Position(FLIPPED).rows("eofb", "normal")[:200])


def hasty(tally: Tally, browser: Browser) -> None:
    """Another list before the engine has started, a cell while another scramble is looked at, and an address that is changed twice."""
    cell = "document.querySelector('[data-cell=\"eoud.inverse\"]').click();"
    browser.open(address_of(LONGER))
    browser.script(cell + CHOOSE, "1")
    browser.wait()
    tally.equal("another slack at once", browser.listed(), Position(LONGER).rows("eoud", "inverse", 1)[:200])
    browser.go(address_of(SCRAMBLE))
    browser.script(ANOTHER + cell, LONGER)
    browser.wait()
    listed = Position(LONGER).rows("eoud", "inverse")
    tally.equal("a hasty choice is answered for the scramble that is shown", browser.listed(), listed)
    browser.script("location.hash = '#scramble=F'; setTimeout(() => { location.hash = '#scramble=R_U' })")
    browser.walk(tally, "the last address is shown", ("comes", "scramble=", "R U", {}))
    tally.equal("the last address is shown", browser.letters("normal"), Position("R U").letters("normal"))


def impatient(tally: Tally, browser: Browser) -> None:
    """Buttons that are pressed again before there is an answer, and another scramble before moves by hand are read."""
    browser.go(address_of(LONGER))
    browser.script("for (let at = 0; at < 5; at += 1) part('random').click()")
    browser.until("return part('scramble').value !== arguments[0]", LONGER)
    time.sleep(1)
    browser.wait()
    shown = Position(browser.value("scramble")).letters("normal")
    tally.equal("of many scrambles one is shown", browser.letters("normal"), shown)
    add = "const own = part('own'); own.value = 'R'; for (let at = 0; at < 3; at += 1) own.form.requestSubmit();"
    another = """const field = part('scramble');
        field.select();
        field.dispatchEvent(new ClipboardEvent('paste'));
        field.value = 'F B U';
        field.dispatchEvent(new InputEvent('input', { inputType: 'insertFromPaste' }));
        part('results').setAttribute('aria-busy', 'true')"""
    browser.walk(
        tally,
        "moves that are sent three times at once",
        ("script", ANOTHER + add, SCRAMBLE, {}),
        ("until", "return all('#line-list li').length > 0", {"bracketed": "R", "own-fault": "", "own=": ""}),
    )
    browser.walk(
        tally, "before another scramble", ("script", add + another, {"steps": 0, "own-fault": "", "own=": "R"})
    )


def random(tally: Tally, browser: Browser) -> None:
    """Random scrambles have 25 moves each, and none is the one before."""
    browser.go("#scramble=R_U_F")
    drawn = ["R U F"]
    for _ in range(3):
        browser.click("#random")
        browser.settle("return part('scramble').value !== arguments[0]", drawn[-1])
        drawn.append(browser.value("scramble"))
    tally.equal("how many moves", [len(each.split()) for each in drawn], [3, 25, 25, 25])
    tally.equal("all are others", len(set(drawn)), 4)

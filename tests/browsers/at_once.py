"""What is there before it is asked for, the best of many, and rows that were seen."""
import re
import time

from browser import TURN, Browser
from best import LONGER, ROWS, address_of
from steps import back
from tally import Tally
from wanted import TITLES
from ways import ways

CUT = 200
SHOWN = 168
# longer than the page waits before it builds tables ahead, in seconds
LONGER_THAN_REST = 1
HAS_FOCUS = "return document.activeElement.dataset.key === arguments[0]"
# keeps what each worker is asked, and the steps that it counted beside a cube
LISTEN = """window.asked = [];
    const { postMessage } = Worker.prototype;
    const heard = new WeakSet();
    const told = ({ data: { reply } }) => {
        for (const { step } of Array.isArray(reply?.value) ? reply.value : []) if (step) window.asked.push(`count ${step.name}`);
    };
    Worker.prototype.postMessage = function (...words) {
        const [{ request }] = words;
        if (!heard.has(this)) this.addEventListener("message", told);
        heard.add(this);
        if (request?.call === "build") window.asked.push(`count ${request.about.step}`);
        if (request?.call === "bestOfAxis") window.asked.push("best");
        postMessage.apply(this, words);
    };"""


# keeps the rows that are shown in a part, selects the first one's moves, and counts what is taken away
STAND = """const holder = part(arguments[0]);
    window.rowsNow = () => [...holder.querySelectorAll('.take')].map((take) => take.closest('li, tr'));
    window.stood = rowsNow();
    getSelection().selectAllChildren(stood[0].querySelector('.take'));
    window.taken = 0;
    const hasRow = (node) => node instanceof Element && (node.matches('.take') || node.querySelector('.take') !== null);
    new MutationObserver((changes) => changes.forEach(({ removedNodes }) => { window.taken += [...removedNodes].filter(hasRow).length; }))
        .observe(holder, { childList: true, subtree: true })"""
STOOD = """const isSelected = getSelection().containsNode(stood[0].querySelector('.take').firstChild, true);
    return [stood.filter((row, at) => row === rowsNow()[at]).length, isSelected, taken]"""


def ahead(tally: Tally, browser: Browser) -> None:
    """
    Tables are built while nothing is asked and the page is seen, each once; then a step asks for its counts alone, those of orientations first.
    """
    script = browser.before_page(LISTEN)
    browser.open(address_of(LONGER))
    browser.wait_best()
    time.sleep(LONGER_THAN_REST)
    counts = "return window.asked.filter((each) => each.startsWith(arguments[0]))"
    tally.equal("no table is built ahead while the page isn't seen", browser.script(counts, "count dr"), [])
    browser.script(TURN, True)
    every = "return arguments[0].every((step) => window.asked.includes(`count ${step}`))"
    tally.holds("the tables of each step are built ahead", browser.until(every, list(TITLES)))
    browser.script(TURN, False)
    browser.act('[data-cell="eorl.normal"]')
    browser.wait_best()
    browser.script("window.asked.length = 0")
    browser.act("#solutions-groups .take")
    counted = "return window.asked.filter((each) => each.startsWith('count')).length"
    tally.holds("a step asks for the counts after it", browser.until(f"{counted} >= 4"))
    browser.wait_best()
    asked = browser.script(counts, "count")
    tally.equal(
        "orientations come before reductions",
        asked[:4],
        ["count eofb", "count eoud", "count drud-eorl", "count drfb-eorl"],
    )
    others = {"count drud-eofb", "count drrl-eofb", "count drrl-eoud", "count drfb-eoud"}
    tally.equal(f"the main engine builds no table again: {asked}", others & set(asked), set())
    browser.no_longer(script)


def best_of_many(tally: Tally, browser: Browser) -> None:
    """Of more rows than are kept the best are kept, and the note says so."""
    browser.go(address_of(LONGER))
    browser.wait_best()
    browser.choose("best-slack", "1")
    browser.wait_best()
    said = re.fullmatch(r"The best ([0-9,]+) of ([0-9,]+) rows\.", browser.text("best-note"))
    kept, every = (int(number.replace(",", "")) for number in said.groups()) if said else (0, 0)
    tally.holds(f"there are more than are kept: {kept} of {every}", kept == CUT < every)
    browser.script("part('best-options').open = true")
    tally.holds(
        "so do the chips of cases, which count only these",
        browser.comes("best-cases-name", f"Case before DR, of the best {CUT}"),
    )
    browser.script("part('best-options').open = false")
    while len(rows := browser.script(ROWS)) < SHOWN:
        browser.script("part('best-more').click()")
        browser.wait_best()
    totals = [int(row[0]) for row in rows]
    tally.equal("the first are the best", totals, sorted(totals))
    # with one move more there is no row less
    fewer = [way.total for way in ways(f"0 ; {LONGER} ; ;")][:SHOWN]
    tally.holds("none is worse than of the shortest", all(one <= other for one, other in zip(totals, fewer)))


def more(tally: Tally, browser: Browser) -> None:
    """
    Each row of a list can be reached without a filter, also by Back, which marks it, only for this scramble; the rows that stood there stay as they are,
    and what is selected.
    """
    marked = (
        "return all('#solutions-groups .seen').map((each) => [each.dataset.key, each.ariaLabel.endsWith(', seen')])"
    )
    browser.open(address_of(LONGER) + "&list=eofb.normal.1")
    tally.equal("the first rows, of which none is marked", (len(browser.listed()), browser.script(marked)), (200, []))
    browser.script(STAND, "solutions-groups")
    browser.act("#solutions-more")
    tally.equal("the rows of a list stay", browser.script(STOOD), [200, True, 0])
    listed, wanted = browser.listed(), re.search(r"(\d+) rows: twins", browser.text("solutions-note"))
    tally.equal("all of them", str(len(listed)), wanted[1] if wanted else "")
    browser.walk(tally, "the first that is new", ("wait_best", {"focus": listed[200], "solutions-more": ""}))
    shown = browser.look("n #best-body tr")
    browser.script(STAND, "best-body")
    browser.click("#best-more")
    tally.equal("so do those of the best", browser.script(STOOD), [shown, True, 0])
    tally.holds("others follow them", browser.script("return rowsNow().length") > shown > 0)
    last = "const row = all('#solutions-groups .take').at(-1); row.focus(); row.click()"
    browser.walk(tally, "the last", ("script", last, {}), ("comes", "steps", 1, {}))
    back(browser)
    browser.walk(
        tally,
        "Back leads to the last",
        ("until", HAS_FOCUS, listed[-1], {marked: [[listed[-1], True]]}),
        ("go", address_of(LONGER) + "_D&list=eofb.normal.1", {marked: [], "n #solutions-groups .take": 200}),
    )


def stands(tally: Tally, browser: Browser) -> None:
    """On a narrow page the filter of a list stands there, and a key leads to it; a second way to a reduction has room."""
    room = """const top = (selector) => document.querySelector(selector).getBoundingClientRect().top;
        return top('#solutions-groups .take') - top('#solutions')"""
    browser.resize(360, 740)
    browser.walk(tally, "it is seen", ("open", address_of(LONGER) + "&list=eorl.normal.0", {"filter?": True}))
    tally.holds(f"the first row is near the list's head: {browser.script(room)}", browser.script(room) < 360)
    browser.walk(
        tally,
        "a key leads to it",
        ("script", "document.activeElement.blur()", {}),
        ("press", "/", {"filter?": True, "focus": "filter"}),
    )
    browser.go(address_of(LONGER) + "&steps=normal.R-_U_F-_R_L_D-_F_B-_L2_D")
    wide = "return document.documentElement.scrollWidth - document.documentElement.clientWidth"
    tally.equal("where a second way to a reduction is named: what stands beyond the window", browser.script(wide), 0)

"""The best ways on: each with what follows, their filters, their progress, and a stop in mid-search."""
import re
import time

from browser import LAST_STEP_AWAY, Browser
from program import program_answers
from tally import Tally
from wanted import TITLES
from ways import line_of, rows_of, then_of, title_of, ways

SCRAMBLE = "F2 U2 L2 D2 R2 L2 U2 L B R2 B2 L2 D F B2 R2 U' F R L U R2 F' D2 R2"
LONGER = "R' U' F D2 L2 F R2 U2 R2 B D2 L B2 D' B2 L' R' B' D2 B2 R' U' F"
STEPS = ("eofb", "eorl", "eoud")
CHOOSE = "const slack = document.getElementById('slack'); slack.value = arguments[0]; slack.dispatchEvent(new Event('change'));"
TYPE = "const it = document.getElementById('filter'); it.value = arguments[1]; it.dispatchEvent(new Event('input'));"
ROWS = """return [...document.querySelectorAll('#best-body tr')].map((row) => {
    const [total, moves, state, next, normal, inverse] = [...row.children].map((each) => each.textContent);
    const lengths = [normal, inverse].map((each) => each.split('×')[0]);
    return [total, row.querySelector('.take').textContent, state, next.split(' ').slice(0, 2).join(' '), ...lengths];
})"""
DETAILS = """return [...document.querySelectorAll('#best-body tr')].map((row) => [row.querySelector('.first').textContent,
    ...[...row.querySelectorAll('.times')].map((each) => each.textContent)])"""
SHOWN_FILTERS = "return !document.getElementById('best-filters').hidden"
# shows more rows, of which the later ones are found once they are asked for, until there are no more
MORE = """const more = part('best-more');
    if (part('best').ariaBusy === 'true') return false;
    if (more.hidden) return true;
    more.click();
    return false"""


def address_of(scramble: str) -> str:
    """The address of a scramble."""
    return "#scramble=" + scramble.replace(" ", "_").replace("'", "-")


def moves_of(first: str) -> str:
    """The moves of the first reduction of a row, which says how many they are if they are over both sides."""
    return first.removeprefix("then ").split(": ")[-1]


def best(tally: Tally, browser: Browser) -> None:
    """All ways on by the shortest orientations, as the model has them, and the way on from the best."""
    browser.open(address_of(SCRAMBLE))
    browser.wait_best()
    found = ways(f"0 ; {SCRAMBLE} ; ;")
    wanted = rows_of(browser.program, SCRAMBLE, found)
    tally.holds("some are over both sides", any(all(way.eo) for way in found) and any(all(way.dr) for way in found))
    tally.equal("how many there are", browser.text("best-note"), f"{len(found):,} rows.")
    tally.equal("the first of them are shown", len(browser.script(ROWS)), 6)
    tally.holds("and more when they are asked for", browser.until(MORE))
    rows = browser.script(ROWS)
    tally.equal("they are those of the model, in its order", rows, wanted)
    tally.equal(
        "each with the first of its reductions",
        [first for first, *_ in browser.script(DETAILS)],
        [then_of(way) for way in found],
    )
    marks = browser.script(
        "return all('#best-body tr').map((row) => [...row.querySelectorAll('.number')].map((each) => each.matches('.best')))"
    )
    # a reduction is on a side alone, or as long as the least there
    tally.equal(
        "sides are marked on which no fewer moves do",
        marks,
        [
            [
                not way.dr[1 - at] and bool(way.dr[at]) or int(row[4 + at]) == len(line_of(way.dr).split())
                for at in (0, 1)
            ]
            for way, row in zip(found, wanted)
        ],
    )
    tally.holds("of one, of both and of none", {0, 1, 2} <= {sum(each) for each in marks})
    over = "return all('#best-body tr').map((row) => [...row.querySelectorAll('.first .best')].map((each) => [each.textContent, each.title]))"
    tally.equal(
        "so is the length of a reduction over both sides, which no column has",
        browser.script(over),
        [[[str(len(line_of(way.dr).split())), "over both sides"]] if all(way.dr) else [] for way in found],
    )
    written = "return [...new Set(all('.first .best').map((each) => getComputedStyle(each, '::after').content))]"
    tally.equal("with words beside a mouse", browser.script(written), ['" over both"'])
    filters_orientations(tally, browser, [tuple(row) for row in rows])
    at = next(at for at, way in enumerate(found) if all(way.eo))
    line, total, reached = rows[at][1], int(rows[at][0]), rows[at][3]
    browser.open(address_of(SCRAMBLE))
    browser.wait_best()
    tally.holds("all of them", browser.until(MORE))
    browser.script("all('#best-body .take')[arguments[0]].click()", at)
    browser.settle("return document.activeElement.closest('#solutions-groups') !== null")
    tally.equal(
        "one over both sides is taken as one step", (browser.text("bracketed"), browser.look("steps")), (line, 1)
    )
    shown = browser.listed()
    tally.equal(
        "and the reductions are listed where its own is",
        len(shown[0].split()) if shown else 0,
        len(line_of(found[at].dr).split()),
    )
    tally.holds("of its axis", browser.text("solutions-heading").startswith(f"{reached} after"))
    browser.submit("own", line_of(found[at].dr))
    browser.settle("return all('#line-list li').length === 2")
    tally.equal(
        "its reduction finishes", browser.text("finished").split(".")[0], f"{reached} is reached: {total} moves"
    )
    copied = [step.split(" //")[0] for step in browser.content("fmc").splitlines()[1:]]
    tally.equal("each step is a line of the copy", copied, [line, line_of(found[at].dr)])


def where(line: str) -> str:
    """On which sides a line has moves."""
    return "normal" if "(" not in line else "inverse" if line.startswith("(") else "both sides"


def filters_orientations(tally: Tally, browser: Browser, rows: list[tuple[str, ...]]) -> None:
    """The best orientations are filtered by their axis, by their side and by the reduction that follows, each alone and all together."""
    sides = ("inverse", "normal", "both sides")
    filters = [("best-axis", TITLES[step]) for step in STEPS] + [("best-side", side) for side in sides]
    filters += [("best-next", state) for state in ("DR U/D", "DR R/L", "DR F/B")]

    def left(name: str, value: str, some: list[tuple[str, ...]]) -> list[tuple[str, ...]]:
        if name == "best-side":
            return [row for row in some if where(row[1]) == value]
        return [row for row in some if row[2 if name == "best-axis" else 3] == value]

    for name, value in filters:
        browser.choose(name, value)
        wanted = left(name, value, rows)
        tally.holds(f"{value} leaves some, and not all", 0 < len(wanted) < len(rows) and browser.until(MORE))
        tally.equal(f"what {value} leaves", [tuple(row) for row in browser.script(ROWS)], wanted)
        browser.choose(name, "")
    some = rows
    for name, value in (("best-axis", rows[0][2]), ("best-side", "normal"), ("best-next", rows[0][3])):
        browser.choose(name, value)
        some = left(name, value, some)
    tally.holds("all together", browser.until(MORE))
    tally.equal("leave what each leaves", [tuple(row) for row in browser.script(ROWS)], some)
    for name, _ in filters:
        browser.choose(name, "")


def filters_reductions(tally: Tally, browser: Browser, count: int) -> None:
    """The best reductions are filtered only by the case of their trigger; a filter of another cube is gone."""
    tally.equal("axes and sides aren't filtered by", browser.script(SHOWN_FILTERS), False)
    browser.script("part('best-options').open = true")
    tally.holds("chips come", browser.until("return all('#best-cases-chips button').length > 1"))
    browser.click("#best-cases-chips button")
    left = re.match(rf"([0-9]+) of {count} rows", browser.text("best-note"))
    tally.holds(f"one leaves some: {browser.text('best-note')}", left and 0 < int(left[1]) < count)
    browser.act(LAST_STEP_AWAY)
    browser.wait_best()
    tally.equal("before an orientation they are", browser.script(SHOWN_FILTERS), True)
    browser.script("history.back()")
    browser.until("return document.getElementById('best-rows').classList.contains('of-reductions')")
    browser.walk(tally, "the filter of another cube is gone", ("wait_best", {"best-note": f"{count} rows."}))


def after_orientation(tally: Tally, browser: Browser) -> None:
    """After an orientation the best are its reductions on both axes and sides, by all moves; after a reduction there are none."""
    browser.go(address_of(LONGER) + "&steps=inverse.B_D_R_F2_B_D")
    browser.wait_best()
    inverted = program_answers(browser.program, ["invert"], ["B D R F2 B D"])[0]
    wanted = [(way.total, line_of(way.dr), title_of(way)) for way in ways(f"0 ; {inverted} {LONGER} ; ; B D R F2 B D")]
    tally.holds("more of them", browser.until(MORE))
    cells = """return all('#best-body tr').map((row) =>
        [Number(row.children[0].textContent), row.querySelector('.take').textContent, row.children[2].textContent])"""
    rows = [(total, moves, state) for total, moves, state in browser.script(cells)]
    tally.equal("its reductions, as the model has them", rows, wanted)
    tally.equal("by all moves", [row[0] for row in rows], sorted(row[0] for row in rows))
    filters_reductions(tally, browser, len(rows))
    said = f"{rows[0][2]} is reached: {rows[0][0]} moves. nissy has no step after a DR: go on by hand."
    browser.walk(
        tally,
        "the first finishes, and then there is no best",
        ("act", "#best-body .take", {"finished": said, "best?": False}),
    )


def says_no_reduction(tally: Tally, browser: Browser) -> None:
    """A row says the first reduction only if that has moves: after the EO (R U F) each DR is there already."""
    browser.go("#scramble=R_U_F")
    browser.wait_best()
    tally.holds("all of them", browser.until(MORE))
    found = ways("0 ; R U F ; ;")
    tally.equal(
        "the rows", [row[:2] for row in browser.script(ROWS)], [[str(way.total), line_of(way.eo)] for way in found]
    )
    said = [first for first, *_ in browser.script(DETAILS)]
    tally.equal("what follows each", said, [then_of(way) for way in found])
    tally.holds("nothing follows some", "" in said and set(said) != {""})


def stopped(tally: Tally, browser: Browser) -> None:
    """A stop in mid-search, while the page stays at hand."""
    browser.open(address_of(LONGER))
    browser.choose("best-slack", "3")
    # of the longer ones, which are many thousands
    moving = "return /^Looking for the best . [0-9]{1,3},[0-9,]+ ways tried.$/.test(part('best-note').textContent)"
    tally.holds("the progress is shown", browser.until(moving))
    tally.holds("and rows", browser.look("n #best-body .take") > 0)
    browser.click('[data-cell="eofb.normal"]')
    tally.holds(
        "meanwhile a list is answered",
        browser.until("return document.querySelector('#solutions-groups button') !== null"),
    )
    tally.holds("and the search goes on", browser.script("return !document.getElementById('best-stop').disabled"))
    workers = browser.workers()
    browser.act("#best-stop")
    browser.wait_best()
    end = time.monotonic() + 10
    while browser.workers() >= workers and time.monotonic() < end:
        time.sleep(0.1)
    tally.holds("a stop ends its workers", browser.workers() < workers)
    count = len(ways(f"0 ; {LONGER} ; ;"))
    tally.equal("what it says, and what was found stays", browser.text("best-note"), f"Stopped. {count} rows.")
    tally.holds("some of it is shown", len(browser.script(ROWS)) > 0)
    tally.equal("with how many each leads to", [words for words in browser.script(DETAILS) if "" in words[1:]], [])
    tally.equal("it offers to go on", (browser.text("best-stop"), browser.focused()), ("Go on", "best-stop"))
    browser.click("#best-stop")
    tally.holds("which asks for the same", browser.until(moving))
    tally.equal("and may be stopped", (browser.text("best-stop"), browser.focused()), ("Stop", "best-stop"))
    browser.act("#best-stop")
    browser.wait_best()
    tally.equal("as before", browser.text("best-note"), f"Stopped. {count} rows.")
    browser.choose("best-slack", "0")
    browser.wait_best()
    tally.equal("and it can be asked again", browser.text("best-note"), f"{count} rows.")
    before = browser.script(ROWS)
    other = CHOOSE.replace("'slack'", "'best-slack'") + "return document.querySelectorAll('#best-body tr').length"
    tally.equal("rows stay while longer ones are looked for", browser.script(other, "1"), len(before))
    browser.choose("best-slack", "0")
    tally.equal("and are kept", browser.script(ROWS), before)
    browser.choose("best-slack", "3")
    browser.fill("scramble", "R U F")
    browser.wait_best()
    tally.holds("another scramble ends a search", "Stopped" not in browser.text("best-note"))


def narrowed(tally: Tally, browser: Browser) -> None:
    """Where fewer are asked for, neither a row nor a word of the longer search stays, whether the shorter one was made before or not."""
    shown, longer = [], ""
    for slacks in (("1", "0"), ("0", "1", "0")):
        browser.open(address_of(SCRAMBLE))
        for slack in slacks:
            browser.choose("best-slack", slack)
            browser.wait_best()
            if slack == "0":
                tally.holds(f"all rows of {slacks}", browser.until(MORE))
                shown.append((sorted(browser.script(ROWS)), browser.text("best-note")))
            else:
                longer = browser.text("best-note")
    tally.equal("after a longer search, before one, and again after it", shown, shown[:1] * 3)
    tally.holds("a longer search says other words", longer != shown[0][1])

"""The way on from step to step and back: the browser's history, undo, what is kept, the lists and their filter."""
from browser import LAST_STEP_AWAY, Browser, Keys
from tally import Tally
from wanted import Position

SCRAMBLE = "F2 U2 L2 D2 R2 L2 U2 L B R2 B2 L2 D F B2 R2 U' F R L U R2 F' D2 R2"
ADDRESS = "#scramble=" + SCRAMBLE.replace(" ", "_").replace("'", "-")
EXAMPLE = "R' U' F D2 L2 F R2 U2 R2 B D2 L B2 D' B2 L' R' B' D2 B2 R' U' F"
TYPED: tuple[tuple[str, list[str]], ...] = (
    ("U", ["U"]),
    ("u2", ["U2"]),
    ("U'", ["U'"]),
    ("  R F2 ", ["R", "F2"]),
    ("l\u2019f", ["L'", "F"]),
    ("B2'", ["B2"]),
    ("", []),
)
# turns of opposite faces change nothing by their order; of these the lists have U, R or F first
OPPOSITE = (("D2 U", ["U", "D2"]), ("B2F2", ["F2", "B2"]), ("R' L2", ["R'", "L2"]), ("L2 R' U", ["R'", "L2", "U"]))
# reaches an orientation of that scramble
EO = "D2 R2 L U"
TYPE = "const it = part('filter'); it.value = arguments[0]; it.dispatchEvent(new Event('input'))"


def back(browser: Browser) -> None:
    """The browser's Back."""
    browser.script('part("results").setAttribute("aria-busy", "true"); history.back()')
    browser.wait()


def history(tally: Tally, browser: Browser) -> None:
    """Steps, undo and random scrambles can be had back by the browser; typing, a side and a list are no such steps."""
    count = "return history.length"
    browser.open(ADDRESS)
    entries = browser.script(count)
    browser.walk(
        tally, "a side and a list", ("click", "#switch", {}), ("act", '[data-cell="eofb.inverse"]', {count: entries})
    )
    browser.act("#solutions-groups .take")
    first = browser.text("bracketed")
    browser.walk(tally, "by hand", ("submit", "own", "R", {}), ("comes", "steps", 2, {}))
    both = browser.text("bracketed")
    browser.walk(tally, "a step, moves by hand and Remove make one each", ("act", LAST_STEP_AWAY, {count: entries + 3}))
    back(browser)
    browser.walk(
        tally, "Back after Remove", ("wait", {"bracketed": both}), ("act", LAST_STEP_AWAY, {"bracketed": first})
    )
    for what, looks in (
        ("an undone step", {"bracketed": both}),
        ("moves by hand", {"bracketed": first}),
        ("a step", {"bracketed": "", "side": "inverse side", "solutions-heading": "EO F/B, inverse side"}),
    ):
        back(browser)
        browser.walk(tally, f"Back after {what}", ("wait", looks))
    drawn = [SCRAMBLE]
    for _ in range(2):
        browser.click("#random")
        browser.settle("return part('scramble').value !== arguments[0]", drawn[-1])
        drawn.append(browser.value("scramble"))
    for scramble in (drawn[1], SCRAMBLE):
        back(browser)
        tally.equal("Back after a random scramble", browser.value("scramble"), scramble)
    browser.walk(tally, "typing makes no entry", ("fill", "scramble", "R U F", {count: browser.script(count)}))


def refused(tally: Tally, browser: Browser) -> None:
    """Where the browser refuses to have the address changed so often, the page goes on, and its address follows."""
    often = """
        const { pushState, replaceState } = History.prototype;
        Object.assign(History.prototype, { pushState: () => { throw new Error("too often"); }, replaceState: () => {} });
        setTimeout(() => Object.assign(History.prototype, { pushState, replaceState }), 500);
        document.querySelector(arguments[0]).click()"""
    browser.go("#scramble=R_U_F&steps=normal.R~inverse.U")
    for button, steps in (("#switch", "normal.R~inverse.U"), (LAST_STEP_AWAY, "normal.R")):
        browser.walk(
            tally,
            "refused",
            ("script", often, button, {"side": "inverse side"}),
            ("comes", "hash", f"#scramble=R_U_F&steps={steps}&side=inverse", {}),
        )
    tally.equal("what is seen is what the address says", browser.texts("#line-list .moves"), ["R"])


def undo(tally: Tally, browser: Browser) -> None:
    """An undone step gives its side back."""
    browser.walk(
        tally,
        "undo",
        ("go", "#scramble=R_U_F&steps=inverse.R~normal.U", {}),
        ("act", LAST_STEP_AWAY, {"side": "normal side"}),
        ("act", LAST_STEP_AWAY, {"side": "inverse side"}),
    )


def kept(tally: Tally, browser: Browser) -> None:
    """The best continuations of a cube are there again when one comes back to it, but not for another scramble."""

    def shown() -> tuple[list[str], list[str], str]:
        return browser.texts("#best-body th"), browser.texts("#best-body td.axis"), browser.text("best-note")

    browser.open(ADDRESS)
    browser.wait_best()
    found = shown()
    browser.act("#best-body .take")
    browser.wait_best()
    tally.holds("those of another cube aren't shown", shown()[0] != found[0])
    browser.script(
        """const { postMessage } = Worker.prototype; Worker.prototype.postMessage = function (...words) {
        if (words[0].request?.call !== 'bestOfAxis') postMessage.apply(this, words); }"""
    )
    browser.act(LAST_STEP_AWAY)
    tally.equal("they are kept", shown(), found)
    marked = browser.script("return all('.seen').map((each) => each.ariaLabel.endsWith(', seen'))")
    tally.equal("the row that was taken is marked", marked, [True])
    browser.walk(tally, "another scramble", ("fill", "scramble", "R U F", {"#best-body tr": []}))


def returns(tally: Tally, browser: Browser) -> None:
    """Back leads to the row that was taken, where it stood; also in a list."""
    place = "const it = document.activeElement; return [it.dataset.key, Math.round(it.getBoundingClientRect().top)]"
    focus = """const row = all(arguments[0])[arguments[1]]; row.focus({ preventScroll: true });
        row.scrollIntoView({ block: 'center' })"""
    for address, rows, at in (("", "#best-body .take", 40), ("&list=eofb.normal.1", "#solutions-groups .take", 20)):
        browser.open(ADDRESS + address)
        browser.wait_best()
        browser.script("part('best-more').click()")
        browser.wait_best()
        browser.script(focus, rows, at)
        before = browser.script(place)
        browser.walk(tally, "a row", ("script", "document.activeElement.click()", {}), ("comes", "steps", 1, {}))
        tally.holds("the list of a reduction is open", address or browser.listed() != [])
        back(browser)
        tally.holds(
            f"{rows}: it has the focus again",
            browser.until("return document.activeElement.dataset.key === arguments[0]", before[0]),
        )
        browser.wait_best()
        after = browser.script(place)
        tally.holds(f"{rows}: it stands where it stood: {before}, {after}", abs(before[1] - after[1]) < 3)


def leaves_list(tally: Tally, browser: Browser) -> None:
    """An open list doesn't outlast its cube, is closed by its cell, its button and a key, and is looked for once."""
    for act in (LAST_STEP_AWAY, "#bar-undo", "#best-body .take"):
        browser.go(ADDRESS + "&steps=normal.D2_R2_L_U")
        browser.wait_best()
        browser.act('[data-cell="drrl-eoud.normal"]')
        tally.holds(f"{act}: a list is open", browser.listed() != [])
        heading = browser.text("solutions-heading")
        busy = "document.querySelector(arguments[0]).click(); part('results').setAttribute('aria-busy', 'true')"
        browser.walk(tally, "it is left without a fault", ("script", busy, act, {"alert": ""}))
        tally.holds(
            f"{act}: it is left",
            browser.text("solutions-heading") != heading and "nissy:" not in browser.text("results"),
        )
    for close in ('[data-cell="eofb.normal"]', "#solutions-close"):
        browser.walk(
            tally,
            "an open list",
            ("go", ADDRESS, {}),
            ("act", '[data-cell="eofb.normal"]', {"hash": ADDRESS + "&list=eofb.normal.0"}),
            ("act", close, {"solutions": "", "hash": ADDRESS, "focus": "eofb.normal"}),
        )
    width = "return document.body.clientWidth"
    closed = browser.script(width)
    browser.walk(tally, "a long list", ("act", '[data-cell="eofb.normal"]', {}), ("choose", "slack", "1", {}))
    tally.holds(
        "a long list makes the page longer",
        browser.script("return document.documentElement.scrollHeight > 2 * innerHeight"),
    )
    tally.equal("but no narrower", browser.script(width), closed)
    browser.walk(tally, "Escape closes it", ("press", Keys.ESCAPE, {"solutions": ""}))


def filters(tally: Tally, browser: Browser) -> None:
    """The filter finds whole moves one after another, however they are typed, in each solution that doesn't reach its step before."""
    browser.walk(tally, "a list", ("go", ADDRESS + "&list=eoud.normal.1", {}), ("script", "part('twins').click()", {}))
    listed = [moves.split() for moves in Position(SCRAMBLE).listed("eoud", "normal", 1)]
    for typed, turns in (*TYPED, *OPPOSITE):
        browser.script(TYPE, typed)
        places = [[moves[at : at + len(turns)] for at in range(len(moves))] for moves in listed]
        wanted = [" ".join(moves) for moves, found in zip(listed, places) if turns in found]
        tally.equal(f"the filter {typed!r}", browser.listed(), wanted[:200])
    for typed in ("U3", "x", "2U", "U '", "hello"):
        browser.script(TYPE, typed)
        is_said = "not moves" in browser.text("solutions-note")
        tally.equal(f"{typed!r} is said to be no moves, with no list", (is_said, browser.listed()), (True, []))
    browser.walk(
        tally,
        "twins",
        ("go", "#scramble=R_U_F&list=eofb.normal.0", {"solutions-note": "2 solutions. 1 row: twins share one."}),
    )


# what a row of the table says of a step over both sides, and what is marked as the shortest
OVER = "return all('#steps-body tr:not(.anew) th').map((each) => [...each.querySelectorAll('.cell')].map((one) => one.textContent))"
LEAST = "return all('#steps-body .least').map((each) => each.dataset.cell)"
PRESSED = "return all('#steps-body [aria-pressed=true]').map((each) => each.dataset.cell)"


def says_what_holds(tally: Tally, browser: Browser) -> None:
    """Of a cube that has an orientation it is never said that one is needed, also as long as the steps that may follow it aren't there yet."""
    seen = """window.said = [];
        new MutationObserver(() => window.said.push([part('reached').checkVisibility(), part('no-reduction').checkVisibility()]))
            .observe(part('reached'), { attributes: true, childList: true })"""
    # what is there is shown at once, however soon all of it comes
    script = browser.before_page(
        """const { setTimeout: begin } = window;
        window.setTimeout = (act, after, ...words) => begin(act, after === 50 ? 0 : after, ...words)"""
    )
    browser.open(ADDRESS)
    browser.script(seen)
    browser.submit("own", EO)
    browser.until("return window.said.some(([isReached]) => isReached)")
    browser.wait()
    said = browser.script("return window.said")
    tally.equal("an EO that holds, and that one is needed", [each for each in said if all(each)], [])
    browser.no_longer(script)


def says_over_both(tally: Tally, browser: Browser) -> None:
    """A step that takes less over both sides than on each alone says so; no step that takes more than the least over both is marked as the shortest."""
    for scramble, *made in ((EXAMPLE,), (SCRAMBLE,), (EXAMPLE, "", "B D R F2 B D"), (SCRAMBLE, "D2 R2 L U")):
        at = Position(scramble, *made)
        over = at.over_both(browser.program)
        parts = [f"{side}.{moves.replace(' ', '_')}" for side, moves in zip(("normal", "inverse"), made) if moves]
        address = f"#scramble={scramble}".replace(" ", "_").replace("'", "-") + (
            "&steps=" + ".".join(parts) if parts else ""
        )
        said = [
            [f"{over[step]} moves over both"] if step in over else [] for group in at.open_steps() for step in group
        ]
        browser.walk(tally, f"{scramble} {made}", ("go", address, {"cells": at.cells(browser.program), OVER: said}))
    # five moves on a side, four over both
    start = f"#scramble={EXAMPLE}".replace(" ", "_").replace("'", "-")
    browser.walk(
        tally,
        "the shortest are over both",
        ("open", start, {LEAST: ["eofb.both", "eorl.both"], PRESSED: []}),
        ("comes", "said", "Shortest next step: EO F/B, 4 moves over both sides.", {}),
        ("script", "part('skip').click()", {"focus": "eofb.both"}),
    )
    lists = {"solutions-heading": "EO F/B, both sides", "list-side=": "both", PRESSED: ["eofb.both"]}
    browser.walk(
        tally,
        "its list opens by a key, and closes",
        ("press", Keys.ENTER, {**lists, "hash": f"{start}&list=eofb.both.0"}),
        ("press", Keys.ESCAPE, {"solutions?": False, PRESSED: [], "hash": start}),
        ("act", '[data-cell="eofb.both"]', lists),
        ("act", '[data-cell="eofb.both"]', {"solutions?": False, "focus": "eofb.both"}),
        ("press", "1", {"solutions-heading": "EO F/B, normal side", PRESSED: ["eofb.normal"]}),
        ("choose", "list-side", "both", lists),
    )


def says_in_all(tally: Tally, browser: Browser) -> None:
    """A cell says how many of its solutions have as few moves in all as it says, and the list begins with these."""
    scramble, made = "R' U' F U' R2 F D2 L R D2 U B U' B' L B U' L' F' R2 B F L R' U' F", "R2 B U' R F"
    at = Position(scramble, made)
    address = f"#scramble={scramble}&steps=normal.{made}&list=drrl-eofb.normal.0".replace(" ", "_").replace("'", "-")
    browser.walk(tally, "in all", ("go", address, {"cells": at.cells(browser.program)}))
    listed = browser.listed()
    tally.equal("each row is there", sorted(listed), sorted(at.rows("drrl-eofb", "normal")))
    counted = [at.in_all("normal", moves) for moves in listed]
    tally.equal("those with the fewest in all first", counted, sorted(counted))
    totals = at.totals("drrl-eofb", "normal")
    counts = [(total, totals.count(total)) for total in sorted(set(totals))]
    tally.holds(f"they have several: {counts}", len(counts) > 1)
    heads = [head.split(":")[0] for head in browser.texts("#solutions-groups h3")]
    length = at.count("drrl-eofb", "normal")[0]
    tally.equal(
        "by all moves",
        list(dict.fromkeys(head.split(", trigger")[0] for head in heads)),
        [f"{length} moves, {total} in all" for total, _ in counts],
    )


def lists_none_that_goes_on(tally: Tally, browser: Browser) -> None:
    """What the help of a list says isn't listed is not: solutions that go on once the step is reached, though they reach it in the end."""
    named = ["F R", "F R L2", "F L2 R"]
    # the cube after it is solved by F R, and no turn alone orients the edges on R/L
    browser.open("#scramble=R-_F-&list=eorl.normal.1.all")
    tally.equal("the help's example", browser.texts("#help-list b")[-3:], named)
    tally.equal("the list", browser.text("solutions-heading"), "EO R/L, normal side")
    for moves in named:
        tally.equal(f"{moves}: bad edges", Position("R' F'", moves).bad_edges("rl"), 0)
        browser.script(TYPE, moves)
        found = browser.listed()
        tally.equal(f"{moves}: it is listed", moves in found, moves == named[0])
        tally.equal(f"{moves}: it is in others", [each for each in found if moves not in each], [])

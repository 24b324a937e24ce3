"""What a finger does on a phone: the first tap after the scramble was edited, another scramble beside lines that are kept, undo, edits."""
import re

from best import LONGER, address_of
from browser import LAST_STEP_AWAY, Browser, Keys
from narrow import SMALL, TARGET
from steps import ADDRESS, SCRAMBLE
from tally import Tally

# the place of the middle of what a selector finds
MIDDLE = """const { left, top, width, height } = document.querySelector(arguments[0]).getBoundingClientRect();
    return [left + width / 2, top + height / 2]"""
# a click comes of a tap by itself, once the touch is over
CLICKED = "window.isTapped = false; addEventListener('click', () => { window.isTapped = true; }, { capture: true, once: true })"
TOP = "return document.querySelector(arguments[0]).getBoundingClientRect().top"
INTO_VIEW = "document.querySelector(arguments[0]).scrollIntoView({ block: arguments[1], behavior: 'instant' })"
TWO_KEPT = "&kept=inverse.B_D_R_F2_B_D,normal.R-_U_F-_R_L;a_note"
# how another scramble comes
WAYS = {
    "a random one": "part('random').click()",
    "a text that is pasted": """const field = part('scramble'); field.value = arguments[0];
        field.dispatchEvent(new InputEvent('input', { inputType: 'insertFromPaste' }))""",
}
TEXT = "R U F\nR // EO"


def tap(browser: Browser, selector: str) -> bool:
    """A finger on the middle of what a selector finds, if that is seen, until the click that comes of it."""
    browser.script(CLICKED)
    x, y = browser.script(MIDDLE, selector)
    browser.command("Input.dispatchTouchEvent", type="touchStart", touchPoints=[{"x": x, "y": y}])
    browser.command("Input.dispatchTouchEvent", type="touchEnd", touchPoints=[])
    return browser.until("return window.isTapped !== false")


def edit(browser: Browser, scroll: int) -> None:
    """The page with the scramble opened, from where it is scrolled on."""
    browser.go(ADDRESS)
    browser.wait_best()
    browser.script("scrollTo({ top: 0, behavior: 'instant' })")
    tap(browser, "#scramble-edit")
    browser.comes("scramble?", True)
    browser.script("scrollTo({ top: arguments[0], behavior: 'instant' })", scroll)


def reaches_rows(tally: Tally, browser: Browser) -> None:
    """The first tap after the scramble was opened reaches what is under the finger, and nothing moves by it; then it is folded, if it isn't in view."""
    browser.resize(360, 740, True)
    browser.command("Emulation.setTouchEmulationEnabled", enabled=True)
    last = "#best-body tr:last-child .star"
    for scroll in (0, 250):
        edit(browser, scroll)
        tally.equal(
            f"{scroll}: it is open, and is typed in", (browser.look("scramble?"), browser.focused()), (True, "scramble")
        )
        top = browser.script(TOP, last)
        tap(browser, last)
        tally.holds(f"{scroll}: a star, of that row", browser.comes("#best-body .star", [*["\u2606"] * 4, "\u2605"]))
        moved = browser.script(TOP, last) - top
        tally.holds(f"{scroll}: it stays where it is: {moved}", abs(moved) < 2)
        tally.equal(f"{scroll}: the scramble stays open only if it is in view", browser.look("scramble?"), scroll == 0)
    for selector, look, wanted in (("#best-body .take", "steps", 1), ("#own", "focus", "own")):
        edit(browser, 0)
        browser.script(INTO_VIEW, selector, "center")
        tap(browser, selector)
        tally.holds(f"{selector}: it is reached", browser.comes(look, wanted))
        tally.equal(f"{selector}: then the scramble is folded", browser.look("scramble?"), False)
    edit(browser, 0)
    tally.holds("by keys it is left, and stays as long as it is in view", browser.tab_to("eofb.normal", 30))


def leads_back(tally: Tally, browser: Browser) -> None:
    """If another scramble takes the place of one with lines that are kept, its chip leads back to them; what is typed keeps them."""
    back = {"scramble=": SCRAMBLE, "kept": 2}
    for way, act in WAYS.items():
        browser.walk(tally, way, ("go", ADDRESS + TWO_KEPT, {}))
        before = browser.hash()
        browser.walk(
            tally,
            way,
            ("script", act, TEXT, {}),
            ("comes", "desk?", True, {"steps": int("pasted" in way)}),
            ("act", f"#desk a[href='{before}']", back | {"hash": before}),
        )
    browser.walk(
        tally, "what is typed keeps them", ("go", ADDRESS + TWO_KEPT, {}), ("fill", "scramble", "R U F", {"kept": 2})
    )


def answers_where_one_pasted(tally: Tally, browser: Browser) -> None:
    """What becomes of an attempt is seen where it was pasted, without a scroll, and a tap leads to its line; that stays where it is once a step of it is
    edited, after which nothing more is said."""
    text = f"{LONGER}\nR' U F' R L // EO\nD' F B' L2 D // DR"
    box = "const { top, bottom } = part(arguments[0]).getBoundingClientRect(); return top >= arguments[1] && bottom <= arguments[2]"
    paste = "part('scramble').focus();" + WAYS["a text that is pasted"]
    for width, height in ((390, 844), (360, 740)):
        browser.resize(width, height, True)
        browser.open()
        browser.walk(
            tally,
            f"{width}",
            ("script", paste, text, {}),
            ("comes", "attempt-words", "Not solved: 10 moves, DR F/B.", {"return scrollY": 0, "focus": "scramble"}),
            ("wait_best", {}),
        )
        # above what a keyboard covers
        tally.holds(f"{width}: it is in view", browser.script(box, "attempt", 0, height / 2))
        tap(browser, "#attempt-way")
        tally.holds(f"{width}: it leads to the line", browser.comes("focus", "line-heading"))
        tally.holds(f"{width}: which is in view", browser.script(box, "line-heading", 0, height / 3))
        top = browser.script(TOP, "#line")
        browser.script("part('line-list').querySelector('li:last-child .acts button:nth-child(3)').click()")
        tally.holds(f"{width}: another line", browser.comes("bracketed", "R' U F' R L (D' F B' L2 D)"))
        browser.wait_best()
        tally.equal(f"{width}: of which nothing is said", browser.look("attempt?"), False)
        moved = browser.script(TOP, "#line") - top
        tally.holds(f"{width}: the line stays where it is: {moved}", abs(moved) < 3)


def undoes(tally: Tally, browser: Browser) -> None:
    """Whoever undoes a step comes back to the row that it was taken from, among the best or in its list, and keeps what was starred."""
    row = """const { top, bottom } = document.querySelector('.take.seen')?.getBoundingClientRect() ?? {};
        return top >= 0 && bottom <= innerHeight && document.activeElement.matches('.take.seen')"""
    for address, selector in (
        ("", "#best-body tr:nth-child(3) .take"),
        ("&list=eofb.normal.1", "#solutions-groups li:nth-child(9) .take"),
    ):
        browser.open(ADDRESS + address)
        browser.wait_best()
        browser.script(INTO_VIEW, selector, "center")
        taken = browser.texts(selector)
        tap(browser, selector)
        tally.holds(f"{taken}: it is taken", browser.comes("steps", 1))
        browser.wait_best()
        browser.script("document.querySelector(':is(#solutions-groups, #best-body) .star').click()")
        browser.script("scrollTo({ top: document.body.scrollHeight, behavior: 'instant' })")
        tap(browser, "#bar-undo")
        tally.holds(f"{taken}: undone, its row is in view and has the focus", browser.until(row))
        browser.walk(tally, f"{taken}: that row", ("wait", {"focus": taken[0], "kept": 1}))
        tally.equal(f"{taken}: the list beside it", "list=" in browser.hash(), address != "")
    browser.walk(
        tally,
        "no keyboard comes up over an emptied line",
        ("go", ADDRESS + "&steps=normal.R", {}),
        ("script", INTO_VIEW, LAST_STEP_AWAY, "center", {}),
        ("click", LAST_STEP_AWAY, {}),
        ("comes", "steps", 0, {"focus": "line-heading"}),
    )
    browser.go(ADDRESS)
    browser.wait_best()
    browser.walk(
        tally,
        "two steps",
        ("script", "document.querySelector('#best-body .take').click()", {}),
        ("submit", "own", "R", {}),
        ("comes", "steps", 2, {}),
        ("wait_best", {}),
    )
    for left in (1, 0):
        browser.script("part('bar-undo').focus()")
        browser.walk(tally, "by keys", ("press", Keys.ENTER, {}), ("comes", "steps", left, {}), ("wait_best", {}))
        tally.equal(
            f"by keys, with {left} left",
            browser.focused() if left else browser.until(row),
            "bar-undo" if left else True,
        )


def stays(tally: Tally, browser: Browser) -> None:
    """The line stays where it is while a step of it is edited, though what stands above it becomes higher or lower."""
    edit_first = """const item = part('line-list').children[0]; item.querySelector('button').click();
        const field = item.querySelector('input'); field.value = arguments[0]; field.form.requestSubmit()"""
    height = "return part('results').offsetHeight"
    browser.go(f"{ADDRESS}&steps=normal.D2_R2_L_U~normal.B_R_D2_B_R_B_R_B")
    browser.wait_best()
    browser.script(INTO_VIEW, "#line", "start")
    for moves in ("D2", "D2 R2 L U"):
        before = (browser.script(height), browser.script(TOP, "#line"))
        browser.script(edit_first, moves)
        browser.until("return document.querySelector('#line-list .moves')?.textContent === arguments[0]", moves)
        browser.wait_best()
        tally.holds(f"after {moves} the results are as high as before", browser.script(height) != before[0])
        moved = browser.script(TOP, "#line") - before[1]
        tally.holds(f"after {moves} the line stays where it is: {moved}", abs(moved) < 3)


def shows_faults(tally: Tally, browser: Browser) -> None:
    """What is wrong with moves that are typed is in view with them above a keyboard, for a step of the line too."""
    wrong = """const field = document.querySelector(arguments[0]);
        field.focus();
        field.scrollIntoView({ block: 'end', behavior: 'instant' });
        field.value = 'R U q';
        field.form.requestSubmit()"""
    seen = """const below = part('bar').getBoundingClientRect().bottom;
        const [fault, field] = [document.querySelector(`${arguments[0]} .fault`), document.querySelector(`${arguments[0]} input`)];
        return fault.textContent !== '' && [fault, field].every((each) => {
            const { top, bottom } = each.getBoundingClientRect();
            return top >= below && bottom <= innerHeight;
        })"""
    for width in (390, 360):
        browser.resize(width, 380, True)
        for place in ("#own-form", "#line-list"):
            browser.walk(
                tally,
                f"{width}: {place}",
                ("open", f"{ADDRESS}&steps=normal.R~normal.U", {}),
                ("script", "document.querySelector('#line-list button').click()", {}),
                ("script", wrong, f"{place} input", {}),
                (
                    "until",
                    "return document.querySelector(`${arguments[0]} .fault`)?.textContent.includes('no move')",
                    place,
                    {},
                ),
            )
            tally.holds(f"{width}: {place}: fault and field are in view", browser.script(seen, place))
        browser.resize(width, 740, True)


def is_whole(tally: Tally, browser: Browser) -> None:
    """A scramble of 25 moves is seen whole; so are the words of the buttons beside a long line, and a number with its word in the table."""
    scramble = "R' U' F D2 L2 F' R2 U2 R2 B' D2 L' B2 D' B2 L' R' B' D2 B2 F' L' R' U' F"
    browser.walk(
        tally,
        "25 moves",
        ("go", {}),
        ("script", "part('scramble').focus()", {}),
        ("fill", "scramble", scramble, {"scramble?": True}),
    )
    cut = "const { scrollHeight, clientHeight } = part('scramble'); return scrollHeight - clientHeight"
    tally.equal("what is cut of the scramble", browser.script(cut), 0)
    browser.go(f"{ADDRESS}&steps=normal.D2_R2_L_U_R_U2_F_L-_R_L2_U_R-~inverse.R2_U-_L_D2_U_R-_B_L2")
    narrow = (
        """return all('#whole button').filter((each) => each.scrollWidth > each.clientWidth).map((each) => each.id)"""
    )
    tally.equal("buttons that are narrower than their words", browser.script(narrow), [])
    browser.go(f"{ADDRESS}&steps=normal.D2_R2_L_U")
    words = browser.texts("#steps-body .together")
    tally.holds(
        f"numbers of solutions: {words}", words and all(re.fullmatch(r"[0-9,]+ solutions?", each) for each in words)
    )
    apart = """return all('#steps-body .together').filter((each) => {
        const range = document.createRange();
        range.selectNodeContents(each);
        return range.getClientRects().length > 1;
    }).map((each) => each.textContent)"""
    tally.equal("numbers on another line than their word", browser.script(apart), [])
    tally.holds("there are some", any("in all" in text for text in browser.texts("#steps-body small")))


def is_even(tally: Tally, browser: Browser) -> None:
    """What belongs together has one height or one line, a button is as wide as its words, only one undoes, and only a trigger is bold."""
    tops = """const baseline = (each) => {
            const at = Object.assign(document.createElement('span'), { style: 'display: inline-block' });
            each.prepend(at);
            const { bottom } = at.getBoundingClientRect();
            at.remove();
            return Math.round(bottom);
        };
        const evens = [seen('#best-options > summary, #best-more'), ...all('#best-body tr').map((row) => [...row.querySelectorAll('.axis, td.number')])];
        return evens.filter((each) => new Set(each.map(baseline)).size !== 1).map((each) => each.map((one) => [one.textContent, baseline(one)]))"""
    uneven = """return all('#steps-body tr').map((row) => new Set([...row.querySelectorAll('td .cell')].map((each) => each.offsetHeight)).size)
        .filter((count) => count > 1).length"""
    room = """const words = document.createRange();
        words.selectNodeContents(part('best-more'));
        return part('best-more').offsetWidth - words.getBoundingClientRect().width < 26"""
    weights = "return [...new Set(all(arguments[0]).map((each) => getComputedStyle(each).fontWeight))]"
    undo = "return seen('button').filter((each) => each.textContent === 'Undo step').length"
    # how far below the box of a row its second line begins
    gaps = """return all('#best-body tr').flatMap((row) => [...row.querySelectorAll('.axis, .number')].map((each) => {
        const words = document.createRange();
        words.selectNodeContents(each);
        return words.getBoundingClientRect().top - row.querySelector('.take').getBoundingClientRect().bottom;
    }))"""
    for width in (390, 360, 320):
        browser.resize(width, 844, True)
        browser.open(ADDRESS)
        browser.wait_best()
        tally.equal(f"{width}: what has another baseline", browser.script(tops), [])
        touching = browser.script(gaps)
        tally.holds(
            f"{width}: second lines, from the box above them: {touching}", len(touching) == 20 and min(touching) >= 1
        )
        tally.holds(f"{width}: a button as wide as its words", browser.script(room))
    browser.resize(390, 844, True)
    browser.walk(
        tally,
        "two scrambles and a line",
        ("follow", "#scramble=R_U_F", {}),
        ("follow", f"{address_of(LONGER)}&steps=inverse.B_D_R_F2_B_D", {"scramble?": False, "desk-remove?": True}),
        ("wait", {"copy-desk?": True, undo: 1, uneven: 0}),
        ("follow", f"{address_of(LONGER)}&steps=inverse.B_D_R_F2_B_D~normal.R_B-_D2_R", {}),
    )
    tally.equal(
        "moves, and a trigger",
        [browser.script(weights, f"#line-list {each}") for each in (".moves", ".trigger")],
        [["400"], ["700"]],
    )


def has_a_mean(tally: Tally, browser: Browser) -> None:
    """Three scrambles with lines that are kept, and what is done with them, stand on one line, each as large as a finger needs."""
    places = """const boxes = seen('#desk :is(a, button)').map((each) => each.getBoundingClientRect());
        const tops = boxes.map(({ top }) => top);
        return [Math.max(...tops) - Math.min(...tops) < 2, Math.min(...boxes.flatMap(({ width, height }) => [width, height])) >= 44]"""
    browser.open("#scramble=R_U_F&kept=normal.D,normal.L,normal.B")
    for address in ("#scramble=F-_L2_U&kept=normal.D", "#scramble=B2_R_D&kept=normal.D,normal.L"):
        browser.follow(address)
    for width in (430, 390, 375, 360):
        browser.resize(width, 844, True)
        browser.walk(tally, f"{width}", ("wait", {"#desk-chips a": ["1 ★3", "2 ★1", "3 ★2"], places: [True, True]}))


def is_read(tally: Tally, browser: Browser) -> None:
    """A trigger is whole, what changes a step stands on one line, nothing touches the edge of the screen, and the inverse side's letter is no bar."""
    broken = """return all('#line-list :is(.trigger, .acts)').filter((each) => {
        const range = document.createRange();
        range.selectNodeContents(each);
        const parts = each.matches('.acts') ? [...each.children] : [range];
        return new Set(parts.flatMap((one) => [...one.getClientRects()]).map(({ top }) => Math.round(top))).size > 1;
    }).map((each) => each.textContent)"""
    edges = "return Math.min(...all('header *').filter((each) => each.checkVisibility()).map((each) => each.getBoundingClientRect().top))"
    letter = "return getComputedStyle(document.querySelector('td.number'), '::before').fontFamily"
    scramble = "R' U' F U2 F' L B D2 R2 D R2 U' D' R B2 D' B R' F U2 F2 R' U' F"
    for width in (390, 360, 320):
        browser.resize(width, 844, True)
        browser.go(f"{address_of(scramble)}&steps=inverse.L_F_U-_D2_B~normal.D_R-_U_R2_F2_L2_B2_D")
        tally.equal(f"{width}: what is broken", browser.script(broken), [])
        tally.holds(f"{width}: room above the header", browser.script(edges) >= 3)
        browser.go(ADDRESS)
        browser.wait_best()
        tally.holds(f"{width}: a letter with serifs", "mono" in browser.script(letter).lower())
    browser.resize(390, 844, True)


def has_large_nets(tally: Tally, browser: Browser) -> None:
    """Large nets are seen and read, both of them, with what plays on them, and above the answer of Why?, of one axis or of each."""
    whole = """const [nets, player] = [part('net-inverse'), part('play-on')].map((each) => each.getBoundingClientRect());
        const least = Math.min(...all('#cube .sticker rect').map((each) => each.getBoundingClientRect().width));
        return nets.bottom <= player.top && player.bottom <= innerHeight && least >= 9"""
    answer = """const { top, bottom } = part('why').getBoundingClientRect();
        return part('why').innerText !== '' && top >= part('play-on').getBoundingClientRect().bottom && bottom <= innerHeight"""
    for width, height in ((390, 844), (360, 740), (360, 640), (1280, 800)):
        browser.resize(width, height, width < 1000)
        browser.walk(
            tally,
            f"{width} by {height}",
            ("open", f"{address_of(LONGER)}&steps=inverse.B_D_R_F2_B_D~normal.R_B-_D2_R", {}),
            ("act", "#cube-large", {whole: True}),
            ("choose", "marks", "EO F/B", {}),
            ("choose", "piece", "1", {whole: True, answer: True}),
            ("choose", "marks", "", {whole: True, answer: True}),
            ("press", Keys.ESCAPE, {}),
        )


def lies(tally: Tally, browser: Browser) -> None:
    """Where a phone is turned all that is pressed is large enough for a finger too, and the best have their room before they come."""
    browser.resize(740, 360, True)
    browser.open(f"{ADDRESS}&kept=normal.R,normal.U;a_note&list=eofb.normal.0")
    browser.wait_best()
    tally.equal("what is too small", browser.script(SMALL, TARGET, ".skip, .popover, textarea"), [])
    room = "return parseFloat(getComputedStyle(part('best-rows')).minHeight)"
    rows = "return [all('#best-body tr').length, part('best-table').offsetHeight]"
    count, height = browser.script(rows)
    tally.holds(f"the room of {count} rows: {height}", count == 6 and height <= browser.script(room) < height + 8)


def has_stars_beside_short_moves(tally: Tally, browser: Browser) -> None:
    """The star of a short reduction stands beside its moves, before which a phone writes no cases; that of a long one below."""
    after = "#scramble=R-_U-_F_U2_F-_L_B_D2_R2_D_R2_U-_D-_R_B2_D-_B_R-_F_U2_F2_R-_U-_F&steps=inverse.L_F_U-_D2_B&list="
    rows = """return all('#solutions-groups li').map((row) => {
        const [moves, star] = ['.take', '.star'].map((name) => row.querySelector(name).getBoundingClientRect());
        return [row.querySelector('.take').dataset.key, moves.right <= star.left, moves.bottom <= star.top];
    })"""
    for width in (320, 390):
        browser.resize(width, 844, True)
        browser.go(after + "drud-eofb.both.0")
        tally.equal(f"{width}: a short one", browser.script(rows), [["D2 R (U R)", True, False]])
        browser.go(after + "drrl-eofb.normal.0")
        tally.equal(f"{width}: long ones", {below for _, _, below in browser.script(rows)}, {True})
    browser.resize()

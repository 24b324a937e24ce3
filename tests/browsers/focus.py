"""Where the focus goes and stays, what is dimmed meanwhile, what is said to screen readers, and what tables are called."""
import re
import time

from best import LONGER
from browser import Browser, Keys
from searches import ANOTHER
from steps import ADDRESS, EXAMPLE, SCRAMBLE, back
from tally import Tally
from wanted import SIDES, Position, counted

# here every edge is flipped: a list with longer ones takes a while
FLIPPED = "#scramble=U_R2_F_B_R_B2_R_U2_L_B2_R_U-_D-_R2_F_R-_L_B2_U2_F2"
HELD = """const choices = part("choices");
    return [choices.inert, Number(getComputedStyle(choices).opacity) < 0.5]"""
# keeps what is said to screen readers
LISTEN = """
    const status = part("status");
    window.said = [];
    new MutationObserver(() => said.push(status.textContent)).observe(status, { childList: true })"""
# what is said comes once nothing was done for so many seconds
QUIET = 1.5
SAID = "return said.splice(0)"
FOCUS = "part(arguments[0]).focus();"
# sign by sign, however slow the machine is
TYPE = """const [typed] = arguments;
    [...typed].forEach((sign, at) => setTimeout(() => { document.execCommand("insertText", false, sign) }, 100 * at))
    return new Promise((done) => setTimeout(done, 100 * typed.length))"""
SLACK = FOCUS + "const it = part('slack'); it.value = arguments[1]; it.dispatchEvent(new Event('change'));"


def dimmed(tally: Tally, browser: Browser) -> None:
    """The table of the last cube can't be used under another scramble; then its cell has the focus again."""
    browser.walk(
        tally,
        "the table is lit",
        ("open", ADDRESS, {HELD: [False, False]}),
        ("script", "document.querySelector('[data-cell=\"eorl.normal\"]').focus()", {}),
    )
    held = browser.script(ANOTHER + HELD, LONGER)
    tally.equal("an old table is dimmed and can't be used", held, [True, True])
    browser.walk(tally, "a new one is lit", ("wait", {HELD: [False, False], "focus": "eorl.normal"}))


def ends(tally: Tally, browser: Browser) -> None:
    """After a step the first of the shortest cells has the focus; after the last one the line, which goes on by hand, as is said."""
    browser.go("#scramble=R_U_F&list=eofb.normal.0.all")
    browser.act("#solutions-groups li:nth-child(2) .take")
    least = browser.script("return all('#steps-body .least').map((each) => each.dataset.cell)")
    tally.holds(f"there are several: {least}", len(least) > 1)
    tally.equal("the first has the focus", browser.focused(), least[0])
    browser.walk(
        tally,
        "the last step",
        ("act", f'[data-cell="{least[0]}"]', {}),
        ("act", "#solutions-groups .take", {"focus": "line-heading"}),
    )
    tally.holds("it ends", "reached" in browser.text("finished"))
    tally.equal("which is said", browser.look("said"), browser.text("finished"))


def stays(tally: Tally, browser: Browser) -> None:
    """The focus stays where it went while something is looked for, and isn't lost with a button that goes."""
    cell = "const cell = document.querySelector('[data-cell=\"eofb.normal\"]'); cell.focus(); cell.click();"
    browser.go(FLIPPED)
    browser.walk(tally, "a list that comes", ("script", cell + FOCUS, "own", {"focus": "own"}))
    browser.script(SLACK + "part('solutions-close').focus()", "slack", "3")
    browser.walk(tally, "a list that is given up", ("press", Keys.ENTER, {"focus": "eofb.normal"}))
    browser.script(cell)
    # a list is seen once it comes
    browser.until("return part('slack').offsetParent !== null")
    browser.walk(tally, "another slack after that", ("script", SLACK, "slack", "1", {"focus": "slack"}))
    browser.go(ADDRESS)
    browser.walk(tally, "continuations that come", ("script", FOCUS, "own", {}), ("wait_best", {"focus": "own"}))


def waits(tally: Tally, browser: Browser) -> None:
    """What is looked for is said to screen readers where it takes a while."""
    slow = """
        const { postMessage } = Worker.prototype;
        Worker.prototype.postMessage = function (...words) { setTimeout(() => postMessage.apply(this, words), 1000); }"""
    browser.open(ADDRESS)
    browser.until("return part('status').textContent !== ''")
    browser.script(slow)
    browser.script(LISTEN)
    browser.act('[data-cell="eofb.normal"]')
    count = len(Position(SCRAMBLE).solutions("eofb", "normal"))
    tally.equal("a list", browser.script(SAID), ["Looking …", f"EO F/B, normal side: {count} solutions."])
    browser.choose("best-slack", "2")
    browser.act("#best-stop")
    tally.holds("the end of the best", browser.until("return said.length === 1 && said[0].startsWith('Stopped.')"))


def says(tally: Tally, browser: Browser) -> None:
    """
    What a filter leaves is said to screen readers, once for what is typed in a row; so is the first of the shortest steps, and nothing where there is no
    scramble.
    """
    browser.open(ADDRESS + "&list=eoud.normal.1")
    browser.script(LISTEN)
    browser.script(FOCUS, "filter")
    shortest = next(
        cell for cell in Position(SCRAMBLE).cells(browser.program) if cell.endswith(", shortest")
    ).removesuffix(", shortest")
    for typed in ("u r", "x"):
        browser.script(TYPE, typed)
        time.sleep(QUIET)
        tally.equal(f"what is said of {typed!r}", browser.script(SAID), [browser.text("solutions-note")])
    browser.go()
    for scramble, said in ((SCRAMBLE, [f"Shortest next step: {shortest}."]), ("", [])):
        browser.script(SAID)
        browser.fill("scramble", scramble)
        time.sleep(QUIET)
        tally.equal(f"what is said of the scramble {scramble!r}", browser.script(SAID), said)


def says_typed(tally: Tally, browser: Browser) -> None:
    """What is wrong with a scramble that is typed is said once nothing more is typed; what was left out already isn't said again."""
    browser.script(
        """const field = part('scramble');
        ["R (", "R (U", "R (U F", "R (U F2"].forEach((text, at) => setTimeout(() => {
            field.value = text;
            field.dispatchEvent(new Event('input'));
        }, 300 * at))"""
    )
    browser.until("return part('scramble-fault').textContent.includes('F2')")
    time.sleep(QUIET)
    silent = "return part('scramble-fault').closest('[aria-live], [role]')?.id ?? ''"
    stays = "return words === part('scramble-read').firstChild"
    browser.walk(
        tally,
        "what is said of a bracket, and of what was left out",
        ("wait", {SAID: ["A bracket isn't closed."], silent: ""}),
        ("fill", "scramble", "R, U", {}),
        ("script", "window.words = part('scramble-read').firstChild", {}),
        ("fill", "scramble", "R, U F", {"scramble-read": "Left out: commas.", stays: True}),
    )


def comes_back(tally: Tally, browser: Browser) -> None:
    """By the browser's Back no focus is lost with what it closes or dims."""
    browser.go(FLIPPED)
    browser.walk(tally, "a step", ("submit", "own", "R R'", {}), ("comes", "steps", 1, {}))
    browser.click('[data-cell="eofb.normal"]')
    browser.until(f"{FOCUS} return document.activeElement.id === arguments[0]", "slack")
    browser.script(SLACK + "part('solutions-close').focus()", "slack", "3")
    back(browser)
    tally.equal("Back from a list that is looked for", browser.focused(), "steps-heading")


def comes_back_to_steps(tally: Tally, browser: Browser) -> None:
    """By the browser's Back a step that was removed or changed has the focus where it stands again."""
    press = "const it = all('#line-list button').at(arguments[0]); it.focus(); it.click()"
    for steps, places in (("normal.D~inverse.L~normal.B", (0, 1, 2)), ("normal.D", (0,))):
        browser.open(f"#scramble=R_U_F&steps={steps}")
        count = browser.look("steps")
        for place in places:
            name = ("D", "on the inverse side L", "B")[place]
            browser.walk(
                tally,
                f"step {place + 1} of {count}",
                ("script", press, 3 * place + 1, {"steps": count - 1}),
                ("script", "history.back()", {}),
                ("comes", "steps", count, {"label": f"Remove {name}"}),
                ("script", press, 3 * place, {}),
                ("press", Keys.HOME, "F2 ", Keys.ENTER, {}),
                ("until", "return !document.querySelector('#line-list input')", {"steps": count}),
                ("script", "history.back()", {}),
                ("comes", "label", f"Edit {name}", {"steps": count}),
            )


def stays_in_the_line(tally: Tally, browser: Browser) -> None:
    """With a step that is undone by its key the focus goes from a button of any step to the last one that is left, and no further."""
    for row in (1, 3):
        browser.open("#scramble=R_U_F2_D_L&steps=normal.D_L~normal.B_U~inverse.F")
        browser.walk(
            tally,
            f"step {row} of three",
            ("script", f"document.querySelector('#line-list li:nth-child({row}) .acts button:last-child').focus()", {}),
            ("press", "u", {"steps": 2, "label": "Remove B U"}),
            ("press", "u", {"steps": 1, "label": "Remove D L"}),
        )


def one_stop(tally: Tally, browser: Browser) -> None:
    """The best continuations are one stop of the Tab key, and what has the focus among them keeps it when more are found."""
    browser.open(ADDRESS)
    browser.wait_best()
    moves = browser.texts("#best-body .take")
    tally.equal("there are some", len(moves), 6)
    tally.holds("the Tab key leads to the first", browser.tab_to(moves[0]))
    browser.press(Keys.ARROW_DOWN, Keys.ARROW_DOWN)
    third = "return document.activeElement === all('#best-body .take')[2]"
    tally.holds("arrows lead on", browser.script(third))
    browser.press(Keys.TAB)
    tally.holds(
        "the Tab key leaves them", browser.script("return document.activeElement.closest('#best-body') === null")
    )
    browser.choose("best-slack", "2")
    seen = """const row = document.querySelector("#best-body .take");
        if (part("best-progress").hidden || !row) return false;
        row.focus();
        return document.activeElement === row"""
    tally.holds("some are there while others are looked for", browser.until(seen))
    browser.until("return part('best-progress').hidden")
    tally.holds(
        "the focus stays among them", browser.script("return document.activeElement.closest('#best-body') !== null")
    )


def across(tally: Tally, browser: Browser) -> None:
    """What is pressed in a row is reached by the arrow keys, without single keys too, and keeps the focus when the rows are drawn anew."""
    browser.open(ADDRESS + "&list=eofb.normal.0")
    browser.wait_best()
    browser.script("part('keys-on').checked = false")
    place = """const [holder] = arguments, at = document.activeElement, rows = all(`${holder} :is(tr, li)`);
        return [rows.indexOf(at.closest("tr, li")), at.classList[0], at.ariaPressed]"""
    for holder in ("#best-body", "#solutions-groups"):
        browser.script("document.querySelector(arguments[0]).focus()", f"{holder} .take")
        right, left = (Keys.ARROW_RIGHT,) * 3, (Keys.ARROW_LEFT,) * 2
        for keys, wanted in (
            ((Keys.ARROW_DOWN, Keys.ARROW_RIGHT), [1, "star", "false"]),
            ((Keys.ENTER,), [1, "star", "true"]),
            ((Keys.ARROW_UP,), [0, "take"]),
            (right, [0, "star"]),
            (left, [0, "take"]),
        ):
            browser.press(*keys)
            browser.settle("return arguments[0] || all('#kept-list .total').length > 0", keys != (Keys.ENTER,))
            tally.equal(f"{holder}, {', '.join(keys)}", browser.script(place, holder)[: len(wanted)], wanted)
            if keys == (Keys.ENTER,):
                tally.equal(
                    f"{holder}: its row is the stop",
                    browser.texts(f"{holder} .take[tabindex='0']"),
                    browser.texts(f"{holder} .take")[1:2],
                )
    browser.script("part('keys-on').checked = true")


def words(tally: Tally, browser: Browser) -> None:
    """What the tables and the fields are called."""
    browser.go(ADDRESS)
    browser.wait_best()
    heads = ["In all", "Moves", "Reaches", "Then DR", "Normal moves", "Inverse moves"]
    tally.equal("the columns of the best", browser.texts("#best-table thead th")[:6], heads)
    sides = "return all('#best-body tr:first-child .number').map((each) => [each.title, each.ariaLabel])"
    lengths, times = zip(*(text.split("×") for text in browser.texts("#best-body tr:first-child .number")))
    said = browser.script(sides)
    wanted = [
        [
            f"{side} side alone",
            f"DR in {counted(int(count), 'move')} on the {side} side alone, {counted(int(number), 'solution')}",
        ]
        for side, count, number in zip(SIDES, lengths, times)
    ]
    tally.equal("what the lengths of a row are", said, wanted)


# what is said of steps that give up what is reached, and whether the first step is seen
ANEW = "return seen('#steps-body .anew, #steps-anew').map((each) => each.textContent)"
OPEN = "return document.querySelector('#steps-body .cell').checkVisibility()"


def goes_on(tally: Tally, browser: Browser) -> None:
    """The shortest are marked only of steps that keep what is reached; the others are said to begin anew. After a DR, which all of them give up, they are folded,
    until a list of one is open; the fold stays as it is while the line is gone on with."""
    least = "return [...new Set(all('#steps-body .least').map((each) => each.dataset.cell.slice(0, 2)))]"
    ways: tuple[tuple[str, list[str], list[str]], ...] = (
        ("", ["eo"], []),
        ("&steps=normal.D2_R2_L_U", ["dr"], ["Going on from here, this EO given up"]),
        ("&steps=normal.D2_R2_L_U~normal.B_R_D2_B_R_B_R_B", [], ["Going on from here, this DR given up"]),
    )
    for steps, kinds, said in ways:
        looks = {least: kinds, ANEW: said, OPEN: kinds != []}
        browser.walk(tally, "goes on", ("go", ADDRESS + steps, looks))
    dr, cell = ADDRESS + ways[2][0], browser.script("return document.querySelector('#steps-body .cell').dataset.cell")
    browser.walk(
        tally,
        "after a DR",
        ("press", "1", {"solutions?": True, OPEN: True}),
        ("press", Keys.ESCAPE, {"solutions?": False, OPEN: True}),
        ("click", "#steps-anew", {OPEN: False}),
        ("submit", "own", "R2", {}),
        ("comes", "steps", 3, {OPEN: False}),
        ("click", "#steps-anew", {OPEN: True}),
        ("script", "part('own').value = 'U2'; part('own').form.requestSubmit()", {}),
        ("comes", "steps", 4, {OPEN: True}),
        ("go", ADDRESS + ways[1][0], {OPEN: True}),
        ("go", dr, {OPEN: False}),
        ("follow", f"{dr}&list={cell}.0", {OPEN: True}),
        ("act", "#solutions-close", {"focus": cell, OPEN: True}),
    )
    browser.walk(
        tally,
        "what is solved gives up nothing",
        ("go", "#scramble=R_U_F2&steps=normal.F2_U-", {ANEW: ["Going on from here, this DR given up"]}),
        ("submit", "own", "R'", {}),
        ("comes", "steps", 2, {ANEW: [], "finished": "Solved: 3 moves."}),
    )
    # a page without a scramble has a solved cube
    browser.walk(tally, "a first scramble", ("open", {}), ("fill", "scramble", EXAMPLE, {ANEW: [], OPEN: True}))

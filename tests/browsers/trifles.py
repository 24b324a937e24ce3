"""What isn't asked for often: less motion, a sheet, a browser that refuses to copy, keys in a field, titles, a line kept with its
reduction."""
from best import address_of
from browser import LAST_STEP_AWAY, WORDS, Browser, Keys
from looks import SCRAMBLE
from searches import FLIPPED
from tally import Tally

LINE = SCRAMBLE + "&steps=inverse.B_D_R_F2_B_D"
REFUSED = 'Object.defineProperty(navigator, "clipboard", { value: undefined })'
PLAYED = "return part('played').textContent.split(':')[0] === arguments[0]"


def plays_by_steps(tally: Tally, browser: Browser) -> None:
    """Who wants less motion goes a move a press by Play; a sheet shows the cube after the whole line, whatever the nets played."""
    browser.media(prefers_reduced_motion="reduce")
    browser.go(LINE)
    end = browser.letters("normal")
    for wanted in ("0 of 6", "1 of 6", "2 of 6"):
        browser.walk(tally, "Play", ("click", "#play", {}), ("until", PLAYED, wanted, {}))
    browser.media(prefers_color_scheme="light")
    tally.holds("the nets are before the end", browser.letters("normal") != end)
    browser.script("window.dispatchEvent(new Event('beforeprint'))")
    tally.equal("a sheet has the end", (browser.letters("normal"), browser.script(PLAYED, "6 of 6")), (end, True))


def copies(tally: Tally, browser: Browser) -> None:
    """A button that says that it copied is no narrower then. A text that the browser refuses to copy is shown, selected."""
    width = "return part('copy-fmc').getBoundingClientRect().width"
    before = browser.script(width)
    word = browser.text("copy-fmc")
    browser.script(WORDS, "copy-fmc")
    browser.click("#copy-fmc")
    browser.until("return window.words.length > 1")
    tally.equal(
        "it says so, then its own words", browser.script("return window.words"), [["Copied", before], [word, before]]
    )
    tally.equal("as wide as before", browser.script(width), before)
    script = browser.before_page(REFUSED)
    browser.open(LINE + "&kept=inverse.B_D_R_F2_B_D")
    browser.until("return document.querySelector('#kept-list .total').textContent !== ''")
    browser.click("#copy-kept")
    selected = "const it = part('uncopied-text'); return it.value.slice(it.selectionStart, it.selectionEnd)"
    tally.holds("the text is seen", browser.until("return part('uncopied').matches(':popover-open')"))
    text = browser.script(selected)
    lines, _, address = text.rpartition("\n\n")
    tally.holds(
        f"all of it is selected: {text!r}",
        lines.startswith("R' U' F") and lines.endswith("(B D R F2 B D) // EO U/D (6)"),
    )
    tally.holds("to the address by which it is taken back", address.endswith("&kept=inverse.B_D_R_F2_B_D"))
    closed = {"focus": "copy-kept", "n :popover-open": 0}
    browser.walk(
        tally, "it has the focus, and is closed", ("wait", {"focus": "uncopied-text"}), ("press", Keys.ESCAPE, closed)
    )
    browser.no_longer(script)


SEEN_SET_UPS = "return seen('#kept-list dl').length"
UNFOLD = "#kept-list [data-control^=cubes]"
EXPANDED = f"return document.querySelector('{UNFOLD}').ariaExpanded"


def sets_up(tally: Tally, browser: Browser) -> None:
    """The line and what is kept say how the cube in one's hands is set up on each side, on a sheet too."""
    both = {"#set-ups output": ["L' U F D", "D' F' U' L"], "#kept-list dl output": ["L' U F D", "D' F' U' L"]}
    browser.walk(
        tally,
        "both sides",
        ("go", "#scramble=U_F&steps=normal.D.inverse.L&kept=normal.D.inverse.L", {}),
        ("comes", "n #kept-list dl", 1, both),
        ("media", "print", {SEEN_SET_UPS: 1}),
        ("media", {SEEN_SET_UPS: 0}),
        ("click", UNFOLD, {SEEN_SET_UPS: 1, "label": "Set-ups: D on the inverse side L"}),
        ("click", "#kept-list [data-control^=compare]", {SEEN_SET_UPS: 1}),
        ("click", UNFOLD, {SEEN_SET_UPS: 0, EXPANDED: "false"}),
        ("act", LAST_STEP_AWAY, {"set-ups?": False}),
    )
    # premoves, scramble and moves are read off, though they cancel where they meet
    wanted = ["U' R' R' U' F F D", "D' F' F' U R R U"]
    apart = {"#set-ups output": wanted, "#kept-list dl output": wanted}
    browser.walk(
        tally,
        "each as it is written",
        ("go", "#scramble=R-_U-_F&steps=inverse.R_U~normal.F_D&kept=inverse.R_U~normal.F_D", {}),
        ("comes", "n #kept-list dl", 1, apart),
        ("go", "#scramble=R-_U-_F&steps=normal.D_U", {"#set-ups output": ["R' U' F D U", "U' D' F' U R"]}),
        # a wide turn of R is one of L that turns the cube, by which F comes to U
        ("go", "#scramble=Rw_L-_U&steps=normal.U-", {"#set-ups output": ["F U'", "U F'"]}),
    )


def marks_what_is_pointed_at(tally: Tally, browser: Browser) -> None:
    """What comes under a mouse that stays where it is isn't marked: the open list is, until the mouse moves."""
    browser.walk(
        tally,
        "a row is pressed",
        ("go", SCRAMBLE, {}),
        ("wait_best", {}),
        ("click", "#best-body .take", {}),
        ("wait_best", {}),
    )
    tally.holds(
        f"the list is marked: {browser.text('marked-normal')}", browser.text("marked-normal").startswith("\u00b7 DR")
    )
    x, y = browser.script(
        "const { left, top } = document.querySelector('#steps-body tr').getBoundingClientRect(); return [left + 9, top + 9]"
    )
    browser.command("Input.dispatchMouseEvent", type="mouseMoved", x=x, y=y)
    browser.command("Input.dispatchMouseEvent", type="mouseMoved", x=x + 3, y=y + 3)
    marks = browser.script("return document.querySelector('#steps-body tr').dataset.marks")
    tally.holds(
        f"then what has the mouse: {marks}",
        browser.until("return part('marked-normal').textContent.includes(arguments[0])", marks),
    )


def marks_its_reduction(tally: Tally, browser: Browser) -> None:
    """A line that is solved after a reduction has the marks of that, though others hold then too."""
    steps = "#scramble=L2_U2_R-_F-&steps=normal.F"
    said = {"marked-normal": "· DR R/L: done", "marked-inverse": "· DR R/L: done"}
    for line in (steps, f"{steps}~normal.R", f"{steps}~normal.R_U2_L2"):
        browser.walk(tally, line, ("go", line, said))
    # of flipped edges none is on the wrong side of a slice
    for choice, words in (("DR U/D", "0c0e"), ("EO U/D", "12 bad")):
        browser.go(address_of(FLIPPED))
        browser.choose("marks", choice)
        browser.walk(tally, "not done", ("wait", {"marked-normal": f"· {choice}: {words}"}))
    browser.choose("marks", "follow")


def takes_an_empty_line(tally: Tally, browser: Browser) -> None:
    """An empty line at the end of a scramble is nothing new: nothing is searched anew for it."""
    browser.walk(
        tally,
        "an empty line",
        ("go", SCRAMBLE, {}),
        ("wait_best", {}),
        (
            "script",
            "const it = part('scramble'); it.focus(); it.setSelectionRange(it.value.length, it.value.length)",
            {},
        ),
        ("script", "window.row = document.querySelector('#best-body tr')", {}),
        ("press", Keys.ENTER, {}),
        ("script", "return new Promise((done) => setTimeout(done, 400))", {"return window.row.isConnected": True}),
    )


def closes_from_fields(tally: Tally, browser: Browser) -> None:
    """Escape closes the list also from its fields."""
    for name in ("filter", "list-side", "slack"):
        browser.walk(
            tally,
            name,
            ("go", SCRAMBLE + "&list=eorl.normal.0", {"solutions?": True}),
            ("script", "part(arguments[0]).focus()", name, {}),
            ("press", Keys.ESCAPE, {"solutions?": False}),
        )


def has_a_plain_title(tally: Tally, browser: Browser) -> None:
    """The title keeps no sign that turns a text around, or that ends a line."""
    browser.go("#scramble=%E2%80%AER_U%E2%80%A8F")
    title = browser.look("title")
    tally.holds(f"the title: {title!r}", not {"\u202e", "\u2028"} & set(title) and title.startswith("R U"))


def goes_on_with_reduction(tally: Tally, browser: Browser) -> None:
    """A line that is kept with its reduction is gone on with by that reduction's list, on the side where it is least, which has the focus."""
    kept, is_told = (
        SCRAMBLE + "&kept=inverse.B_D_R_F2_B_D;;drfb-eoud",
        "return document.querySelector('#kept-list .case') !== null",
    )
    has_focus = "return document.activeElement.closest('#solutions-groups') !== null"
    browser.walk(
        tally,
        "its list is open",
        ("go", kept, {}),
        ("until", is_told, {}),
        ("act", "#kept-list button", {"solutions-heading": "DR F/B after EO U/D, normal side"}),
        ("until", has_focus, {}),
    )
    anew = "const [on, compare] = all('#kept-list button'); on.focus(); on.click(); compare.click()"
    browser.walk(
        tally,
        "its row is drawn anew meanwhile",
        ("go", kept, {}),
        ("until", is_told, {}),
        ("script", anew, {}),
        ("until", has_focus, {}),
    )

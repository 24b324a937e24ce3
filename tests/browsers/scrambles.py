"""The desk: each scramble that is worked on stays with its line, its list and what is kept, whatever else is read, and also for later."""
from attempts import CHIPS, PASTE, SHOWN, chip
from browser import HELD, Browser
from tally import Tally

KEPT = "kept lines"
MEAN = "1. R U F\n2. F' L2 U\n3. B2 R D\n"
# of a session that is pasted the browser has the text only at the event
PASTE_ALL = """const field = part('scramble'), clipboardData = new DataTransfer();
    clipboardData.setData('text/plain', arguments[0]);
    field.focus();
    field.dispatchEvent(new ClipboardEvent('paste', { clipboardData, bubbles: true, cancelable: true }))"""
NOTE = """const field = document.querySelector('.note-field');
    field.value = arguments[0];
    field.dispatchEvent(new Event('change'))"""
# the moves of what is kept, with their notes
LINES = """return all('#kept-list li').map((each) => [
    [...each.querySelectorAll('.step > .step .moves')].map((one) => one.textContent).join(' '), each.querySelector('.note-field').value])"""
NO_CLIPBOARD = (
    "Object.defineProperty(navigator, 'clipboard', { value: { writeText: async (text) => { window.copied = text } } })"
)
REFUSES = "Storage.prototype.setItem = () => { throw new DOMException('no room', 'QuotaExceededError') }"


def begin(browser: Browser, tally: Tally, what: str) -> None:
    """Opens the page as one who was never here, with three scrambles."""
    browser.open()
    browser.walk(
        tally,
        what,
        ("wait", {"desk?": False}),
        ("script", PASTE, MEAN, {}),
        ("comes", CHIPS, ["1", "2", "3"], {SHOWN: ["1"], "scramble=": "R U F", "scramble-read": ""}),
    )


def keeps_each(tally: Tally, browser: Browser) -> None:
    """Of a mean each scramble keeps its line, its list, what is kept with its notes, and how far the page was scrolled."""
    begin(browser, tally, "a mean")
    browser.walk(
        tally,
        "the first one",
        ("submit", "own", "D L", {}),
        ("comes", "steps", 1, {}),
        ("act", "#keep-line", {}),
        ("script", NOTE, "good", {CHIPS: ["1 ★1", "2", "3"]}),
        ("press", "1", {}),
        ("comes", "solutions?", True, {}),
    )
    first = browser.hash()
    browser.walk(
        tally,
        "the second one",
        ("act", chip(2), {"scramble=": "F' L2 U", SHOWN: ["2"], "steps": 0, "kept": 0, "solutions?": False}),
        ("submit", "own", "B (U)", {}),
        ("comes", "steps", 1, {}),
        ("act", "#keep-line", {}),
        ("comes", CHIPS, ["1 ★1", "2 ★1", "3"], {}),
    )
    second = browser.hash()
    browser.walk(
        tally,
        "back to the first one",
        ("act", chip(1), {"hash": first, KEPT: ["D L"], "bracketed": "D L", "solutions?": True}),
        ("script", "history.back()", {}),
        ("comes", "hash", second, {SHOWN: ["2 ★1"], KEPT: ["B (U)"]}),
    )
    tally.equal("the note", browser.script("return all('.note-field').map((each) => each.value)"), [""])
    browser.reopen(first)
    browser.walk(
        tally,
        "a reload takes nothing",
        ("comes", CHIPS, ["1 ★1", "2 ★1", "3"], {SHOWN: ["1 ★1"]}),
        ("act", "#random", {}),
        ("comes", "n #desk-chips a", 4, {CHIPS: ["1 ★1", "2 ★1", "3", "4"]}),
        ("act", "#random", {}),
        ("comes", CHIPS, ["1 ★1", "2 ★1", "3", "4"], {SHOWN: ["4"]}),
        ("reopen", {CHIPS: ["1 ★1", "2 ★1", "3", "4"], SHOWN: [], "welcome?": True}),
        ("act", chip(2), {"hash": second, KEPT: ["B (U)"], "welcome?": False}),
        ("act", "#desk-new", {"focus": "scramble", "hash": "", "scramble=": "", "welcome?": True}),
        ("script", PASTE, "R U F", {}),
        ("comes", "bracketed", "D L", {SHOWN: ["1 ★1"], KEPT: ["D L"]}),
    )


def gives_up_drawn(tally: Tally, browser: Browser) -> None:
    """A random scramble with which nothing was done isn't left on the desk by who goes back; by who begins another one it is."""
    three, four = ["1", "2", "3"], ["1", "2", "3", "4"]
    begin(browser, tally, "a mean")
    browser.walk(
        tally,
        "a random one",
        ("act", "#desk-new", {}),
        ("act", "#random", {}),
        ("comes", CHIPS, four, {}),
        ("script", "history.back()", {}),
        ("comes", CHIPS, three, {SHOWN: [], "scramble=": "", "welcome?": True}),
        ("act", "#random", {}),
        ("comes", CHIPS, four, {}),
        ("act", "#desk-new", {CHIPS: four}),
    )


def drops_what_is_drawn(tally: Tally, browser: Browser) -> None:
    """A random scramble that is still being drawn doesn't come over what is done meanwhile: the browser's Back, or a paste."""
    begin(browser, tally, "a mean")
    browser.walk(
        tally,
        "Back while one is drawn",
        ("act", chip(2), {SHOWN: ["2"]}),
        ("script", HELD % "scrambleOf", {}),
        ("act", "#random", {SHOWN: ["2"]}),
        ("script", "history.back()", {}),
        ("comes", SHOWN, ["1"], {}),
        ("script", "window.goOn()", {}),
        # what is asked after it is answered after it
        ("submit", "own", "D L", {}),
        ("comes", "steps", 1, {CHIPS: ["1", "2", "3"], SHOWN: ["1"], "scramble=": "R U F"}),
        ("script", HELD % "scrambleOf", {}),
        ("act", "#random", {SHOWN: ["1"]}),
        ("script", PASTE, "L2 D", {CHIPS: ["1", "2", "3", "4"], SHOWN: ["4"]}),
        ("script", "window.goOn()", {}),
        ("submit", "own", "B", {}),
        ("comes", "steps", 1, {CHIPS: ["1", "2", "3", "4"], SHOWN: ["4"], "scramble=": "L2 D"}),
    )


def keeps_what_back_leaves(tally: Tally, browser: Browser) -> None:
    """What is kept belongs to the scramble: the browser's Back undoes a step and takes no line away, and a link adds to what is there."""
    begin(browser, tally, "a mean")
    browser.walk(
        tally,
        "kept after a step",
        ("submit", "own", "D", {}),
        ("comes", "steps", 1, {}),
        ("act", "#keep-line", {}),
        ("submit", "own", "L", {}),
        ("comes", "steps", 2, {}),
        ("act", "#keep-line", {"kept": 2}),
        ("script", "history.go(-2)", {}),
        ("comes", "steps", 0, {KEPT: ["D", "D L"]}),
        ("follow", "#scramble=R_U_F&steps=normal.B&kept=normal.B2", {}),
        # they stand in order once each is known
        ("comes", KEPT, ["D", "B2", "D L"], {"bracketed": "B", CHIPS: ["1 ★3", "2", "3"]}),
        ("follow", "#scramble=R_U_F", {"bracketed": "B", "kept": 3}),
        ("follow", "#scramble=R_U_F&steps=normal.F", {"bracketed": "F"}),
        ("comes", KEPT, ["D", "B2", "B", "D L"], {}),
    )


def opens_steps(tally: Tally, browser: Browser) -> None:
    """A scramble of a text with a solution below it is read with that once it is opened, also after a reload."""
    browser.open()
    browser.walk(
        tally,
        "a sheet",
        ("script", PASTE, "1. B2 R D\n\n2. R U F\nD // EO\n\nL2\n// a note\n", {}),
        ("comes", CHIPS, ["1", "2"], {"scramble=": "B2 R D"}),
        ("reopen", {CHIPS: ["1", "2"]}),
        ("act", chip(2), {}),
        ("comes", "kept", 1, {"scramble=": "R U F", "bracketed": "D", KEPT: ["L2"], CHIPS: ["1", "2 ★1"]}),
    )


def removes(tally: Tally, browser: Browser) -> None:
    """A scramble is taken away with what was done; the browser's Back brings it back, which is said."""
    said = "Scramble 2 was removed: the browser's Back brings it back."
    begin(browser, tally, "a mean")
    browser.walk(
        tally,
        "one is removed",
        ("act", chip(2), {}),
        ("submit", "own", "B", {}),
        ("comes", "steps", 1, {}),
        ("act", "#keep-line", {}),
        ("comes", CHIPS, ["1", "2 ★1", "3"], {}),
        (
            "act",
            "#desk-remove",
            {CHIPS: ["1", "2"], SHOWN: ["2"], "scramble=": "B2 R D", "#said": [said]},
        ),
        ("script", "history.back()", {}),
        # at the place that it had
        ("comes", "bracketed", "B", {CHIPS: ["1", "2 ★1", "3"], SHOWN: ["2 ★1"], KEPT: ["B"], "n :popover-open": 0}),
    )
    browser.walk(
        tally,
        "two are removed, and come back in their places",
        ("act", chip(1), {}),
        ("act", "#desk-remove", {CHIPS: ["1 ★1", "2"], SHOWN: ["1 ★1"]}),
        ("act", "#desk-remove", {CHIPS: ["1"], "scramble=": "B2 R D"}),
        ("script", "history.back()", {}),
        ("comes", CHIPS, ["1 ★1", "2"], {SHOWN: ["1 ★1"], "scramble=": "F' L2 U"}),
        ("script", "history.back()", {}),
        ("comes", CHIPS, ["1", "2 ★1", "3"], {SHOWN: ["1"], "scramble=": "R U F"}),
        ("act", chip(2), {}),
    )
    browser.walk(
        tally,
        "one is left",
        ("act", "#desk-remove", {CHIPS: ["1", "2"]}),
        ("act", "#desk-remove", {CHIPS: ["1"], "desk?": False}),
        ("script", "history.back()", {}),
        ("comes", CHIPS, ["1", "2"], {"scramble=": "B2 R D"}),
    )


def copies(tally: Tally, browser: Browser) -> None:
    """All of a desk is a text, which another page takes; what that has of a scramble stays."""
    stub = browser.before_page(NO_CLIPBOARD)
    begin(browser, tally, "a mean")
    browser.walk(
        tally,
        "to be copied",
        ("submit", "own", "D (L)", {}),
        ("comes", "steps", 1, {}),
        ("act", "#keep-line", {}),
        ("script", NOTE, "it's <b>good</b>, 9", {}),
        ("wait", {"return seen('button').filter((each) => each.textContent === 'Copy all').length": 1}),
        ("act", "#copy-desk", {}),
    )
    text = browser.script("return window.copied")
    tally.holds("it shows the scrambles", all(each in text for each in ("1. R U F\n", "2. F' L2 U\n", "3. B2 R D\n")))
    browser.walk(
        tally,
        "another page",
        ("open", {"desk?": False}),
        ("script", PASTE_ALL, text, {}),
        ("comes", CHIPS, ["1 ★1", "2", "3"], {"scramble=": "R U F", "bracketed": "D (L)", KEPT: ["D (L)"]}),
    )
    tally.equal(
        "the note", browser.script("return all('.note-field').map((each) => each.value)"), ["it's <b>good</b>, 9"]
    )
    tally.equal("how many came", browser.hears("on the desk"), "3 scrambles are on the desk.")
    browser.walk(
        tally,
        "a page with one of them",
        ("open", {}),
        ("script", PASTE, "R U F", {}),
        ("submit", "own", "B", {}),
        ("comes", "steps", 1, {}),
        ("act", "#keep-line", {}),
        ("script", PASTE_ALL, text, {}),
        ("comes", CHIPS, ["1 ★2", "2", "3"], {KEPT: ["B", "D (L)"]}),
    )
    tally.equal("how many are new", browser.hears("on the desk"), "2 more scrambles are on the desk.")
    browser.no_longer(stub)


def leads_on_from_a_note(tally: Tally, browser: Browser) -> None:
    """The press that ends a note is one on another scramble, which it leads to."""
    begin(browser, tally, "a note")
    browser.walk(
        tally,
        "a note that is typed",
        ("follow", "#scramble=R_U_F&steps=normal.D_L", {SHOWN: ["1"], "steps": 1}),
        ("act", "#keep-line", {CHIPS: ["1 ★1", "2", "3"]}),
        ("click", ".note-field", {}),
        ("press", "good", {}),
        ("click", chip(2), {}),
        ("comes", "scramble=", "F' L2 U", {SHOWN: ["2"]}),
        ("act", chip(1), {LINES: [["D L", "good"]]}),
    )


def reads_edits(tally: Tally, browser: Browser) -> None:
    """
    Of kept lines that were copied and edited the lines and their notes count, and not the address below them: those that say what was kept stay that, with
    the reduction that they were kept with, unless its moves are others. The address counts if they all say the same.
    """
    copied = """R U F

(B) // (1)

D // (1)
(L) // (1/2)
// a note

F' // EO F/B (1)
(R) // DR U/D (1/2)
// DR U/D 4c4e: 2 normal, 1 inverse

#scramble=R_U_F&kept=normal.D~inverse.L;a_note,inverse.B,normal.F-;;drud-eofb
"""
    same = {"F'": "", "(B)": "", "D (L)": "a note"}
    of_next, edited = ", 1 inverse\n", {"(B)": "", "D (L)": "a note"}
    for what, old, new, scramble, kept in (
        ("nothing", "", "", "R U F", same),
        ("the note", "a note", "R2 // another", "R U F", same | {"D (L)": "R2 // another"}),
        ("a note that is gone", "// a note\n", "", "R U F", same | {"D (L)": ""}),
        ("a note more", "(B) // (1)\n", "(B) // (1)\n// short\n", "R U F", same | {"(B)": "short"}),
        ("the note of a reduction", of_next, of_next + "// better\n", "R U F", same | {"F'": "better"}),
        ("moves", "(B) //", "(B' D) //", "R U F", {"F'": "", "D (L)": "a note", "(B' D)": ""}),
        ("moves at the end", "(L) //", "(L) R //", "R U F", {"F'": "", "(B)": "", "D R (L)": "a note"}),
        ("a line that is gone", "D // (1)\n(L) // (1/2)\n// a note\n\n", "", "R U F", {"F'": "", "(B)": ""}),
        ("a line more", "(B) // (1)\n\n", "(B)\n\nL2\n\n", "R U F", same | {"L2": ""}),
        ("the scramble", "R U F\n\n", "R U F2\n\n", "R U F2", edited | {"F' (R)": ""}),
        ("the reduction", "(R) //", "U' R //", "R U F", edited | {"F' U' R": ""}),
        ("a move of it", "(R) //", "(R') //", "R U F", edited | {"F' (R')": ""}),
        ("a reduction that is gone", "(R) // DR U/D (1/2)\n", "", "R U F", edited | {"F'": ""}),
    ):
        browser.open()
        browser.script(PASTE, copied.replace(old, new) if old else copied)
        tally.holds(f"{what} is edited: as many lines", browser.comes("kept", len(kept)))
        found = dict(browser.script(LINES)), browser.value("scramble"), browser.text("scramble-read")
        tally.equal(f"{what} is edited: lines, scramble, what is left out", found, (kept, scramble, ""))
        stays = "F'" in kept and what != "a reduction that is gone"
        tally.equal(f"{what} is edited: the reduction stays", "drud-eofb" in browser.hash(), stays)
    long = copied.replace("a note", "another") + "\n" * 4096
    browser.walk(
        tally,
        "pasted where they were copied",
        ("open", copied.splitlines()[-1], {}),
        ("script", PASTE_ALL, long, {}),
        ("comes", LINES, [[line, same[line] and "another"] for line in ("F'", "(B)", "D (L)")], {"scramble=": "R U F"}),
    )


def says_what_is_refused(tally: Tally, browser: Browser) -> None:
    """If the browser keeps nothing, that is said, and the desk lasts as long as the page."""
    browser.open()
    stub = browser.before_page(REFUSES)
    said = "This browser keeps nothing of what is done here: take it along by Copy all."
    browser.walk(
        tally,
        "nothing is kept",
        ("reopen", {"desk?": False}),
        ("script", PASTE, MEAN, {}),
        ("comes", CHIPS, ["1", "2", "3"], {"desk-note": said}),
        ("submit", "own", "D", {}),
        ("comes", "steps", 1, {}),
        ("act", "#keep-line", {}),
        ("act", chip(2), {"kept": 0}),
        ("act", chip(1), {"bracketed": "D", KEPT: ["D"], CHIPS: ["1 ★1", "2", "3"]}),
        *(("act", "#desk-remove", {"n #desk-chips a": left, "desk?": left > 0}) for left in (2, 1, 0)),
    )
    browser.no_longer(stub)
    browser.reopen()


def reads_what_is_right(tally: Tally, browser: Browser) -> None:
    """What the browser kept is read as text from outside: what is no sheet is left out, and what is one is shown as text."""
    good = '{"id": 7, "address": "#scramble=R_U&steps=normal.F", "place": null, "written": null, "isDrawn": false}'
    odd = (
        "null",
        "[]",
        "{}",
        "[1, null, [], {}]",
        "[",
        '"x"',
        '[{"id": "1", "address": "#scramble=R"}]',
        '[{"id": 1, "address": "R"}]',
        '[{"id": 1, "address": "#scramble=%"}]',
        '[{"id": 1, "address": "#scramble=R&steps=normal.%3Cb%3E"}]',
        '[{"id": 1, "address": 2}]',
    )
    store = "localStorage.setItem('nissy-desk', arguments[0])"
    for text in odd:
        browser.walk(tally, f"{text}", ("script", store, text, {}), ("reopen", {"desk?": False, CHIPS: []}))
    browser.walk(
        tally,
        "beside a good one",
        ("script", store, f'[{{"id": "x"}}, {good}, 5]', {}),
        ("reopen", {CHIPS: ["1"], "desk?": True}),
        ("act", chip(1), {"scramble=": "R U", "bracketed": "F"}),
    )
    late = '[{"id": 7, "address": "#scramble=R_U", "written": {"text": "R U", "at": 5}}]'
    browser.walk(
        tally,
        "a text that has fewer scrambles",
        ("script", store, late, {}),
        ("reopen", {CHIPS: ["1"]}),
        ("act", chip(1), {"scramble=": "R U"}),
    )
    browser.forget()


def has_room(tally: Tally, browser: Browser) -> None:
    """A hundred scrambles are all that the desk holds; of more it is said that they had no room. On a phone the strip is no wider than the page."""
    browser.open()
    browser.resize(360, 900, True)
    many = "\n".join(f"{at}. {'R U ' * (at % 7)}{'F' if at % 2 else 'B'} {'D L ' * (at // 7)}" for at in range(1, 106))
    browser.walk(
        tally,
        "more than fit",
        ("reopen", {}),
        ("script", PASTE, many, {}),
        (
            "comes",
            "n #desk-chips a",
            100,
            {
                "desk-note": "The desk is full: 5 scrambles had no room.",
                "return document.documentElement.scrollWidth": 360,
            },
        ),
    )
    browser.forget()
    browser.resize()

"""What comes into the field of the scramble at once, by a keyboard or a drop, and what comes back out of a letter that quotes it."""
from attempts import CHIPS, KEPT, SHEET, SHOWN
from browser import Browser
from scrambles import LINES, PASTE_ALL
from tally import Tally

FOCUS = "const field = part('scramble'); field.focus(); field.select()"
# a text that is typed sign by sign, faster than one may pause
TYPE = """const field = part('scramble');
    field.focus();
    for (const sign of arguments[0]) {
        const about = sign === '\\n' ? { inputType: 'insertLineBreak' } : { inputType: 'insertText', data: sign };
        field.dispatchEvent(new InputEvent('beforeinput', about));
        field.value += sign;
        field.dispatchEvent(new InputEvent('input', about));
    }"""
MIDDLE = "const { left, top, width, height } = part('scramble').getBoundingClientRect(); return [left + width / 2, top + height / 2]"
SESSION = """Scrambles of nissy: paste all of this where its page has a scramble.

1. R U F
#scramble=R_U_F&steps=normal.D&kept=normal.D;a_note,inverse.L

2. F' L2 U
#scramble=F-_L2_U&kept=normal.B"""
COPIED = """R U F

D // (1)
// a note

(L) // (1)

#scramble=R_U_F&kept=normal.D;a_note,inverse.L"""
TWO = [["D", "a note"], ["(L)", ""]]
MOVES = "return part('own').value.trim().replace(/ +/g, ' ')"


def insert(browser: Browser, text: str) -> None:
    """By a keyboard that has kept a text, in place of all that is there."""
    browser.script(FOCUS)
    browser.command("Input.insertText", text=text)


def drop(browser: Browser, text: str) -> None:
    """By a finger or a mouse, out of another window."""
    browser.script(FOCUS)
    x, y = browser.script(MIDDLE)
    data = {"items": [{"mimeType": "text/plain", "data": text}], "dragOperationsMask": 1}
    for kind in ("dragEnter", "dragOver", "drop"):
        browser.command("Input.dispatchDragEvent", type=kind, x=x, y=y, data=data)


def takes_all(tally: Tally, browser: Browser) -> None:
    """Several scrambles that come at once are all read, with their steps; so is a session of another page, whole."""
    first = {"scramble=": "R U F", "bracketed": "D", KEPT: ["L2"], SHOWN: ["1 \u26051"]}
    for bring in (insert, drop):
        what = bring.__name__
        browser.open()
        bring(browser, SHEET)
        tally.holds(f"{what}: three scrambles", browser.comes(CHIPS, ["1 \u26051", "2", "3"]))
        browser.walk(tally, what, ("comes", KEPT, ["L2"], first))
        browser.open()
        bring(browser, SESSION)
        tally.holds(f"{what}: a session", browser.comes(LINES, TWO))
        browser.walk(tally, what, ("wait", {CHIPS: ["1 \u26052", "2 \u26051"], "scramble=": "R U F", "bracketed": "D"}))


def begins_anew(tally: Tally, browser: Browser) -> None:
    """A scramble that comes at once in place of another one has a chip of its own, and that one's leads back, also if it only begins like it."""
    browser.open("#scramble=R_U_F_D2_L&kept=normal.D")
    insert(browser, "R U F")
    browser.walk(
        tally, "a beginning", ("comes", CHIPS, ["1 \u26051", "2"], {"scramble=": "R U F", "kept": 0, SHOWN: ["2"]})
    )


def is_typed(tally: Tally, browser: Browser) -> None:
    """What is typed is one scramble, whatever it has below: the others are said to be left out."""
    browser.open()
    browser.walk(
        tally,
        "two scrambles",
        ("script", TYPE, "1. R U F\n2. D L", {}),
        ("comes", "scramble-read", "Left out: 1 other scramble.", {"scramble=": "R U F", "desk?": False}),
    )


def comes_out_of_letters(tally: Tally, browser: Browser) -> None:
    """A session, and what is kept of a scramble, come back whole also if a letter quotes each line, once or again, with words of its own."""
    for quote in ("> ", ">> ", ">", "> > ", "\u00a0> "):
        letter = "".join(f"{quote}{line}\r\n" for line in SESSION.split("\n"))
        browser.open()
        browser.walk(
            tally,
            f"{quote!r}",
            ("script", PASTE_ALL, f"Hello!\r\n\r\nAnna wrote:\r\n{letter}\r\nSee you", {}),
            ("comes", CHIPS, ["1 \u26052", "2 \u26051"], {"scramble=": "R U F", "bracketed": "D", LINES: TWO}),
            ("open", {}),
            ("script", PASTE_ALL, "\n".join(quote + line for line in COPIED.split("\n")), {}),
            ("comes", LINES, TWO, {"scramble=": "R U F", "scramble-fault": "", "scramble-read": ""}),
        )


def takes_lines(tally: Tally, browser: Browser) -> None:
    """Lines that a keyboard brings among moves by hand lose their comments, of which the first would hide the rest; what is left out is said."""
    browser.open("#scramble=R_U_F")
    browser.script("part('own').focus()")
    browser.command("Input.insertText", text="D L // EO\nB2 // DR")
    browser.walk(tally, "two lines", ("comes", MOVES, "D L B2", {"own-read": "Left out: comments."}))

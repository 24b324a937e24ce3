"""What the page says of what can't be read, typed or sent: the engine's own words, and a mark under the column that they name."""
import re
import unicodedata
from pathlib import Path
from urllib.parse import unquote, urlparse

from browser import LAST_STEP_AWAY, Browser
from tally import Tally
from wanted import TITLES, Position, fault_column

NO_MOVE = "\u201c{}\u201d is no move."
ODD_MOVE = "\u201c{0}\u201d is no move: write {1}, {1}2 or {1}'."
# a line, the sign that the fault's column names, one that isn't seen by a sign for it, and what is said; the column comes from the model
LINES = (
    ("R q", "q", NO_MOVE.format("q")),
    ("R U\u2019 F2 q?", "q", NO_MOVE.format("q?")),
    ("\u00e9 R", "\u00e9", NO_MOVE.format("\u00e9")),
    ("R (U (F))", "(", "A bracket stands inside a bracket."),
    ("R U) F", ")", "A bracket is closed that was not opened."),
    ("R (U F", "(", "A bracket isn't closed."),
    ("R " * 256 + "F", "F", "More than 256 moves."),
    ("R2 3Rw", "3", NO_MOVE.format("3Rw")),
    ("R <b>U</b>", "<", NO_MOVE.format("<b>U</b>")),
    ("R' U'\U0001f9e9", "\U0001f9e9", NO_MOVE.format("\U0001f9e9")),
    ("R\tU2\tq", "q", NO_MOVE.format("q")),
    ("R \u202eF2", "\ufffd", NO_MOVE.format("\ufffdF2")),
    ("R U \0F2", "\ufffd", NO_MOVE.format("\ufffdF2")),
    ("R U1", "1", ODD_MOVE.format("U1", "U")),
    ("F-1 R", "-", ODD_MOVE.format("F-1", "F")),
    ("U Ri D", "i", ODD_MOVE.format("Ri", "R")),
    ("U (Rw'2 D)", "2", ODD_MOVE.format("Rw'2", "Rw")),
    ("R Right", "i", NO_MOVE.format("ight")),
    ("R Abracadabrasimsalabim", "A", NO_MOVE.format("Abracadabras\u2026")),
)
# text as solvers write it, the line that is read of it, and what is said to be left out
PASTED = (
    ("R\u00a0U\u2009F2", "R U F2", ""),
    ("R\u200b U\u200b2\ufeff", "R U2", "Left out: signs that aren't seen."),
    ("R\u2032 U\u00b4 F` D\u2019 L\u2018", "R' U' F' D' L'", ""),
    ("R, U'; F2", "R U' F2", "Left out: commas."),
    ("1. R U F2", "R U F2", "Left out: line numbers."),
    ("3) R U F2 // the third", "R U F2", "Left out: comments, line numbers."),
    ("Scramble: R U F2", "R U F2", "Left out: “Scramble:”."),
    ("EO: R U F2", "R U F2", "Left out: labels."),
    ("Final solution : R U F2", "R U F2", "Left out: labels."),
    ("R U // up\nF2", "R U F2", "Left out: comments."),
    # one scramble on several lines, and several of them
    ("R U\nF2\nD L\n", "R U F2 D L", ""),
    ("1. R U\nF2\n2. D L\n", "R U F2", "Left out: 1 other scramble."),
    ("Scramble 1: R U F2\nScramble 2: D\nScramble 3: L\n", "R U F2", "Left out: 2 other scrambles."),
    ("Hello!\n1 R, U F2\n2 D\nE1 L\n", "R U F2", "Left out: 1 line before the scramble, 2 other scrambles, commas."),
)
# a text of several lines with comments: its scramble, its steps, and the candidates after it with their notes
FMC = (
    "2. R' U' F D2 // scramble\nF R' B // EO F/B (3)\n(D R) B2 // (3/6)\n\nL2 D\u2032 // another\n// a note\n\n(U F)\n"
)
# of a long line 24 signs before the fault are shown, and a sign for those before them
MOST_BEFORE = 25
LONG = "R U F' " * 84


def shows_fault(tally: Tally, browser: Browser, name: str, text: str, sign: str, said: str) -> None:
    """The words under a field, the marked sign, and the sign under it."""
    where = f"#{name}-fault"
    browser.until("return !document.querySelector(arguments[0]).hidden", where)
    before = len(text.encode()[: fault_column(text) - 1].decode())
    line, under = browser.texts(f"{where} pre")[0].split("\n")
    unseen = [sign for sign in line if unicodedata.category(sign) in ("Cc", "Cf")]
    is_invalid = browser.script("return part(arguments[0]).ariaInvalid", name)
    tally.equal(
        f"{name}: the words on {text[-30:]!r}, the sign that is marked and where, those that aren't seen, and the field",
        (browser.texts(f"{where} p"), browser.texts(f"{where} mark"), under, unseen, is_invalid),
        ([said], [sign], " " * min(before, MOST_BEFORE) + "^", [], "true"),
    )


def scrambles(tally: Tally, browser: Browser) -> None:
    """Faults of the scramble's field; nothing else can be used meanwhile."""
    browser.open()
    for text, sign, said in LINES:
        browser.fill("scramble", text)
        shows_fault(tally, browser, "scramble", text, sign, said)
        tally.equal("nothing else can be used", browser.script("return part('results').inert"), True)
    browser.walk(tally, "line ends are blanks", ("fill", "scramble", "R\nU\r\nF", {"scramble-fault": ""}))
    tally.equal("a fault goes away", browser.script("return part('results').inert"), False)
    tally.holds("and the table is there", len(browser.cells()) >= 6)


def by_hand(tally: Tally, browser: Browser) -> None:
    """Faults of moves by hand, and what is read of them."""
    for text, sign, said in LINES[:6]:
        browser.script("part('own-fault').hidden = true")
        browser.submit("own", text)
        shows_fault(tally, browser, "own", text, sign, said)
    browser.walk(
        tally,
        "brackets name the sides",
        ("submit", "own", "r (U F2\u2019) x", {}),
        ("comes", "steps", 1, {"bracketed": "L (U F2)"}),
    )


PASTE = """const field = document.querySelector(arguments[0]); field.focus(); field.select();
    const clipboardData = new DataTransfer(); clipboardData.setData('text/plain', arguments[1]);
    field.dispatchEvent(new ClipboardEvent('paste', { clipboardData, bubbles: true, cancelable: true }))"""


def lines_by_hand(tally: Tally, browser: Browser) -> None:
    """Of lines that are pasted among moves by hand the moves are taken, whatever comments stand between; what is left out is said."""
    send = "document.querySelector(arguments[0]).requestSubmit()"
    for end in ("\n", "\r\n"):
        browser.walk(
            tally,
            f"lines that end with {end!r}",
            ("go", "#scramble=R_U", {}),
            ("script", PASTE, "#own", end.join(("R U // EO", "(F2 D) // DR", "")), {"own-read": "Left out: comments."}),
            ("script", send, "#own-form", {}),
            ("comes", "steps", 1, {"bracketed": "R U (F2 D)"}),
        )
    browser.walk(
        tally,
        "by hand",
        ("go", "#scramble=R_U", {}),
        ("submit", "own", "R, U // EO F2", {}),
        ("comes", "steps", 1, {"bracketed": "R U", "own-read": "Left out: comments, commas."}),
        ("act", "#line-list button", {}),
        ("script", PASTE, "#line-list input", "R // one\nD // another", {}),
        ("script", send, "#line-list form", {}),
        ("comes", "bracketed", "R D", {}),
    )


def pasted(tally: Tally, browser: Browser) -> None:
    """Text as solvers write it is read, and what is left out is said."""
    browser.go()
    for text, line, said in PASTED:
        looks = {"scramble-fault": "", "scramble-read": said, "letters normal": Position(line).letters("normal")}
        browser.walk(tally, "pasted", ("fill", "scramble", text, looks))
        kept = browser.script("return decodeURIComponent(location.hash)").split("=")[1].replace("_", " ").split()
        tally.equal(f"{text!r}: what is kept in the address", kept, line.replace("'", "-").split())
    fault = {"#scramble-fault p": [NO_MOVE.format("q'")], "#scramble-fault mark": ["q"]}
    browser.walk(tally, "a fault after what is left out", ("fill", "scramble", "1. R q\u2032", fault))


def pasted_steps(tally: Tally, browser: Browser) -> None:
    """Text with the steps of a solution is read as far as it can be, and what it has besides is kept, with its notes."""
    kept = "kept lines"
    browser.walk(
        tally,
        "a text of steps",
        ("go", {}),
        ("fill", "scramble", FMC, {}),
        ("comes", "kept", 2, {"scramble=": "R' U' F D2", "bracketed": "F R' B B2 (D R)"}),
    )
    tally.equal("what else it has is kept", sorted(browser.look(kept)), ["(U F)", "L2 D'"])
    notes = browser.script("return all('#kept-list .note-field').map((each) => each.value).sort()")
    tally.equal("with its notes", notes, ["", "a note"])
    labels = "Scramble: R' U' F\nEO: D R\nDR after it: (L2) F // note: no\nleave: U\n"
    upto = f"The steps of this text are read up to the line \u201cB R1 L\u201d: {ODD_MOVE.format('R1', 'R')}"
    browser.walk(
        tally,
        "steps",
        ("fill", "scramble", "R' U' F\n\nD R // EO\n(L2) // DR\n", {}),
        ("comes", "steps", 2, {"bracketed": "D R (L2)", kept: ["D R (L2)"]}),
        ("fill", "scramble", labels, {}),
        ("comes", "steps", 3, {"bracketed": "D R F (L2) U", "scramble-read": "Left out: “Scramble:”."}),
        ("fill", "scramble", "R U F2\nD // EO\nB R1 L // DR\nU F\n\nL2\n", {}),
        ("comes", kept, ["L2"], {"alert": f"{upto} Not read after it: \u201cU F\u201d.", "bracketed": "D"}),
    )


POST = "Hi all, my attempt today:\n\nR' U' F D2\nF R' B // EO\n"
# as the browser does it: what the field has no room for is gone
PASTED_LONG = (
    PASTE
    + """; field.value = arguments[1].slice(0, field.maxLength);
    part('results').setAttribute('aria-busy', 'true');
    field.dispatchEvent(new InputEvent('input', { inputType: 'insertFromPaste' }))"""
)


def posts(tally: Tally, browser: Browser) -> None:
    """Prose before a scramble is left out, and so is what the field has no room for; both are said."""
    post = {"scramble=": "R' U' F D2", "bracketed": "F R' B", "scramble-read": "Left out: 1 line before the scramble."}
    long = {"scramble-read": "Left out: comments, what is beyond 4,096 signs."}
    browser.walk(
        tally,
        "a post",
        ("go", {}),
        ("fill", "scramble", POST, {}),
        ("comes", "steps", 1, post),
        ("script", PASTED_LONG, "#scramble", "R U F // " + "n" * 5000, long),
        ("fill", "scramble", "R U F", {"scramble-read": ""}),
    )


def together(tally: Tally, browser: Browser) -> None:
    """A scramble and moves that are each short enough, and too long together, are refused, in words without a place, and can be undone."""
    said = "The scramble and the moves after it can't be read together: they have more than 256 moves."
    browser.walk(
        tally,
        "too long together",
        ("fill", "scramble", LONG, {}),
        ("submit", "own", "R U F D L", {}),
        ("comes", "alert", said, {}),
        ("act", LAST_STEP_AWAY, {"alert": ""}),
    )


def stale(tally: Tally, browser: Browser) -> None:
    """Where the steps of a skeleton can't be read with the scramble, no line and count of an earlier one stands below them, or is copied."""
    shown = "return ['bracketed', 'joined', 'total'].map((name) => part(name).textContent)"
    unread = {"#line-list .moves": ["R", "(U2)"], "#line-list .count": ["", ""], shown: ["R (U2)", "", "…"]}
    for scramble in ("q", "R_U_" * 128):
        browser.walk(
            tally,
            "unread",
            ("go", "#scramble=R_U&steps=normal.F_D", {shown: ["F D", "F D", "2 moves"]}),
            ("go", f"#scramble={scramble}&steps=normal.R~inverse.U2", unread),
        )
    browser.click("#copy-joined")
    tally.holds("what isn't known isn't copied", not browser.look("said").startswith("Copied"))


def starts(tally: Tally, browser: Browser) -> None:
    """A list that an address asks for though its step may not start isn't opened, and that is said."""
    for scramble, step, said in (("F", "drud-eofb", "EO F/B isn't reached"), ("U_R2", "eofb", "it is reached")):
        looks = {
            "alert": f"{TITLES[step]} can't be listed here: {said}.",
            "solutions": "",
            "hash": f"#scramble={scramble}",
        }
        browser.walk(tally, f"{step} can't start", ("go", f"#scramble={scramble}&list={step}.normal.0", looks))


def without_engine(tally: Tally, browser: Browser) -> None:
    """Where the engine can't start the page says so and why it may be, doesn't offer to try again, and shows what was sent."""
    for address, steps in (
        ("", []),
        ("#scramble=R_U-_q", []),
        ("#scramble=R_U-_q&steps=normal.F~inverse.B2", ["F", "(B2)"]),
    ):
        browser.open(address, browser.page_without_engine)
        tally.holds(f"{address}: a missing engine is said", browser.until("return !part('failed').hidden"))
        said = browser.text("failed")
        words = [word in said for word in ("no WebAssembly", "switched off", "Lockdown Mode", "Try again")]
        tally.equal(
            f"{address}: in words, beside what was sent",
            (words, browser.value("scramble"), browser.texts("#line-list .moves")),
            ([True, True, True, False], "R U' q" if address else "", steps),
        )


def unstarted(tally: Tally, browser: Browser) -> None:
    """Where the script may not run, the page says so; where it runs, it doesn't."""
    browser.walk(tally, "the page has started", ("open", {"#unstarted": []}))
    joined = Path(unquote(urlparse(browser.page_without_engine).path))
    forbidden = joined.with_name(f"{joined.name}-forbidden.html")
    forbidden.write_text(re.sub(r"script-src 'sha256-[^']*'", "script-src 'self'", joined.read_text()))
    earlier = browser.complaints()
    browser.load(forbidden.as_uri())
    seen = "return part('unstarted')?.checkVisibility({ visibilityProperty: true }) === true"
    tally.holds("a page that may not start says so", browser.until(seen))
    tally.holds(
        "in words",
        all(word in browser.text("unstarted") for word in ("JavaScript", "Chrome", "Firefox", "Safari", "policy")),
    )
    late = [said for said in browser.complaints() if "Content Security Policy" not in said]
    tally.equal("the console, but for the policy", earlier + late, [])

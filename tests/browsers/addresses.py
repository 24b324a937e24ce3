"""Addresses that nobody's page wrote: each becomes a state of the page or a sentence, and never markup."""
import re
from urllib.parse import quote

from browser import Browser
from tally import Tally
from wanted import SIDES, Position, fault

MARKUP = (
    "<img src=x onerror=window.hit=1>",
    "<script>window.hit=1</script>",
    '"><svg onload=window.hit=1>',
    "javascript:window.hit=1",
    "${window.hit=1}",
)
REFUSED = (
    "#%",
    "#scramble=%",
    "#scramble=%E0%A4%A",
    "#scramble=%FF",
    "#scramble",
    "#scramble=R=U",
    "#__proto__=R",
    "#constructor=R",
    "#steps=R",
    "#steps=normal.",
    "#steps=normal.R~",
    "#steps=up.R",
    "#steps=normal.R.U",
    "#steps=normal.%3Cb%3E",
    "#steps=normal.q",
    "#steps=normal.R_2",
    "#steps=inverse.R)_(U",
    "#steps=" + "~".join(["normal.R"] * 257),
    "#steps=normal." + "_".join(["R"] * 257),
    "#side=__proto__",
    "#side=Normal",
    "#longer=4",
    "#longer=",
    "#longer=toString",
    "#list=eofb.normal",
    "#list=eofb.normal.4",
    "#list=eofb.normal.-1",
    "#list=toString.normal.0",
    "#list=eofb.constructor.0",
    "#list=eofb.normal.0.0",
    "#list=eofb.normal.0.all.all",
    "#kept=R",
    "#kept=normal.R;a;b",
    "#kept=normal.R;a;eofb",
    "#kept=normal.R;a;toString",
    "#kept=normal.R;a;drud-eofb;b",
    "#kept=normal.R,",
    "#kept=normal.q",
    "#kept=normal.R;" + "a" * 81,
    "#kept=" + ",".join(["normal.R"] * 25),
    "#scramble=" + "R_" * 2100,
    "#scramble=" + "R_" * 500_000,
    "#" + "&" * 1_000_000,
)
REFUSALS = ("Left out of this address: ", "This address is too long", "The steps of this address can't be read")
# an address of which a part is left out, what is said of that, and what else it says stays
LEFT_OUT = (
    ("#scramble=R_U&", "", "R U", ""),
    ("#scramble=R_U&utm_source=chat", "utm_source (unknown)", "R U", ""),
    ("#utm_source=a&scramble=R_U&steps=normal.F&fbclid=b", "utm_source (unknown), fbclid (unknown)", "R U", "F"),
    ("#scramble=R&toString=1", "toString (unknown)", "R", ""),
    ("#scramble=R&scramble=F", "scramble (said twice)", "R", ""),
    ("#scramble=R&steps=normal.F~normal.q", "steps (not steps)", "R", ""),
    ("#scramble=R&side=up&steps=normal.F", "side (no side)", "R", "F"),
    ("#scramble=R&list=eofb.normal.9&steps=inverse.F", "list (no list)", "R", "(F)"),
    ("#scramble=R&kept=normal.q", "kept (not steps)", "R", ""),
    ("#scramble=R&longer=9", "longer (no number of moves)", "R", ""),
    (
        "#scramble=R&" + "&".join(f"a{at}=1" for at in range(9)),
        ", ".join(f"a{at} (unknown)" for at in range(5)) + " and 4 more",
        "R",
        "",
    ),
    ("#scramble=R&" + "x" * 99 + "=1", "x" * 24 + "\u2026 (unknown)", "R", ""),
)
ELEMENTS = "return all('*').filter((each) => !each.closest('#steps-body, pre')).length"
UNHARMED = (
    f"const count = (() => {{ {ELEMENTS} }})(); return [window.hit === undefined && ({{}}).hit === undefined, count]"
)


def is_shown(tally: Tally, browser: Browser, what: str, *made: str) -> None:
    """Both nets are those of a scramble and the moves after it."""
    tally.equal(what, [browser.letters(side) for side in SIDES], [Position(*made).letters(side) for side in SIDES])


def markup(tally: Tally, browser: Browser) -> None:
    """Markup as a scramble is text in the field and in the engine's words; no script runs, and no element comes but that for the words."""
    browser.open("#scramble=q")
    elements = browser.script(ELEMENTS)
    for text in MARKUP:
        browser.open("#scramble=" + quote(text, safe=""))
        # what stands before a colon is a label, and left out
        word = re.split(r"[\s()]", text.removeprefix("javascript:"))[0]
        shown = word if len(word) <= 12 else word[:12] + "\u2026"
        tally.equal(
            f"{text}: the field and the words on it",
            (browser.value("scramble"), browser.texts("#scramble-fault p")),
            (text, [f"\u201c{shown}\u201d is no move."]),
        )
        tally.equal(f"{text}: nothing ran or came", browser.script(UNHARMED), [True, elements])


def refused(tally: Tally, browser: Browser) -> None:
    """What is no state: the page is empty, says so, and works. No line is named, since none is seen."""
    browser.open()
    elements = browser.script(ELEMENTS)
    for address in REFUSED:
        what = address if len(address) < 60 else f"{address[:30]}.. ({len(address)} signs)"
        if address in (REFUSED[0], REFUSED[-1]):
            browser.open(address)
        browser.go(address)
        said = browser.text("alert")
        tally.holds(f"{what} is refused in words: {said}", said.startswith(REFUSALS) and "nissy: line" not in said)
        tally.equal(f"{what}: no scramble, and no step", (browser.value("scramble"), browser.look("steps")), ("", 0))
        tally.equal(f"{what}: nothing ran or came", browser.script(UNHARMED), [True, elements])


def left_out(tally: Tally, browser: Browser) -> None:
    """What an address says beside what the page reads is left out, and named; the rest is shown."""
    for address, names, scramble, line in LEFT_OUT:
        said = f"Left out of this address: {names}." if names else ""
        browser.walk(tally, "left out", ("go", address, {"alert": said, "scramble=": scramble, "bracketed": line}))


def changed(tally: Tally, browser: Browser) -> None:
    """An address that is changed while the page is open; any text of the field comes back from it."""
    browser.go("#scramble=R_U")
    browser.go("#scramble=F_B&steps=inverse.R")
    is_shown(tally, browser, "another address", "F B", "", "R")
    browser.fill("scramble", "F\u2019 - _ % & = ~ . # \u00e9 \U0001f9e9")
    text = browser.value("scramble")
    browser.open(browser.hash())
    tally.equal("any text comes back from the address", browser.value("scramble"), text.replace("\u2019", "'"))


def line_ends(tally: Tally, browser: Browser) -> None:
    """Line ends in an address are blanks, as they are in the field: nothing after them is left out, and a fault is on one line."""
    for end in ("%0A", "%0D", "%0D%0A", "_%0A%0A_"):
        browser.go(f"#scramble=R{end}U{end}F2{end}&steps=inverse.D")
        is_shown(tally, browser, f"{end}: the nets", "R U F2", "", "D")
        tally.equal(f"{end}: the field", browser.value("scramble").split(), ["R", "U", "F2"])
        text = "R" + re.sub("%0[AD]|_", " ", end) + "q"
        tally.holds(f"{end}: the program has a fault there too", fault(text).endswith("not a move"))
        looks = {"#scramble-fault p": ["\u201cq\u201d is no move."], "#scramble-fault mark": ["q"]}
        browser.walk(tally, "a fault after it", ("go", f"#scramble=R{end}q", looks))


def longest(tally: Tally, browser: Browser) -> None:
    """As many moves as a line may have, each by itself in brackets, come back from the address."""
    looks = {"alert": "", "scramble-fault": "", "letters normal": Position("(Rw2') " * 255 + "(F)").letters("normal")}
    browser.walk(tally, "the longest", ("go", "#scramble=" + "(Rw2-)_" * 255 + "(F)", looks))


def has_no_room(tally: Tally, browser: Browser) -> None:
    """What outgrows the address stays on the page, which says so; the address stays one that is read, and follows once there is room."""
    note = """const it = all('.note-field')[23]; it.value = arguments[0]; it.dispatchEvent(new Event('change'))"""
    lines = ["normal." + "_".join(["R", "U"] * at) + ";" + quote("\u754c" * 80) for at in range(16, 40)]
    address = "#scramble=R&kept=" + ",".join(lines).rsplit(";", 1)[0]
    tally.holds(f"there is room for less than a note: {len(address)}", 19_280 < len(address) < 20_000)
    said = {"alert": "The address of the page has no room for all of this, and stays as it was.", "hash": address}
    browser.walk(
        tally,
        "no room",
        ("go", address, {}),
        ("script", note, "\u754c" * 80, said),
        ("load", {"alert": "", "kept": 24}),
        ("script", note, "\u754c" * 80, said),
        ("script", note, "a", {"alert": "", "hash": address + ";a"}),
    )


def overtaken(tally: Tally, browser: Browser) -> None:
    """What is done on a page while another address is read belongs to what is seen: the address and the page say the same."""
    act = """addEventListener('hashchange', () => document.querySelector(arguments[0]).click(), { once: true });
        part('results').setAttribute('aria-busy', 'true');
        location.hash = '#scramble=F_B&steps=inverse.R'"""
    for button, rest in (("#switch", "&side=inverse"), ('[data-cell="eofb.inverse"]', "&list=eofb.inverse.0")):
        looks = {
            "hash": "#scramble=R_U_F" + rest,
            "scramble=": "R U F",
            "steps": 0,
            "letters normal": Position("R U F").letters("normal"),
        }
        browser.walk(tally, button, ("open", "#scramble=R_U_F", {}), ("script", act, button, looks))
    tally.equal("and its list", browser.listed(), Position("R U F").rows("eofb", "inverse"))

#!/usr/bin/python3
"""Compares what the page shows in Chromium, Firefox and WebKit, as far as they are here: the text of each card and the letters of the nets
as they are seen, and what assistive technology is told that buttons and fields are called. WebKit needs a display.

    tests/browsers/alike.py PAGE
"""
import json
import sys
import tempfile
from pathlib import Path

sys.path.insert(0, str(Path(__file__).resolve().parent.parent))

from net import letters_of, stickers_of
from tally import Tally, side_by_side
from wanted import SIDES
from window import DONE, Window
from windows import BROWSERS, is_here

SCRAMBLE = "#scramble=R-_U-_F_D2_L2_F_R2_U2_R2_B_D2_L_B2_D-_B2_L-_R-_B-_D2_B2_R-_U-_F"
BOTH = SCRAMBLE + "&steps=inverse.B_D_R_F2_B_D~normal.R_B-"
FIELD = "const field = document.querySelector('%s'); field.value = '%s';"
PRESS = "document.querySelector(%r).click();"
# longer continuations are looked for by themselves only while the page is seen
UNSEEN = """Object.defineProperty(document, "hidden", { value: true });
    document.dispatchEvent(new Event("visibilitychange"))"""
# what is looked at: a name, an address, and what is done there
STATES = (
    ("empty", "", ""),
    ("a scramble", SCRAMBLE, ""),
    ("an EO that is taken", SCRAMBLE + "&steps=normal.R-_U_F-_R_L", ""),
    ("both sides", BOTH, ""),
    ("an open list", "#scramble=R_U_F_D2_L-_B&list=eorl.normal.1", ""),
    (
        "the best with one move more",
        "#scramble=R_U_F",
        FIELD % ("#best-slack", "1") + "field.dispatchEvent(new Event('change'))",
    ),
    ("kept lines", BOTH + "&kept=inverse.B_D_R_F2_B_D;a_note,normal.R-_U_F-_R_L", ""),
    ("a fault", "#scramble=R_U", FIELD % ("#scramble", "R U q F") + "field.dispatchEvent(new Event('input'))"),
    (
        "several scrambles",
        "#scramble=R_U",
        FIELD % ("#scramble", "1. R U F\\n2. D L") + "field.dispatchEvent(new Event('input'))",
    ),
    ("a line that is too long", "#scramble=" + "_".join(["R", "U"] * 129), ""),
    ("a solved cube", "#scramble=R_U&steps=normal.U-_R-", ""),
    ("a reduction", BOTH + "~normal.D2_R", ""),
    (
        "an edit",
        BOTH,
        PRESS % "#line-list button" + FIELD % ("#line-list input", "(B D)") + "field.form.requestSubmit()",
    ),
    ("an undo", BOTH, PRESS % "#line-list li:last-child .acts button:nth-child(2)"),
    ("a step that goes to the other side", BOTH, PRESS % "#line-list li button:last-child"),
)
# wide, with all of them, and as a phone has it, with these
SIZES = {(1280, 1000): range(len(STATES)), (520, 900): (0, 4, 6)}
CARDS = """
    const plain = (text) => text.replace(/\\s+/g, " ").trim();
    const parts = [...document.querySelectorAll("header, .bar, .alert, .card, footer")].filter((each) => each.checkVisibility());
    // what a browser's text of a part has, and another's has not, is compared by itself: the choices of a field in Chromium, the letters of
    // a net with blanks between them, what is there for screen readers alone, which WebKit leaves out, and what is pressed in a step, before
    // which it has no blank
    const others = [...document.querySelectorAll("select, .net, .unseen, #line-list .acts")];
    for (const each of others) each.style.visibility = "hidden";
    const texts = parts.map((each) => [each.id || each.localName, plain(each.innerText)]);
    for (const each of others) each.style.visibility = "";
    return Object.fromEntries(texts)"""
# the fields with what they hold, and what is pressed, as the page says it itself
CONTROLS = """
    const seen = [...document.querySelectorAll("button, input, select, textarea, summary")].filter((each) => each.checkVisibility());
    return seen.map((each) => [each.localName, each.id, each.ariaLabel, [...(each.labels ?? [])].map((label) => label.textContent).join(),
        each.localName === "button" || each.localName === "summary" ? each.textContent : each.value, each.ariaPressed, each.disabled,
        [...(each.options ?? [])].map((option) => option.textContent.trim()).join()])"""
# what the page's own policy refuses it
REFUSED = (
    "window.refused = []; addEventListener('securitypolicyviolation', (event) => window.refused.push(event.blockedURI))"
)
# goes to an address, if the page is open, as if nothing had been done on it before
GO = """const [results, slack, before] = [document.getElementById("results"), document.getElementById("best-slack"), location.hash];
    if (results === null) return true;
    document.activeElement?.blur();
    if (slack.value !== "0") { slack.value = "0"; slack.dispatchEvent(new Event("change")); }
    localStorage.removeItem("nissy-desk");
    location.hash = %s;
    if (location.hash !== before) results.setAttribute("aria-busy", "true")"""
DRAWN = """
    const seen = [...document.querySelectorAll(".net, table, .unseen:not(#status)")].filter((each) => each.checkVisibility());
    return seen.map((each) => [each.ariaLabel ?? each.caption?.textContent, each.localName === "table" ? "" : each.textContent])"""


def waits(window: Window, text: str, address: str) -> None:
    """Waits until a script answers with true, or stops, with what isn't so and what the page says then."""
    if not window.until(text):
        busy = "return [...document.querySelectorAll('[aria-busy=true], .alert:not([hidden])')].map((each) => `${each.id}: ${each.innerText}`)"
        raise TimeoutError(f"at {address} this doesn't come: {text}; the page shows {window.script(busy)}")


def shown(window: Window, page: str, address: str, act: str) -> dict[str, object]:
    """What a window shows of a state, once all is answered: the first is loaded, and the page that is open goes to the others."""
    if window.script(GO % json.dumps(address)):
        window.open(page + address)
        window.script(REFUSED)
        # the page sets its fields once its scripts run, in WebKit after that
        waits(window, DONE, address)
        # so that none of them is further than another
        window.script(UNSEEN)
    waits(window, DONE, address)
    if act != "":
        before = window.script("return location.hash")
        window.script(act)
        if "best-slack" not in act:
            waits(window, f"return location.hash !== {json.dumps(before)}", f"{address} after {act}")
        waits(window, DONE, f"{address} after {act}")
    nets = [letters_of(window.script(stickers_of(side))) for side in SIDES]
    shows = {"cards": window.script(CARDS), "controls": window.script(CONTROLS), "drawn": window.script(DRAWN)}
    return {**shows, "nets": nets, "refused": window.script("return window.refused")}


def all_shown(browser: str, page: str) -> list[dict[str, object]]:
    """What a browser shows of each state, by its sizes; and what its own accessibility tree calls the controls of one."""
    found = []
    with tempfile.TemporaryDirectory(ignore_cleanup_errors=True) as room:
        window = BROWSERS[browser](room)
        try:
            for size, chosen in SIZES.items():
                window.resize(*size)
                found += [shown(window, page, address, act) for _, address, act in map(STATES.__getitem__, chosen)]
            found.append({"labels": window.labels("button, input, select, textarea, progress")})
        finally:
            window.end()
    return found


def compare(
    tally: Tally, browser: str, other: str, found: dict[str, object], wanted: dict[str, object], what: str
) -> None:
    """Each part of what two browsers show."""
    tally.equal(f"{what}: {browser} has the parts of {other}", sorted(found), sorted(wanted))
    for name, part in wanted.items():
        one = found.get(name)
        if isinstance(part, dict) and isinstance(one, dict):
            compare(tally, browser, other, one, part, f"{what}, {name}")
        elif isinstance(part, list) and isinstance(one, list):
            differ = [(mine, its) for mine, its in zip(one, part) if mine != its]
            tally.equal(f"{what}, {name}: {browser} beside {other}", (len(one), differ), (len(part), []))
        else:
            tally.equal(f"{what}, {name}: {browser} beside {other}", one, part)


def main() -> None:
    """All browsers at once."""
    tally = Tally()
    page = Path(sys.argv[1]).resolve().as_uri()
    here = [name for name in BROWSERS if is_here(name)]
    found = dict(zip(here, side_by_side(tally, 2, lambda name: all_shown(name, page), here)))
    names = [f"{STATES[at][0]}, {width} points" for (width, _), chosen in SIZES.items() for at in chosen] + [
        "in the tree"
    ]
    for browser in here[1:]:
        for what, one, other in zip(names, found[browser], found[here[0]]):
            compare(tally, browser, here[0], one, other, what)
    tally.holds("there are browsers to compare", len(here) > 1)
    several = next(at for at, (name, _, _) in enumerate(STATES) if name == "several scrambles")
    silent = [name for name in here if "Left out: 1 other scramble." not in str(found[name][several])]
    tally.equal("browsers that don't say that a scramble was left out", silent, [])
    # those of a scramble; of less than a net it is said how many stickers there are
    tally.equal("browsers without nets", [name for name in here if "stickers" in str(found[name][1]["nets"])], [])
    tally.end()


if __name__ == "__main__":
    main()

"""Text of twice the size, wider spacing, and windows that are very narrow or wide: nothing is cut, nothing stands on something else, and
nothing is beyond the window."""
from best import LONGER, address_of
from browser import Browser
from compared import EO, KEPT, LAST, OTHER, chooses
from looks import ADDRESS, SCRAMBLE
from tally import Tally

STATES = (
    ("empty", ""),
    ("a scramble", SCRAMBLE),
    ("all cards", ADDRESS),
    ("an EO", SCRAMBLE + "&steps=inverse.B_D_R_F2_B_D"),
    ("a fault", "#scramble=R_U_q_" + "_".join("F" * 60)),
    ("a list", SCRAMBLE + "&list=eorl.inverse.1"),
    ("a DR", SCRAMBLE + "&steps=inverse.B_D_R_F2_B_D~normal.R_B-~normal.D2_R"),
)
# what is beyond the window, cut, or on something else: the text of each line, by its middle, since the heights of lines may meet; a line
# that shows only its end is meant to be cut
BROKEN = """
    const seen = (node) => node.checkVisibility({ visibilityProperty: true })
        && !node.closest(".unseen, .skip, pre, [popover], option");
    const nodes = all("body *").filter(seen);
    const said = (node) => `${node.localName}#${node.id}.${node.className?.baseVal ?? node.className}: ${node.textContent.trim().slice(0, 30)}`;
    const far = nodes.filter((node) => {
        const { left, right, width } = node.getBoundingClientRect();
        return width > 0 && (right > document.documentElement.clientWidth + 1 || left < -1);
    });
    const isCut = (node) => node.scrollWidth > node.clientWidth + 1 && getComputedStyle(node).overflowX !== "visible";
    const cut = nodes.filter((node) => isCut(node) && !node.matches(".bar .moves, .fold .moves, input, select, textarea"));
    const lines = nodes.flatMap((node) => [...node.childNodes].filter((each) => each.nodeType === 3 && each.data.trim() !== ""
        && !node.closest(".net, .bar .moves, .fold .moves")).flatMap((each) => {
        const range = document.createRange();
        range.selectNodeContents(each);
        return [...range.getClientRects()].map(({ left, right, top, bottom }) =>
            ({ node, left: left + 1, right: right - 1, top: top + (bottom - top) / 4, bottom: bottom - (bottom - top) / 4 }));
    }));
    const isOn = (one, other) => one.left < other.right && other.left < one.right && one.top < other.bottom && other.top < one.bottom;
    const on = lines.flatMap((one, at) => lines.slice(at + 1).filter((other) => other.node !== one.node && isOn(one, other))
        .map((other) => `${said(one.node)} | ${said(other.node)}`));
    return [document.documentElement.scrollWidth <= document.documentElement.clientWidth, far.map(said), cut.map(said), on]"""
# text of twice the size, by the reader's choice; and its spacing as a reader may set it, by WCAG 1.4.12
LARGE = "html { font-size: 200% !important }"
SPACED = """body, body * { line-height: 1.5 !important; letter-spacing: 0.12em !important; word-spacing: 0.16em !important }
    p { margin-bottom: 2em !important }"""
STYLE = "const sheet = new CSSStyleSheet(); sheet.replaceSync(arguments[0]); document.adoptedStyleSheets = [sheet]"
# a name, the width of the window, and the style of the reader
SIZES = (
    ("twice the text", 360, LARGE),
    ("a zoom of 200", 180, ""),
    ("spaced", 360, SPACED),
    ("spaced", 390, SPACED),
    ("spaced", 1280, SPACED),
    ("narrow", 320, ""),
    ("wide", 2560, ""),
)


def at_each_size(tally: Tally, browser: Browser, state: str, broken: str = BROKEN) -> None:
    """At each size the page doesn't scroll sideways, and nothing is beyond the window, cut, or on something else."""
    for name, width, style in SIZES:
        browser.resize(width, 800)
        browser.script(STYLE, style)
        browser.until("return innerWidth === arguments[0]", width)
        is_within, far, cut, on = browser.script(broken)
        tally.equal(f"{name} at {width} points, {state}", (is_within, far[-3:], cut[-3:], on[:3]), (True, [], [], []))


def is_whole(tally: Tally, browser: Browser) -> None:
    """So it is in each state."""
    browser.resize(360, 800)
    for state, address in STATES:
        browser.open(address)
        browser.wait_best()
        at_each_size(tally, browser, state)


def compared_lines(tally: Tally, browser: Browser) -> None:
    """Lines that are compared stand before the page, and each is whole."""
    browser.resize(360, 800)
    browser.open(address_of(LONGER) + KEPT)
    browser.wait_best()
    browser.until("return all('#kept-list .total').every((each) => each.textContent !== '')")
    chooses(browser, EO, OTHER, LAST)
    browser.click("#kept-compare")
    tally.holds("they come", browser.until("return part('comparison').open"))
    at_each_size(tally, browser, "compared lines", BROKEN.replace('all("body *")', 'all("#comparison *")'))

"""How the page looks and what it is called: contrast in light and dark, names, themes, print, help."""
import re
from collections import Counter

from browser import WORDS, Browser, Keys
from tally import Tally

SCRAMBLE = "#scramble=R-_U-_F_D2_L2_F_R2_U2_R2_B_D2_L_B2_D-_B2_L-_R-_B-_D2_B2_R-_U-_F"
KEPT = "&kept=inverse.B_D_R_F2_B_D;a_note,normal.R-_U_F-_R_L"
ADDRESS = SCRAMBLE + "&steps=inverse.B_D_R_F2_B_D~normal.R_B-&side=inverse&list=eofb.inverse.1" + KEPT
# the least contrast of all text that is seen, with the text; what can't be used meanwhile doesn't count
CONTRAST = """
    const channels = (text) => text.match(/[\\d.]+/g).map(Number);
    const bright = (part) => part <= 0.04045 ? part / 12.92 : ((part + 0.055) / 1.055) ** 2.4;
    const light = ([r, g, b]) => 0.2126 * bright(r / 255) + 0.7152 * bright(g / 255) + 0.0722 * bright(b / 255);
    const behind = (node) => {
        if (node === null) return [255, 255, 255];
        if (node.matches("g.sticker")) return channels(getComputedStyle(node.firstChild).fill);
        const ground = channels(getComputedStyle(node).backgroundColor);
        return ground.length === 3 || ground[3] === 1 ? ground : behind(node.parentElement);
    };
    const found = [];
    const seen = all("body *").filter((node) => node.checkVisibility() && !node.closest("[inert]"));
    for (const node of seen) {
        const words = [...node.childNodes].filter((each) => each.nodeType === 3).map((each) => each.data.trim()).join("");
        if (words === "" && !node.matches("textarea, input")) continue;
        const own = getComputedStyle(node);
        const text = light(channels(node.ownerSVGElement ? own.fill : own.color));
        const ground = light(behind(node.ownerSVGElement ? node.parentElement : node));
        found.push([(Math.max(text, ground) + 0.05) / (Math.min(text, ground) + 0.05), words]);
    }
    return [found.length, ...found.sort((one, other) => one[0] - other[0])[0]]"""
# the buttons and fields without a name, and how many there are
NAMELESS = ("button", "textbox", "combobox", "img", "progressbar", "searchbox", "checkbox", "table", "region")
WIDE = """
    const far = all("body *").filter((node) => node.checkVisibility() && !node.closest(".unseen, .scrolled, pre")
        && node.getBoundingClientRect().right > document.documentElement.clientWidth + 0.5);
    return [innerWidth, document.documentElement.scrollWidth <= innerWidth, far.map((node) => node.outerHTML.slice(0, 80))]"""


def is_legible(tally: Tally, browser: Browser, what: str) -> None:
    """The contrast of every text that is seen."""
    count, least, words = browser.script(CONTRAST)
    tally.holds(f"{what}: there is text", count > 15)
    tally.holds(f"{what}: the least contrast is {least:.2f}, of {words!r}", least >= 4.5)


def is_named(tally: Tally, browser: Browser, what: str) -> None:
    """What assistive technology is told of each control."""
    nodes = [
        (node.get("role", {}).get("value"), node.get("name", {}).get("value", ""))
        for node in browser.command("Accessibility.getFullAXTree")["nodes"]
        if not node.get("ignored")
    ]
    controls = [(role, name) for role, name in nodes if role in NAMELESS]
    tally.holds(f"{what}: there are controls", len(controls) > 30)
    tally.equal(f"{what}: controls without a name", [role for role, name in controls if not name.strip()], [])
    tally.equal(
        f"{what}: buttons of one word", [name for _, name in controls if name in ("Use", "Add", "Copy", "?")], []
    )
    texts = Counter(name for role, name in nodes if role == "StaticText")
    # a move that stands between two cases is a letter too
    texts -= Counter(browser.script("return [...document.querySelectorAll('.passed')].map((it) => it.textContent)"))
    tally.equal(
        f"{what}: letters of stickers beside the label of their net, and what only explains a colour",
        [text for text in texts if text in ("shortest", *"URFDLB")],
        [],
    )
    pressed = [name for role, name in controls if role == "button"]
    tally.equal(f"{what}: moves that are said with an apostrophe", [name for name in pressed if "'" in name], [])
    tally.holds(f"{what}: moves that are said", any(" prime" in name for name in pressed))
    tally.holds(f"{what}: the shortest are said to be", any(name.endswith(", shortest") for name in pressed))
    tables = {name for role, name in nodes if role == "table"}
    tally.holds(
        f"{what}: the tables' names are without help: {tables}",
        {"Best ways on, by all moves", "Shortest next steps"} <= tables,
    )


def has_its_words(tally: Tally, browser: Browser, what: str) -> None:
    """What is pressed by the voice is called as it is seen: the words on a button are in its name. Moves and signs aren't said so."""
    pairs = browser.script(
        """return all('button[aria-label]:not(.take, .help, .moves)')
        .filter((each) => each.checkVisibility() && /[a-z]{2}/i.test(each.innerText)).map((each) => [each.innerText, each.ariaLabel])"""
    )
    tally.holds(f"{what}: there are words", len(pairs) > 10)
    plain = [[re.sub(r"[\s,]+", " ", words).lower() for words in pair] for pair in pairs]
    tally.equal(f"{what}: words that aren't in the name", [pair for pair in plain if pair[0] not in pair[1]], [])


def is_bordered(tally: Tally, browser: Browser, what: str) -> None:
    """The contrast of the borders of what is pressed to the ground of its card."""
    found = browser.script(
        CONTRAST.split("const found")[0]
        + """
        const shown = all(
            "#steps .cell, #steps .help, #best-body .take, #solutions .take, #theme, #own, #line .quiet");
        return shown.filter((node) => node.checkVisibility()).map((node) => {
            const own = getComputedStyle(node);
            if (own.borderTopColor === "rgba(0, 0, 0, 0)") return [99, node.className];
            const [line, ground] = [light(channels(own.borderTopColor)), light(behind(node.parentElement))];
            return [(Math.max(line, ground) + 0.05) / (Math.min(line, ground) + 0.05), node.className || node.id];
        })"""
    )
    tally.holds(f"{what}: there are borders", len(found) > 30)
    tally.equal(f"{what}: borders of less than 3", [each for each in found if each[0] < 3], [])


def fits(tally: Tally, browser: Browser, what: str) -> None:
    """Nothing stands beyond the window."""
    tally.equal(f"{what}: it fits", browser.script(WIDE), [360, True, []])


def in_both_colours(tally: Tally, browser: Browser) -> None:
    """At 360 points, light and dark."""
    browser.resize(360, 800)
    browser.open(ADDRESS)
    browser.wait_best()
    for colours in ("light", "dark"):
        browser.media(prefers_color_scheme=colours)
        browser.until("return document.getAnimations().length === 0")
        for part in (is_legible, is_bordered, is_named, has_its_words, fits):
            part(tally, browser, colours)


def is_told_apart(tally: Tally, browser: Browser) -> None:
    """Where the system forces its colours, the open cell and the shortest ones still differ from the others."""
    browser.media(forced_colors="active")
    seen = """const kinds = ["[aria-pressed=true]", ".least:not([aria-pressed=true])", ":not(.least, [aria-pressed=true])"];
    return kinds.map((kind) => {
        const own = getComputedStyle(document.querySelector(`#steps-body .cell${kind}`));
        return [own.backgroundColor, own.outlineStyle].join();
    })"""
    tally.equal("kinds of cells that are told apart", len(set(browser.script(seen))), 3)
    browser.media(prefers_color_scheme="light")


def begins(tally: Tally, browser: Browser) -> None:
    """Before the first answer, and with a fault, there are no empty nets, and no welcome beside a scramble."""
    seen = "return ['cube', 'welcome', 'best'].map((name) => part(name).checkVisibility())"
    raw = "return all('.sticker').filter((each) => !each.dataset.colour).length"
    browser.walk(
        tally,
        "with a fault, and without a scramble",
        ("open", "#scramble=R_q", {seen: [False, False, False]}),
        ("open", {seen: [False, True, False], raw: 0}),
        # nor is the solved cube of an empty page there, dimmed
        ("fill", "scramble", "R q", {seen: [False, False, False]}),
        ("fill", "scramble", "R", {"cube?": True}),
    )
    # a tint for the mouse is only where there is one that hovers: on a phone it would stick
    rules = browser.script(
        """const rules = [...document.styleSheets].flatMap((sheet) => [...sheet.cssRules]);
        const hovering = (list) => list.filter((rule) => rule.selectorText?.includes(':hover')).map((rule) => rule.selectorText);
        const media = rules.filter((rule) => rule.media?.mediaText === '(hover: hover)');
        return [hovering(rules), hovering(media.flatMap((rule) => [...rule.cssRules]))]"""
    )
    tally.equal("rules for hovering without such a mouse", rules[0], [])
    tally.holds("rules for hovering with one", len(rules[1]) > 0)
    browser.open("#scramble=R", browser.page_without_engine)
    browser.until("return !part('failed').hidden")
    tally.equal("before an answer, and without an engine", browser.script(seen)[:2], [False, False])


def prints(tally: Tally, browser: Browser) -> None:
    """A printed sheet has the scramble, the line and what is kept, and nothing that is pressed, cut, or without rows."""
    browser.open(ADDRESS)
    browser.wait_best()
    browser.media("print")
    pressed = """return seen("button, select, input, summary").filter((each) => !each.matches(".cell, .take, .note-field"))
        .map((each) => each.id || each.className)"""
    printed = {f"{name}?": True for name in ("scramble", "net-normal", "line-list", "kept-list", "bracketed")}
    gap = "const [room, rows] = ['rows', 'table'].map((name) => part(`best-${name}`).offsetHeight); return room - rows"
    cut = """return seen('main *').filter((each) => !each.matches('.unseen') && each.scrollHeight > each.clientHeight + 4
        && getComputedStyle(each).overflowY !== 'visible').map((each) => each.id)"""
    first = """const tops = seen('main .card').map((each) => [each.getBoundingClientRect().top, each.id]);
        return tops.sort(([one], [other]) => one - other).map(([, name]) => name).slice(0, 2)"""
    browser.walk(
        tally,
        "a sheet",
        ("wait", {first: ["scramble-card", "line"]}),
        ("wait", printed | {pressed: []}),
        ("resize", 794, 1123, {gap: 0}),
        ("resize", 360, 800, {cut: []}),
    )
    browser.media(prefers_color_scheme="light")


def themes(tally: Tally, browser: Browser) -> None:
    """Its colours are chosen among what a class needs, and are kept."""
    ground = "return getComputedStyle(document.body).backgroundColor"
    browser.walk(
        tally,
        "beside what covers moves",
        ("wait", {"theme?": False}),
        ("click", "[popovertarget=help-keys]", {"theme?": True, "cover?": True}),
        ("press", Keys.ESCAPE, {"theme?": False}),
    )
    light = browser.script(ground)
    browser.choose("theme", "dark")
    dark = browser.script(ground)
    tally.holds(f"dark: {light}, {dark}", light != dark)
    browser.open(ADDRESS)
    tally.equal("it is kept", browser.script(ground), dark)
    browser.choose("theme", "")
    tally.equal("as the system has it", browser.script(ground), light)


def helps(tally: Tally, browser: Browser) -> None:
    """Each help opens by the keyboard, fits, is said, and closes."""
    seen = "seen('[popovertarget]')"
    buttons = browser.script(f"return {seen}.map((each) => each.ariaLabel)")
    tally.holds("there is help", len(buttons) >= 6)
    for name in buttons:
        browser.script("document.querySelector(`[popovertarget][aria-label='${arguments[0]}']`).focus()", name)
        browser.press(Keys.ENTER)
        tally.holds(f"{name} opens", browser.until("return all('.popover:popover-open').length === 1"))
        fits(tally, browser, name)
        words = " ".join(browser.texts(".popover:popover-open")[0].split())
        tally.equal(f"{name} is said", browser.hears(words), words)
        browser.press(Keys.ESCAPE)
        tally.holds(f"{name} closes", browser.until("return document.querySelector('.popover:popover-open') === null"))


def copies(tally: Tally, browser: Browser) -> None:
    """The lines are copied, and said to be."""
    for name, word in (("joined", "Copy"), ("fmc", "Copy as FMC text")):
        line = browser.text(name)
        browser.script(WORDS, f"copy-{name}")
        browser.click(f"#copy-{name}")
        tally.equal(f"{name} is copied", browser.hears("Copied: "), f"Copied: {line}")
        browser.until("return window.words.length > 1")
        tally.equal(
            "its button says so for a moment",
            [each for each, _ in browser.script("return window.words")],
            ["Copied", word],
        )


def with_a_fault(tally: Tally, browser: Browser) -> None:
    """So is a fault legible, and fits."""
    browser.fill("scramble", "R U q " + "F" * 300)
    is_legible(tally, browser, "with a fault")
    fits(tally, browser, "with a fault")

"""What a reader's system and browser ask for or refuse: more contrast, no motion, other languages, no storage, and a long history."""
from browser import LAST_STEP_AWAY, Browser
from looks import ADDRESS, CONTRAST
from tally import Tally

SCRAMBLE = "#scramble=R_U_F"
# the text of the page as it is seen, the names of what is pressed, and the side on which it begins
SEEN = """return [document.querySelector("main").innerText, all("[aria-label]").map((each) => each.ariaLabel),
    getComputedStyle(document.querySelector("main")).direction]"""
LOCALES = ("de-DE", "ar-EG", "hi-IN-u-nu-deva", "fa-IR", "tr-TR")
DENIED = """Object.defineProperty(window, "localStorage", { get() { throw new DOMException("denied", "SecurityError"); } })"""
FULL = """Storage.prototype.setItem = () => { throw new DOMException("full", "QuotaExceededError"); }"""
MOVING = """return all("body *").filter((each) => {
        const own = getComputedStyle(each);
        return parseFloat(own.transitionDuration) > 0 || own.animationIterationCount === "infinite";
    }).length + document.getAnimations().length"""
# Chromium keeps 50
ENTRIES = 60
# the colours of the stickers are the cube's
CONTRAST_OF_WORDS = CONTRAST.replace('closest("[inert]")', 'closest("[inert], .net")')


def contrasts(tally: Tally, browser: Browser) -> None:
    """Whoever wants more contrast has at least 7 for every text, in light and in dark; whoever wants no motion sees none."""
    browser.open(ADDRESS)
    browser.wait_best()
    for colours in ("light", "dark"):
        browser.media(prefers_contrast="more", prefers_color_scheme=colours)
        browser.until("return document.getAnimations().length === 0")
        count, least, words = browser.script(CONTRAST_OF_WORDS)
        tally.holds(f"{colours}: the least contrast is {least:.2f}, of {words!r}", count > 15 and least >= 7)
    browser.media(prefers_reduced_motion="reduce")
    tally.equal("parts that move", browser.script(MOVING), 0)
    browser.media(prefers_color_scheme="light")


def speaks_english(tally: Tally, browser: Browser) -> None:
    """Words and numbers are English in each locale."""
    browser.open(ADDRESS)
    browser.wait_best()
    wanted = browser.script(SEEN)
    tally.equal("it begins at the left", wanted[2], "ltr")
    for locale in LOCALES:
        browser.command("Emulation.setLocaleOverride", locale=locale)
        browser.open(ADDRESS)
        browser.wait_best()
        tally.equal(
            f"{locale}: the browser has it",
            browser.script("return Intl.NumberFormat().resolvedOptions().locale"),
            locale,
        )
        tally.equal(f"{locale}: what is seen", browser.script(SEEN), wanted)
    browser.command("Emulation.setLocaleOverride", locale="")


def keeps_nothing(tally: Tally, browser: Browser) -> None:
    """Where the browser keeps nothing, or has no room, all but the theme and the offer of what was done last is as it was."""
    for what, script in (("denied", DENIED), ("full", FULL)):
        name = browser.before_page(script)
        looks = {"bracketed": "R", "alert": "", "n #steps-body td .cell": 6, "hash": SCRAMBLE + "&steps=normal.R"}
        browser.walk(
            tally,
            what,
            ("open", SCRAMBLE, {}),
            ("submit", "own", "R", {}),
            ("comes", "steps", 1, {}),
            ("choose", "theme", "dark", looks),
        )
        tally.equal(f"{what}: the theme", browser.script("return document.documentElement.dataset.theme"), "dark")
        browser.no_longer(name)
    browser.open()
    browser.choose("theme", "")


def has_a_long_history(tally: Tally, browser: Browser) -> None:
    """With more steps than a browser keeps the page answers as before, and the browser's Back leads to the last one."""
    browser.go(SCRAMBLE)
    for _ in range(ENTRIES // 2):
        browser.submit("own", "R")
        browser.until("return all('#line-list li').length === 1")
        browser.script("document.querySelector(arguments[0]).click()", LAST_STEP_AWAY)
        browser.until("return all('#line-list li').length === 0")
    browser.wait()
    tally.holds("it is long", browser.script("return history.length") >= 50)
    browser.walk(
        tally,
        "Back leads to the last step",
        ("script", "history.back()", {}),
        (
            "comes",
            "hash",
            SCRAMBLE + "&steps=normal.R",
            {"bracketed": "R", "alert": "", "failed": "", "n #steps-body td .cell": 6},
        ),
    )

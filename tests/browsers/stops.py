"""Where the Tab key stops: each stop is seen, none is missed, and none is one that isn't told of."""
from browser import Browser, Keys, Step
from looks import ADDRESS, SCRAMBLE
from tally import Tally

STOPS = {
    "skip",
    "scramble-edit",
    "bar-undo",
    "own",
    "switch",
    "copy-joined",
    "eofb.normal",
    "slack",
    "filter",
    "best-more",
    "copy-fmc",
    "copy-kept",
    "marks",
    "play",
    "keep-line",
    "solutions-close",
    "twins",
}


def shows_focus(tally: Tally, browser: Browser) -> None:
    """Each stop of the Tab key has a line around it, none is missed, and the key isn't caught."""
    browser.resize(360, 800)
    browser.open(ADDRESS)
    browser.wait_best()
    outline = """const own = getComputedStyle(document.activeElement);
        return [document.activeElement === document.body, own.outlineStyle === 'solid' && parseFloat(own.outlineWidth) >= 2]"""
    stops, unseen = [], []
    for _ in range(80):
        browser.press(Keys.TAB)
        is_body, is_seen = browser.script(outline)
        if is_body:
            break
        stops.append(browser.focused())
        unseen += [] if is_seen else stops[-1:]
    tally.equal("where the focus isn't seen", unseen, [])
    tally.holds("the Tab key leaves the page at its end", is_body)
    tally.equal("where the Tab key doesn't come to", STOPS - set(stops), set())


def shows_focus_above(tally: Tally, browser: Browser) -> None:
    """On a phone what has the focus comes into view below the bar that stays there, if that stood on it too."""
    hidden = """const hidden = [];
        for (const each of seen(":is(a, button, input, select, summary, textarea):not(:disabled)").filter((one) => one.closest("main"))) {
            scrollTo({ top: each.getBoundingClientRect().top + scrollY - 10, behavior: "instant" });
            each.focus();
            const is_seen = each.getBoundingClientRect().top >= part("bar").getBoundingClientRect().bottom;
            if (document.activeElement === each && !is_seen) hidden.push(each.id || each.textContent);
        }
        return hidden"""
    browser.resize(360, 740)
    browser.open(ADDRESS)
    browser.follow("#scramble=R_U_F")
    browser.follow(ADDRESS)
    browser.wait_best()
    tally.holds("there are chips of scrambles, and folds", browser.look("desk?") and browser.texts("#choices summary"))
    tally.equal("what is below the bar", browser.script(hidden), [])


def shows_focus_below(tally: Tally, browser: Browser) -> None:
    """In a low window that is scrolled to its end the Tab key brings the focus into view, in the column that stays there too."""
    browser.resize(1280, 560)
    browser.go(ADDRESS)
    # the window has the focus again, which the key took out of it
    browser.click("h1")
    browser.script("scrollTo(0, document.documentElement.scrollHeight)")
    is_higher = "return part('side-column').offsetHeight > innerHeight && scrollY > innerHeight"
    tally.holds("the column is higher than the window", browser.script(is_higher))
    seen = """const { top, bottom } = document.activeElement.getBoundingClientRect();
        if (top >= -1 && bottom <= innerHeight + 1) window.end = undefined;
        else window.end ??= performance.now() + 1000;
        return window.end === undefined || performance.now() > window.end"""
    for begin, modifiers in (("marks", 0), ("switch", 8)):
        browser.script("window.end = undefined; part(arguments[0]).focus()", begin)
        while browser.script("return document.activeElement.closest('#side-column') !== null"):
            browser.until(seen)
            tally.holds(
                f"the focus is in view at {browser.focused()!r}, from {begin}",
                browser.script("return window.end === undefined"),
            )
            browser.script("window.end = undefined; scrollTo(0, document.documentElement.scrollHeight)")
            browser.press(Keys.TAB, modifiers=modifiers)


def has_no_more_stops(tally: Tally, browser: Browser) -> None:
    """What assistive technology isn't told of is no stop of the Tab key: a long line at fault, which may be scrolled, is none."""
    browser.resize(360, 800)
    browser.fill("scramble", "R U F " * 8 + "q " + "F2 " * 20)
    is_wide = "const it = document.querySelector('.fault pre'); return it.scrollWidth > it.clientWidth"
    tally.holds("the line may be scrolled", browser.script(is_wide))
    focus: Step = ("script", "part('scramble').focus()", {})
    browser.walk(tally, "after the field", focus, ("press", Keys.TAB, {"focus": "random"}))
    browser.resize(1280, 900)
    browser.walk(
        tally,
        "stops from the scramble to the first cell, and to the shortest, 4 moves over both sides",
        ("go", SCRAMBLE, {}),
        ("wait_best", {}),
        focus,
        ("tab_to", "eofb.normal", 8, {}),
        ("script", "part('skip').focus()", {}),
        ("press", Keys.ENTER, {"focus": "eofb.both"}),
    )

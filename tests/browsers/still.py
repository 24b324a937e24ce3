"""Nothing moves under a finger: what the browser says of shifts of the layout, from the first answer on and while an address is opened."""
import time

from attempts import PASTE
from best import LONGER
from browser import HELD, Browser
from looks import SCRAMBLE
from tally import Tally, made_again

STATES = (
    ("a scramble", SCRAMBLE),
    ("an EO", SCRAMBLE + "&steps=inverse.B_D_R_F2_B_D"),
    ("a DR", SCRAMBLE + "&steps=inverse.B_D_R_F2_B_D~normal.R_B-~normal.D2_R"),
    ("kept lines", SCRAMBLE + "&kept=inverse.B_D_R_F2_B_D;a_note;drfb-eoud,normal.R-_U_F-_R_L"),
    ("nothing", ""),
)
SIZES = ((1440, 900), (1180, 980), (768, 1024), (390, 844), (360, 740))
# every shift that the browser sees, also one that follows a press, with what moved; and where the first row was pressable
LISTEN = """window.shifts = [];
    new PerformanceObserver((list) => list.getEntries().forEach((each) => window.shifts.push([each.value, each.startTime,
        each.sources.map(({ node }) => node?.id || node?.className || node?.nodeName || "")])))
        .observe({ type: "layout-shift", buffered: true });"""
SHIFTS = "return window.shifts.filter(([value, time]) => time >= arguments[0]).map(([value, , moved]) => [value.toFixed(3), ...moved])"
# where some parts are once something is chosen of a field, before there is an answer; of text where its first letter is
PLACES_AFTER = """const [name, value, selectors] = arguments;
    const field = part(name);
    field.value = value;
    field.dispatchEvent(new Event('change'));
    return selectors.map((selector) => {
        const [part, range] = [document.querySelector(selector), document.createRange()];
        range.selectNodeContents(part);
        const { left, top } = (part.matches('figcaption') ? range : part).getBoundingClientRect();
        return [Math.round(left), Math.round(top)];
    });"""
COUNTED = """const more = part('best-more');
    more.hidden = arguments[0];
    const { left } = part('best-clear').getBoundingClientRect();
    const { right, height } = more.getBoundingClientRect();
    return [left, right, height].map(Math.round);"""
# takes a row of the best, and keeps for each frame after it whether a cell may be pressed, how far the page is scrolled, how many rows the
# list has, whether it is hidden, and where the cube's card begins on the page
TAKE = """scrollTo({ top: 0, behavior: 'instant' });
    window.frames_seen = [];
    // what is pressed may be stopped before it comes to the cell
    const hears = (cell) => {
        const end = new AbortController();
        let hasHeard = false;
        cell.addEventListener('click', (event) => {
            hasHeard = true;
            event.stopImmediatePropagation();
        }, { capture: true, signal: end.signal });
        cell.dispatchEvent(new Event('click'));
        end.abort();
        return hasHeard;
    };
    const look = () => {
        const cell = document.querySelector('#steps-body .cell');
        const { top } = part('cube').getBoundingClientRect();
        window.frames_seen.push([cell !== null && cell.closest('[inert]') === null && hears(cell), Math.round(scrollY),
            all('#solutions-groups .take').length, part('solutions').hidden, Math.round(top + scrollY)]);
        if (window.frames_seen.length < 600) requestAnimationFrame(look);
    };
    document.querySelector('#best-body .take').click();
    look()"""
# answers of a list come so much later as is said in the page
SLOW = """const { postMessage } = Worker.prototype;
    window.later = 0;
    Worker.prototype.postMessage = function (...words) {
        setTimeout(() => postMessage.apply(this, words), words[0].request?.call === "rowsOfList" ? window.later : 0);
    }"""
PLACES = """return [part('bar').getBoundingClientRect().bottom,
    ...['#solutions-heading', '#solutions-groups .take'].map((each) => document.querySelector(each).getBoundingClientRect())
        .flatMap(({ top, bottom }) => [top, bottom]), innerHeight]"""
# how many rows of the best there are, and where its head, a filter and what is below are, as far as they are seen
FILTERED = """return [all('#best-body tr').length, ...['best-head', 'best-side', 'steps'].map(part).map((each) =>
    Math.min(innerHeight, Math.round(each.getBoundingClientRect().top)))]"""
FIRST_ROW = "return document.querySelector('#best-body .take').getBoundingClientRect().top"
# the page waits far longer for answers before it shows what it has, so that a slow machine makes no difference
PATIENT = """const { setTimeout: begin } = window, waits = [50, 1000], patient = new CSSStyleSheet();
    window.setTimeout = (act, after, ...words) => begin(act, waits.includes(after) ? 20 * after : after, ...words);
    patient.replaceSync('* { animation-delay: 30s !important; }');
    document.adoptedStyleSheets.push(patient);"""
# until a shift that was would have been told
QUIET = 0.3
# how often something is tried that the machine may be too slow for
TRIALS = 4


def opens(tally: Tally, browser: Browser, width: int) -> None:
    """An address is opened: nothing that is seen moves, from its beginning on, if the page waits until it has all of it."""
    script = browser.before_page(PATIENT)
    for what, address in STATES:
        browser.open(address)
        browser.wait_best()
        time.sleep(QUIET)
        tally.equal(f"{width}: {what}: what moves while it is opened", browser.script(SHIFTS, 0), [])
    browser.no_longer(script)


def begins(tally: Tally, browser: Browser, width: int) -> None:
    """The first scramble, or another one, doesn't scroll the page away from where it is pasted or drawn, also if the line was seen."""
    solved = "R U F\n\nF' U' R'"
    for text in (LONGER, solved, LONGER, ""):
        if text != solved:
            browser.open()
        browser.script(*((PASTE, text) if text else ("part('random').click()",)))
        browser.settle("return part('choices').checkVisibility()")
        browser.wait_best()
        tally.equal(f"{width}: how far {text!r} scrolls the page", browser.script("return scrollY"), 0)


def searches(tally: Tally, browser: Browser, width: int) -> None:
    """A longer search begins, goes on and is stopped, or ends: no row moves."""
    browser.open(SCRAMBLE)
    browser.wait_best()
    browser.script(SLOW)
    tops = [browser.script(FIRST_ROW)]
    time.sleep(QUIET)
    since = browser.script("return performance.now()")
    browser.choose("best-slack", "2")
    browser.until("return document.querySelector('#best-body .take') !== null")
    tops.append(browser.script(FIRST_ROW))
    browser.script("part('best-stop').click()")
    browser.wait_best()
    tops.append(browser.script(FIRST_ROW))
    browser.choose("best-slack", "0")
    browser.wait_best()
    time.sleep(QUIET)
    tops.append(browser.script(FIRST_ROW))
    tally.equal(
        f"{width}: the first row before, while more are looked for, after a stop, and after the end", tops, tops[:1] * 4
    )
    tally.equal(f"{width}: what moves meanwhile", browser.script(SHIFTS, since), [])


def take(browser: Browser, later: int) -> list[list[int]]:
    """Takes a row of the best, whose list comes so much later, and returns the frames until it has come."""
    browser.go(SCRAMBLE)
    browser.wait_best()
    browser.script("window.later = arguments[0];" + TAKE, later)
    browser.settle("return document.activeElement.closest('#solutions-groups') !== null")
    return list(browser.script("return window.frames_seen.splice(0)"))


def takes(tally: Tally, browser: Browser, width: int) -> None:
    """After a row of the best nothing can be pressed before the page went to the list; there its heading and its first row are seen."""
    for later in (0, 300):
        # one that takes more than a second, since the machine has other work, isn't waited for: so it is taken again
        for left in reversed(range(TRIALS)):
            frames = take(browser, later)
            pressable = {scroll for may_press, scroll, _, _, _ in frames if may_press}
            tops = {top for _, _, _, is_hidden, top in frames if not is_hidden}
            is_waited_for = len(pressable) == 1 and (width >= 960 or len(tops) == 1)
            if is_waited_for or left == 0:
                tally.equal(
                    f"{width}: {later}: how far the page is scrolled once it may be", pressable, {frames[-1][1]}
                )
                break
            made_again("list", f"{width}: {later}: it wasn't waited for")
        tally.holds(
            f"{width}: {later}: it may be pressed before and after: {pressable}", frames[-1][0] and not frames[0][0]
        )
        if width < 960:
            tally.equal(f"{width}: {later}: where the cube is below a list that comes", len(tops), 1)
        below, top, _, _, bottom, height = browser.script(PLACES)
        tally.holds(f"{width}: {later}: heading and row from {top} to {bottom}", below <= top < bottom <= height)


def stands(tally: Tally, browser: Browser, width: int) -> None:
    """Neither what shows more of the best nor a list that is looked for, marks or a move that is played move what stands beside them."""
    browser.choose("best-axis", "EO F/B")
    counts = [browser.script(COUNTED, is_hidden) for is_hidden in (False, True)]
    tally.equal(f"{width}: beside what shows more of the best", counts, counts[:1] * len(counts))
    browser.choose("best-axis", "")
    browser.go(SCRAMBLE + "&steps=inverse.B_D_R_F2_B_D~normal.R_B-~normal.D2_R&list=eofb.normal.0")
    of_list = ["[popovertarget=help-list]", "#list-filters", "#solutions-note"]
    looking = browser.script(PLACES_AFTER, "slack", "3", of_list)
    browser.wait()
    tally.equal(f"{width}: the head of a list", looking, browser.script(PLACES_AFTER, "slack", "3", of_list))
    of_cube = ["figcaption", "#piece", "#play-on"]
    places = [browser.script(PLACES_AFTER, "marks", mark, of_cube) for mark in ("none", "EO F/B", "DR U/D")]
    # after the last move of the orientation, the sixth, one looks at what is left of the reduction, and at what is done
    backward = [("play-back", "played", f"{at} of 10") for at in (9, 8, 7, 6, 6, 5, 4, 3, 2, 1, 0)]
    for press, part, words in (*backward, ("play", "play", "Pause"), ("play", "play", "Play")):
        browser.script("part(arguments[0]).click()", press)
        browser.until("return part(arguments[0]).textContent.startsWith(arguments[1])", part, words)
        places.append(browser.script(PLACES_AFTER, "marks", "none", of_cube))
    tally.equal(f"{width}: the cube's card", places, places[:1] * len(places))


def filters(tally: Tally, browser: Browser, width: int) -> None:
    """A filter of the best that leaves few rows moves nothing that is seen: the head, the field, and what is below the list."""
    browser.open(SCRAMBLE)
    browser.wait_best()
    browser.script(
        "part('best-options').open = true; part('best-more').click(); part('best').scrollIntoView({ block: 'start', behavior: 'instant' })"
    )
    browser.wait_best()
    time.sleep(QUIET)
    since, [count, *before] = browser.script("return performance.now()"), browser.script(FILTERED)
    rarest = browser.script(
        """const countOf = (chip) => Number(chip.textContent.trim().split(' ')[1].replace(',', ''));
        return all('#best-cases-chips button').sort((one, other) => countOf(one) - countOf(other))[0].dataset.case"""
    )
    for value in (rarest, ""):
        browser.script(
            "const it = part('best-cases'); it.value = arguments[0]; it.dispatchEvent(new Event('input'))", value
        )
        time.sleep(QUIET)
        left, *after = browser.script(FILTERED)
        tally.holds(
            f"{width}: {value!r}: {left} rows of {count} are left", left < count / 2 if value else left == count
        )
        tally.equal(f"{width}: {value!r}: where head, field and what is below are", after, before)
    tally.equal(f"{width}: what a filter moves", browser.script(SHIFTS, since), [])


def at_sizes(tally: Tally, browser: Browser) -> None:
    """All of these, on windows of each size."""
    browser.before_page(LISTEN)
    for width, height in SIZES:
        browser.resize(width, height)
        for part in (opens, begins, filters, searches, stands, takes):
            part(tally, browser, width)
    browser.resize(320, 640)
    takes(tally, browser, 320)


def draws_once(tally: Tally, browser: Browser) -> None:
    """A list that opens, with the focus on its first row, has the nets drawn once; a step too, or twice if it takes a while."""
    drawn = """window.drawn = 0;
        const net = document.querySelector("#net-normal .net");
        new MutationObserver((all) => { window.drawn += all.length; }).observe(net, { attributeFilter: ["aria-label"] })"""
    count = "return [window.drawn, window.drawn = 0][0]"
    browser.resize()
    browser.open(SCRAMBLE)
    browser.wait_best()
    browser.script(drawn)
    for what, selector, most in (("a list", '[data-cell="eorl.normal"]', 1), ("a step", "#solutions-groups .take", 2)):
        browser.act(selector)
        browser.wait_best()
        times = browser.script(count)
        tally.holds(f"how often {what} draws the nets: {times}", 0 < times <= most)


def waits(tally: Tally, browser: Browser) -> None:
    """A list that takes long doesn't hold the page, and what is pressed meanwhile stays where it is."""
    browser.go(SCRAMBLE)
    browser.wait_best()
    browser.script(HELD % "rowsOfList" + TAKE)
    tally.holds("it may be pressed before there is a list", browser.until("return window.frames_seen.at(-1)[0]"))
    tally.equal("which isn't there yet", browser.script("return window.frames_seen.at(-1)[2]"), 0)
    scroll = browser.script("return scrollY")
    for kind in ("mousePressed", "mouseReleased"):
        browser.command("Input.dispatchMouseEvent", type=kind, x=2, y=300, button="left", clickCount=1)
    browser.script("window.goOn()")
    browser.settle("return document.querySelector('#solutions-groups .take') !== null")
    tally.equal("it comes, and the page stays", browser.script("return scrollY"), scroll)

"""What is kept is the desk: beside the best where there is room, with an undo of what is taken away."""
from best import LONGER
from browser import Browser, Keys
from kept import KEPT_SAID
from tally import Tally

ADDRESS = "#scramble=" + LONGER.replace(" ", "_").replace("'", "-")
FIVE = (
    ADDRESS
    + "&kept="
    + ",".join(f"normal.R-_U_F-_R_L{turns};note_{at}" for at, turns in enumerate(("", "_D", "_D2", "_F2", "_B2")))
)
SIZES = ((1366, 768), (1180, 980), (1024, 768), (1440, 900))
MANY = ADDRESS + "&kept=" + ",".join(f"normal.{'_'.join(['R', 'U'] * at)}" for at in range(1, 20))
# whether it is high, and beside the best, and what stands beyond the window
PLACES = """const [kept, best] = ['kept', 'best'].map((name) => part(name).getBoundingClientRect());
    const { scrollWidth, clientWidth } = document.documentElement;
    return [kept.top < innerHeight / 2, kept.right <= best.left || kept.left >= best.right, scrollWidth - clientWidth]"""
LINES = """return all('#kept-list li').map((each) => [each.querySelector('.moves').textContent, each.querySelector('.note-field').value])"""
TOPS = """return ['best', 'steps', 'cube', 'line'].map((name) => part(name).getBoundingClientRect())
    .map((box) => [box.left, box.top, box.width])"""
# which of these aren't where they were; a page is scrolled by whole points
MOVED = f"""const before = %s, after = (() => {{ {TOPS} }})();
    return after.filter((box, at) => box.some((each, place) => Math.abs(each - before[at][place]) > 0.6))"""
IS_ABOVE = """const [kept, cube] = ['kept', 'cube'].map((name) => part(name).getBoundingClientRect());
    return kept.bottom > 100 && kept.bottom < cube.top"""
ARE_LEVEL = (
    "return new Set(['results', 'scramble-card'].map((name) => part(name).getBoundingClientRect().top)).size === 1"
)
STARS = "#best-body tr:nth-child(%d) .star"
REMOVE = "#kept-list li:nth-child(%d) [data-control^=away]"


def stands_beside(tally: Tally, browser: Browser) -> None:
    """On a desktop it begins in the upper half of the window, beside the best; on the widest it is there before the first star."""
    browser.walk(tally, "five", ("go", FIVE, {}), ("until", KEPT_SAID, {}), ("wait_best", {}))
    browser.walk(
        tally,
        "it is high, and beside the best",
        *(("resize", width, height, {PLACES: [True, True, 0]}) for width, height in SIZES),
    )
    tally.equal(
        "on a laptop it takes no column of its own",
        browser.script("return part('kept').getBoundingClientRect().left < 20"),
        True,
    )
    browser.resize(1920, 1080)
    browser.go(ADDRESS)
    browser.wait_best()
    tally.holds("an empty desk says what it is for", "☆" in browser.text("kept-none"))


def moves_nothing(tally: Tally, browser: Browser) -> None:
    """No star moves anything but what is kept, nor does a step that is taken back then. On a laptop, where that stands above the cube, it comes there
    in view, since the page is scrolled as far as it is high; both columns begin on one height again once the page is scrolled up.
    """
    for width, height in (*SIZES, (1920, 1080)):
        browser.resize(width, height)
        browser.open(ADDRESS)
        browser.wait_best()
        moved, is_above = MOVED % browser.script(TOPS), width < 1728
        for row in (1, 3, 2, 3):
            browser.walk(
                tally,
                f"{width}: star {row}",
                ("click", STARS % row, {}),
                ("until", KEPT_SAID, {moved: [], "return scrollY > 0": is_above}),
            )
        browser.walk(
            tally,
            f"{width}: a step, and back",
            ("act", "#best-body .take", {}),
            ("script", "history.back()", {}),
            ("comes", "bracketed", "", {}),
            ("wait_best", {moved: []}),
        )
        tally.equal(f"{width}: it is seen above the cube", browser.script(IS_ABOVE), is_above)
        browser.script("scrollTo({ top: 0, behavior: 'instant' })")
        tally.holds(f"{width}: scrolled up", browser.until(ARE_LEVEL))


# at how many places numbers end, and those who don't stand beside their moves
NUMBERS = """const ends = all('#kept-list .total').map(({ firstChild }) => {
        const range = document.createRange();
        range.setStart(firstChild, 0);
        range.setEnd(firstChild, firstChild.data.indexOf(' '));
        return Math.round(range.getBoundingClientRect().right);
    });
    return new Set(ends).size"""
BESIDE = """return all('#kept-list li').filter((each) => {
        const [number, moves] = ['.total', '.moves'].map((name) => each.querySelector(name).getClientRects()[0]);
        return number.right > moves.left || Math.abs(number.bottom - moves.bottom) > 4;
    }).map((each) => each.textContent)"""


def has_a_column(tally: Tally, browser: Browser) -> None:
    """The numbers of moves of what is kept stand in one column, each beside its moves."""
    steps = "inverse.B_D_R_F2_B_D~normal.R_B-~normal.D2_R"
    lines = f"{ADDRESS}&kept={steps},inverse.B_D_R_F2_B_D;;drfb-eoud,normal.R-_U_F-_R_L,normal.R~normal.U2_F2_D2_L2_D2_L2_U2_R2"
    for width in (1280, 390, 320, 1920):
        browser.resize(width, 900)
        browser.walk(
            tally,
            f"{width}: of one figure and of two",
            ("go", lines, {}),
            ("until", KEPT_SAID, {NUMBERS: 1, BESIDE: [], "n #kept-list .total": 4}),
        )


def shows_notes(tally: Tally, browser: Browser) -> None:
    """A note is seen whole, a long one on a line of its own and on several; it has no line breaks, and Enter ends it."""
    # a field of one line doesn't say what it cuts, so that its text is measured beside it
    cut = """return all('.note-field').filter((each) => {
            const own = getComputedStyle(each), text = document.createElement('span');
            Object.assign(text.style, { font: own.font, position: 'absolute', whiteSpace: 'nowrap' });
            text.textContent = each.value;
            document.body.append(text);
            const { width } = text.getBoundingClientRect();
            text.remove();
            const [across, along] = [parseFloat(own.width), parseFloat(own.height)].map((size) => size - 2);
            const lines = Math.max(1, Math.floor(along / (1.3 * parseFloat(own.fontSize))));
            return width > lines * across || each.scrollWidth > each.clientWidth || each.scrollHeight > each.clientHeight;
        }).map((each) => each.value)"""
    short, long = (
        "a note of 25 signs in all",
        "a note of 80 signs, as many as one has: " + "2c4e, then F B or " * 2 + "4c4e",
    )
    values = "return all('.note-field').map((each) => each.value).sort().reverse()"
    tally.equal("how long they are", (len(short), len(long)), (25, 80))
    notes = [each.replace(" ", "_").replace(",", "%2C") for each in (short, long)]
    lines = f"{ADDRESS}&kept=normal.R;{notes[0]},normal.R_U;{notes[1]},normal.R_U_F"
    for width in (1280, 1024, 390, 320, 1920):
        browser.resize(width, 900, width < 600)
        looks = {
            cut: [],
            values: [long, short, ""],
            "return document.documentElement.scrollWidth - document.documentElement.clientWidth": 0,
        }
        browser.walk(tally, f"{width}: notes", ("go", lines, {}), ("until", KEPT_SAID, {}), ("wait", looks))
    browser.resize()
    browser.walk(
        tally,
        "typed",
        ("open", f"{ADDRESS}&kept=normal.R", {}),
        ("until", KEPT_SAID, {}),
        ("click", ".note-field", {}),
        ("press", "two", Keys.ENTER, "words", Keys.ENTER, {LINES: [["R", "twowords"]]}),
        ("until", "return location.hash.endsWith(';twowords')", {}),
        ("script", "const it = document.querySelector('.note-field'); it.value = 'two\\nlines'", {}),
        (
            "script",
            "document.querySelector('.note-field').dispatchEvent(new Event('change'))",
            {LINES: [["R", "two lines"]]},
        ),
    )


def undoes(tally: Tally, browser: Browser) -> None:
    """What is taken away comes back with its note in its place, until something else changes."""
    browser.resize()
    browser.walk(tally, "five", ("go", FIVE, {}), ("until", KEPT_SAID, {}))
    lines = browser.script(LINES)
    browser.walk(
        tally,
        "one",
        ("click", REMOVE % 2, {"kept-left-words": "A line was removed.", LINES: lines[:1] + lines[2:]}),
        ("click", "#kept-back", {"kept-left": "", LINES: lines}),
        ("until", KEPT_SAID, {}),
    )
    browser.walk(
        tally,
        "the only one, and nothing is left to copy",
        ("go", ADDRESS + "&kept=normal.R-_U_F-_R_L", {}),
        ("until", KEPT_SAID, {}),
        ("click", REMOVE % 1, {"focus": "kept-back", "kept": 0, "copy-kept?": False}),
        ("click", "#kept-back", {"kept": 1, "copy-kept?": True}),
        ("go", FIVE, {}),
        ("until", KEPT_SAID, {}),
    )
    browser.walk(
        tally,
        "another change ends the offer",
        ("click", REMOVE % 1, {"kept-left-words": "A line was removed."}),
        ("wait_best", {}),
        ("act", "#best-body .star", {"kept-left": ""}),
    )
    is_seen = (
        "const { top, bottom } = part('kept-back').getBoundingClientRect(); return top > 0 && bottom <= innerHeight"
    )
    for width in (1440, 1180, 390):
        browser.resize(width, 900)
        browser.walk(
            tally,
            f"{width}: the undo is seen, and the line comes back",
            ("go", MANY, {}),
            ("until", KEPT_SAID, {}),
            ("script", "part('kept').scrollIntoView()", {}),
            ("click", REMOVE % 2, {is_seen: True}),
            ("click", "#kept-back", {"kept": 19}),
        )

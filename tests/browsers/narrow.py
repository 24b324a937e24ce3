"""Where the page is narrow: what a finger presses, rows on two lines, and what is in view after a step, there and beside a mouse."""
import re

from browser import Browser
from looks import ADDRESS, SCRAMBLE
from tally import Tally

# what a finger presses is at least so high and wide where the page is narrow
TARGET = 44
# how high a row of the best may be there, and how small its signs
LINE_OF_FIRST = 15.5
MOST_OF_ROW = 56
LEAST_SIGN = 10
# and beside a mouse
LEAST_BESIDE_MOUSE = 12.5
FIRST_ROWS = 46
# how wide and high what a selector finds is for a finger, each: the points around its middle that reach it
REACHED = """
    const far = (each, x, y, [right, down]) => {
        let steps = 0;
        while (steps < 99 && document.elementFromPoint(x + (steps + 1) * right, y + (steps + 1) * down) === each) steps++;
        return steps;
    };
    return all(arguments[0]).map((each) => {
        each.scrollIntoView({ block: 'center', behavior: 'instant' });
        const { left, top, width, height } = each.getBoundingClientRect();
        const [back, right, up, down] = [[-1, 0], [1, 0], [0, -1], [0, 1]].map((way) => far(each, left + width / 2, top + height / 2, way));
        return [back + 1 + right, up + 1 + down];
    })"""
SIZES_OF = "return [...new Set(all(arguments[0]).map((each) => parseFloat(getComputedStyle(each).fontSize)))]"
HEIGHTS = "return all(arguments[0]).map((each) => each.getBoundingClientRect().height)"
ROWS_OF_BEST = """
    const areOn = (one, other) => one.left < other.right - 0.5 && other.left < one.right - 0.5
        && one.top < other.bottom - 0.5 && other.top < one.bottom - 0.5;
    const textOf = (node) => {
        const range = document.createRange();
        range.selectNodeContents(node);
        return range.getBoundingClientRect();
    };
    return all('#best-body tr').map((row) => {
        const [take, twins, star] = ['.take', '.twins', '.star'].map((name) => row.querySelector(name));
        const parts = [take, twins, star, ...row.querySelectorAll('th, .axis, .number')].filter((each) => each?.checkVisibility())
            .map((each) => each === star ? star.getBoundingClientRect() : textOf(each));
        const box = row.getBoundingClientRect(), { width, height } = star.getBoundingClientRect(), own = getComputedStyle(take);
        return { moves: take.textContent, hasTwins: twins !== null, height: box.height, star: [width, height],
            size: parseFloat(own.fontSize), lines: Math.round(textOf(take).height / (1.5 * parseFloat(own.fontSize))),
            on: parts.some((one, at) => parts.some((other, next) => next > at && areOn(one, other))) };
    })"""
# what is pressed and is less high or wide than a finger needs, but for what a selector finds
SMALL = """return all("button, select, summary, input:not([type=checkbox]), textarea")
    .filter((each) => each.checkVisibility() && !each.closest(arguments[1]))
    .map((each) => [each.id || each.className || each.textContent, each.getBoundingClientRect()])
    .filter(([, { width, height }]) => Math.min(width, height) < arguments[0]).map(([name]) => name)"""
IN_VIEW = """
    const { top, bottom, height } = part(arguments[0]).getBoundingClientRect();
    return height > 0 && top >= 0 && bottom <= innerHeight"""
# solutions on more lines than so many
BROKEN = """
    return all("#solutions-groups .take").filter((each) => each.textContent.split(" ").length <= 8
        && each.clientHeight >= (1 + arguments[0]) * parseFloat(getComputedStyle(each).lineHeight)).map((each) => each.textContent)"""
# of each row of the best on how many lines its moves stand, how far what is drawn of them is from the border above and below, how far the words of
# the other columns are from the middle of the moves, and how far above the line of the first reduction
AIR = """const pen = document.createElement('canvas').getContext('2d');
    const textsIn = (node) => node.nodeType === 3 ? [node] : [...node.childNodes].flatMap(textsIn);
    const linesOf = (each) => textsIn(each).flatMap((text) => {
        const range = document.createRange();
        range.selectNodeContents(text);
        return [...range.getClientRects()];
    });
    const [least, most] = [(boxes) => Math.min(...boxes.map(({ top }) => top)), (boxes) => Math.max(...boxes.map(({ bottom }) => bottom))];
    return all('#best-body tr').map((row) => {
        const [take, first] = ['.take', '.first'].map((name) => row.querySelector(name));
        const [box, lines] = [take.getBoundingClientRect(), linesOf(take)];
        pen.font = getComputedStyle(take).font;
        const sign = pen.measureText("(R2')");
        const above = least(lines) + sign.fontBoundingBoxAscent - sign.actualBoundingBoxAscent - box.top - take.clientTop;
        const below = box.bottom - take.clientTop - most(lines) + sign.fontBoundingBoxDescent - sign.actualBoundingBoxDescent;
        const others = [...row.querySelectorAll('th, .axis, .number, .star')].map(linesOf);
        const middles = others.map((each) => (least(each) + most(each) - box.top - box.bottom) / 2);
        return [new Set(lines.map(({ top }) => Math.round(top))).size, [above, below], Math.max(...middles.map(Math.abs)),
            least(linesOf(first)) - most(others.flat())];
    })"""
# so far drawn moves are from the border of their button, in points
LEAST_AIR = 2
# rows of the best in which what is reached and what follows don't stand on one line
UNEVEN = """const top = (words) => {
        const range = document.createRange();
        range.selectNodeContents(words.firstChild);
        return range.getBoundingClientRect().top;
    };
    return all('#best-body tr').filter((row) => new Set([...row.querySelectorAll('.axis')].map((each) => Math.round(2 * top(each)))).size > 1)
        .map((row) => row.textContent)"""


def says_all(tally: Tally, browser: Browser) -> None:
    """On a phone nothing is called by half of its name; a reduction says from which case its trigger goes, as its label does."""
    browser.resize(360, 800)
    browser.open(ADDRESS.split("&list")[0].replace("~normal.R_B-", ""))
    browser.wait_best()
    tally.equal("the heading", browser.text("best-heading"), "Best ways on")
    # how many there are is said above
    tally.equal("more of them", browser.text("best-more"), "Show more")
    tally.holds(f"of how many: {browser.text('best-note')}", re.match(r"[0-9,]+ rows\.", browser.text("best-note")))
    rows = browser.script(
        """return seen('#best-body tr').map((each) => [getComputedStyle(each.querySelector('.axis'), '::after').content,
        each.querySelector('.take').ariaLabel])"""
    )
    tally.equal(
        "the case of each trigger",
        [re.findall(r"\dc\de", case) for case, _ in rows],
        [re.findall(r"trigger from (\dc\de)", label) for _, label in rows],
    )
    tally.holds("of some rows", len(rows) > 2)
    browser.go(SCRAMBLE)
    browser.wait_best()
    browser.script("part('best-more').click()")
    browser.wait_best()
    twins = browser.script("return seen('#best-body .twins').map((each) => each.innerText.trim())")
    tally.holds("some have several twins", any(each.startswith("or ") for each in twins))
    tally.equal(
        "what several twins are called",
        [each for each in twins if each.startswith("or ") and not each.endswith(" twins")],
        [],
    )


def says_triggers(tally: Tally, browser: Browser) -> None:
    """A row of the best says on a phone too from which case the trigger of its reduction goes, in the line of that, which isn't cut."""
    first = """return all('#best-body .first').map((each) => {
        const range = document.createRange();
        range.selectNodeContents(each);
        const said = [...each.querySelectorAll('.passed')].map((one) => getComputedStyle(one, '::before'))
            .filter(({ display }) => display !== 'none').map(({ content }) => content.replace(/[" ]/g, ''));
        const isWhole = range.getBoundingClientRect().right <= each.closest('tr').querySelector('.star').getBoundingClientRect().left;
        return [said, [...each.querySelectorAll('.trigger')].map((one) => one.dataset.case).slice(0, 1), isWhole];
    })"""
    browser.open(SCRAMBLE)
    browser.wait_best()
    for width in (390, 360, 320):
        browser.resize(width, 800, True)
        rows = browser.script(first)
        tally.equal(f"{width}: the case of each trigger", [said for said, *_ in rows], [case for _, case, _ in rows])
        tally.holds(f"{width}: of some rows, and none is cut: {rows}", all(each for *_, each in rows) and any(rows[0]))
    browser.resize(360, 800)


def says_once(tally: Tally, browser: Browser) -> None:
    """While reductions are listed the best ones, which are the same, don't stand above them, where the list begins in view; closed, they are back."""
    for width, height in ((1200, 900), (360, 800)):
        browser.resize(width, height)
        browser.open(SCRAMBLE)
        browser.wait_best()
        browser.act("#best-body .take")
        browser.settle("return document.activeElement.closest('#solutions-groups') !== null")
        browser.walk(
            tally,
            f"{width}: a row is taken",
            ("wait_best", {"best?": False, "solutions?": True}),
            ("act", "#solutions-close", {"best?": True, "solutions?": False}),
        )


def presses(tally: Tally, browser: Browser) -> None:
    """On a phone what is pressed is large enough for a finger: a row of the best by its whole row."""
    browser.resize(360, 800)
    browser.open(ADDRESS)
    browser.wait_best()
    for width in (390, 360, 320):
        browser.resize(width, 800)
        tally.equal(f"{width}: what is too small", browser.script(SMALL, TARGET, ".skip, .popover"), [])
        for what, selector in (("notes", ".note-field"), ("rows of the best", "#best-body tr")):
            heights = browser.script(HEIGHTS, selector)
            tally.holds(f"{width}: {what}: {heights}", heights and min(heights) >= TARGET)
        tally.equal(f"{width}: rows of the best that are seen at first", len(browser.script(ROWS_OF_BEST)), 5)
    hit = """const row = document.querySelector('#best-body tr'); row.scrollIntoView({ block: 'center' });
        const { left, right, bottom } = row.getBoundingClientRect();
        return document.elementFromPoint((left + right) / 2, bottom - 4).className"""
    tally.holds("and their whole row is pressed", "take" in browser.script(hit))


# on how many lines the buttons of each line that is kept stand, and what stands beyond its row
LINES_OF_BUTTONS = """return all('#kept-list li').map((each) => {
        const boxes = [...each.querySelectorAll('.row > button')].map((one) => one.getBoundingClientRect());
        return [boxes.length, new Set(boxes.map(({ top }) => top)).size, boxes.some(({ right }) => right > each.getBoundingClientRect().right)];
    })"""


def has_one_line_of_buttons(tally: Tally, browser: Browser) -> None:
    """All that is pressed of a line that is kept, its set-ups too, stands on one line."""
    for width in (360, 390):
        browser.resize(width, 740, mobile=True)
        browser.go(ADDRESS + "&kept=inverse.B_D_R_F2_B_D;;drfb-eoud,normal.R")
        browser.settle("return all('#kept-list .total').every((each) => each.textContent !== '')")
        tally.equal(f"{width}: the buttons", browser.script(LINES_OF_BUTTONS), [[4, 1, False]] * 2)
    browser.resize()


def has_heads(tally: Tally, browser: Browser) -> None:
    """On a phone what stands beside a heading has no line of its own, though the heading may have two."""
    beside = """return all('.head').flatMap((head) => {
        const { bottom } = head.querySelector('h2').getBoundingClientRect();
        return [...head.querySelectorAll('button, select')].filter((each) => each.checkVisibility()
            && each.getBoundingClientRect().top > bottom).map((each) => each.id || each.ariaLabel);
    })"""
    browser.go(SCRAMBLE + "&steps=inverse.B_D_R_F2_B_D&list=drfb-eoud.inverse.0")
    browser.wait_best()
    for width in (390, 320):
        browser.resize(width, 800)
        tally.equal(f"{width}: what stands below a heading", browser.script(beside), [])


def has_rows(tally: Tally, browser: Browser) -> None:
    """
    On a phone a row of the best has two lines at most, however long its moves are; beside a mouse moves and twins are as large as can be read, in
    rows of one height. Nothing in a row stands on something else.
    """
    for after in ("&steps=inverse.B_D_R_F2_B_D", ""):
        browser.resize(360, 800)
        browser.open(SCRAMBLE + after)
        browser.choose("best-slack", "2")
        browser.wait_best()
        browser.script("part('best-options').open = true")
        browser.wait_best()
        browser.script("part('best-options').open = false")
        for _ in range(3):
            browser.script("part('best-more').click()")
        browser.wait_best()
        rows = browser.script(ROWS_OF_BEST)
        longest = max(len(row["moves"]) for row in rows)
        tally.holds(
            f"{after}: there are long rows and twins: {longest}", longest > 15 and any(row["hasTwins"] for row in rows)
        )
        # before an orientation the first reduction has a line of its own
        most = MOST_OF_ROW + (0 if after else LINE_OF_FIRST)
        tally.equal(
            f"{after}: rows of more lines, with parts on each other, or with signs or stars that are too small",
            [
                row
                for row in rows
                if row["lines"] > 1
                or row["height"] > most
                or row["on"]
                or row["size"] < LEAST_SIGN
                or min(row["star"]) < TARGET
            ],
            [],
        )
        least = min(min(each) for each in browser.script(REACHED, "#best-body .star"))
        tally.holds(f"{after}: stars that a finger misses: {least}", least >= TARGET)
    for width in (601, 768, 960, 1180, 1440):
        browser.resize(width, 900)
        rows = browser.script(ROWS_OF_BEST)
        longest = max(len(row["moves"]) for row in rows if row["hasTwins"])
        tally.holds(f"{width}: there are long rows with twins: {longest}", longest > 20)
        sizes = {name: browser.script(SIZES_OF, f"#best-body .{name}") for name in ("take", "twins")}
        tally.holds(
            f"{width}: one size in a column, and the least sign: {sizes}",
            all(len(each) == 1 and min(each) >= LEAST_BESIDE_MOUSE for each in sizes.values()),
        )
        tally.equal(
            f"{width}: twins on several lines",
            browser.script("return seen('.twins').filter((each) => each.getClientRects().length > 1).length"),
            0,
        )
        if width >= 1440:
            tally.equal(f"{width}: as large as other text", sizes["take"], [16])
        # further down a row with several twins is higher; the last row has half of a border less
        heights = [row["height"] for row in rows[:FIRST_ROWS]]
        tally.holds(f"{width}: heights of rows: {min(heights)}, {max(heights)}", max(heights) - min(heights) <= 0.5)
        tally.equal(f"{width}: parts of a row on each other", [row for row in rows if row["on"]], [])
        tally.equal(f"{width}: rows whose cells aren't level", browser.script(UNEVEN), [])


def has_air(tally: Tally, browser: Browser) -> None:
    """Beside a mouse moves on several lines don't touch the border of their button; the columns are level with it, and the first reduction, which may
    be longer than its column, has the line below for itself."""
    browser.resize(1280, 900)
    browser.open(SCRAMBLE)
    browser.choose("best-slack", "2")
    browser.wait_best()
    browser.script("part('best-more').click()")
    browser.wait_best()
    for width in (960, 1180, 1280, 1440, 1920):
        browser.resize(width, 900)
        rows = browser.script(AIR)
        several = [min(air) for lines, air, *_ in rows if lines > 1]
        if width == 1280:
            tally.holds(f"{width}: some stand on several lines: {len(several)} of {len(rows)}", several)
        tally.holds(f"{width}: how far they are from the border: {several[:5]}", min(several, default=9) >= LEAST_AIR)
        off = max(off for _, _, off, _ in rows)
        tally.holds(f"{width}: the columns are level with the moves: {off}", off <= 2.5)
        apart = min(apart for *_, apart in rows)
        tally.holds(f"{width}: the first reduction stands below all columns: {apart}", apart >= 4)


def has_headings(tally: Tally, browser: Browser) -> None:
    """Beside a mouse numbers end below the end of their heading; those with words after them begin below its beginning, each of its lines there."""
    edges = """const lines = (each) => {
            const range = document.createRange();
            range.selectNodeContents(each);
            return [...range.getClientRects()];
        };
        const [heads, ...rows] = all('#best-table tr').map((row) => [...row.children].map(lines));
        const left = (rects) => Math.min(...rects.map((each) => each.left)), right = (rects) => Math.max(...rects.map((each) => each.right));
        return [rows.map((row) => right(row[0]) - right(heads[0])),
            [4, 5].flatMap((at) => heads[at].map((line) => line.left - Math.min(...rows.map((row) => left(row[at])))))]"""
    browser.go(SCRAMBLE)
    browser.wait_best()
    for width in (601, 960, 1180, 1440):
        browser.resize(width, 900)
        ends, begins = browser.script(edges)
        tally.holds(f"{width}: ends of numbers: {ends}", len(ends) > 4 and all(abs(each) < 1 for each in ends))
        tally.holds(
            f"{width}: beginnings of headings: {begins}",
            len(begins) == 4 and all(-8 < each < 4 for each in begins) and begins[0] == begins[1],
        )


def keep_their_columns(tally: Tally, browser: Browser) -> None:
    """Each card has its column and width, whatever the line reaches: nothing jumps from one to the other at a reduction, nor once that is undone."""
    columns = """return ['scramble-card', 'cube', 'line', 'steps', 'kept'].map((name) => {
        const { left, right } = part(name).getBoundingClientRect();
        return [name, Math.round(left), Math.round(right)];
    })"""
    kept = "&kept=normal.R-_U_F-_R_L"
    lines = ("", "&steps=inverse.B_D_R_F2_B_D", "&steps=inverse.B_D_R_F2_B_D~normal.R_B-_D2_R")
    for width in (960, 1180, 1440, 1920):
        browser.resize(width, 900)
        seen = []
        for line in (*lines, *lines[1::-1]):
            browser.go(SCRAMBLE + line + kept)
            seen.append(browser.script(columns))
        tally.equal(f"{width}: columns with and without a reduction", seen, seen[:1] * len(seen))


def places(tally: Tally, browser: Browser) -> None:
    """After a step what follows is in view, and the line; after the last one the line and how it ends are."""
    table = "return part('steps-table').getBoundingClientRect().top"
    inner = """return all('main *').filter((each) => each.checkVisibility() && ['auto', 'scroll'].includes(getComputedStyle(each).overflowY)
        && !each.matches('pre, textarea')).length"""

    def in_view(what: str, *names: str) -> None:
        tally.equal(
            f"{width}: after {what} what isn't in view",
            [name for name in names if not browser.script(IN_VIEW, name)],
            [],
        )

    for width, height in ((1200, 900), (360, 800)):
        is_narrow = width < 960
        browser.resize(width, height)
        browser.open(SCRAMBLE)
        browser.wait_best()
        top = browser.script(table)
        # below five rows
        tally.holds(f"{width}: the table begins at {top}", 0 <= top < 640 if is_narrow else top < 700)
        browser.go(SCRAMBLE + "&list=eoud.inverse.0")
        browser.script("document.querySelector('#solutions-groups').scrollIntoView()")
        tally.equal(f"{width}: the scramble is folded", browser.look("scramble?"), not is_narrow)
        browser.act("#solutions-groups .take")
        browser.wait_best()
        in_view("a step", *(("bar-line", "bar-undo") if is_narrow else ("line-list", "own", "net-normal")))
        top = browser.script(table)
        tally.holds(f"{width}: after a step the table begins at {top}", 0 <= top < (500 if is_narrow else 600))
        browser.act("#steps-body tr:has(.least) td .cell")
        tally.holds(f"{width}: there are long solutions", any(len(moves.split()) == 8 for moves in browser.listed()))
        # on a phone with the cases that they pass
        most = 2 if is_narrow else 1
        tally.equal(f"{width}: solutions of more than {most} lines", browser.script(BROKEN, most), [])
        cases = "return all('#solutions-groups .passed').filter((each) => getComputedStyle(each, '::before').display === 'none').length"
        tally.equal(f"{width}: cases of a list that aren't seen", browser.script(cases), 0)
        browser.act("#solutions-groups .take")
        in_view(
            "the last step",
            "line-list",
            "finished",
            "own",
            "switch",
            "bracketed",
            *(() if is_narrow else ("joined", "copy-fmc", "net-normal", "net-inverse")),
        )
        tally.equal(f"{width}: parts with a scroll area", browser.script(inner), 0)

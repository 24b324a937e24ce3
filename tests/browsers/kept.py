"""What is kept: candidates with their stars and notes, in the address, copied and read again, and the way to them on a phone."""
import re
from itertools import combinations

from attempts import NOTES, PASTE
from best import DETAILS, ROWS, moves_of
from browser import Browser
from program import program_answers
from scrambles import PASTE_ALL
from steps import ADDRESS, EXAMPLE, SCRAMBLE
from tally import Tally
from ways import line_of, ways

KEPT_SAID = "return [...document.querySelectorAll('#kept-list .total')].every((each) => each.textContent !== '')"
# what is said by a popover, and whether that is seen just below a button
UNDER = """const [said, button] = arguments.length === 2 && [...arguments].map((name) => document.getElementById(name));
    const [over, under] = [button, said].map((each) => each.getBoundingClientRect());
    return [said.textContent, said.matches(':popover-open') && Math.abs(under.top - over.bottom) < 20];"""
ADDRESS_OF_EXAMPLE = "#scramble=" + EXAMPLE.replace(" ", "_").replace("'", "-")
# goes on with the first line that is kept as soon as it is there
PRESS = """new MutationObserver((_, observer) => {
        const line = document.querySelector('#kept-list li');
        if (line === null) return;
        observer.disconnect();
        window.known = line.querySelector('.total').textContent;
        line.querySelector('button').click();
    }).observe(document, { childList: true, subtree: true })"""
KEPT_WORDS = """return [...document.querySelectorAll('#kept-list li')]
    .map((each) => [...each.querySelectorAll('.step .moves, .chip, .case')].map((one) => one.textContent))"""


def keeps_moves_alone(tally: Tally, browser: Browser) -> None:
    """Of a text that is pasted a block without moves is no candidate, so that the address has the others."""
    browser.open()
    browser.fill("scramble", "R U F // scramble\n\n() // nothing\n\nU R // good\n")
    browser.until("return document.querySelectorAll('#kept-list li').length > 0")
    tally.equal("what has moves is kept", browser.texts("#kept-list .step .moves"), ["U R"])
    browser.load()
    browser.until("return document.querySelectorAll('#kept-list li').length > 0")
    tally.equal("and is in the address", browser.texts("#kept-list .step .moves"), ["U R"])


def keeps(tally: Tally, browser: Browser) -> None:
    """Candidates are kept by their stars."""
    browser.open(ADDRESS)
    browser.wait_best()
    browser.press("s")
    tally.holds(
        "a line without moves has no star", browser.script("return document.getElementById('keep-line').hidden")
    )
    tally.holds("and no key keeps it", "kept=" not in browser.script("return location.hash"))
    star = "document.querySelector(arguments[0]).click()"
    browser.script(star, "#best-body tr:nth-child(2) .star")
    browser.act('[data-cell="eorl.normal"]')
    browser.script(star, "#solutions-groups li:nth-child(3) .star")
    third = browser.texts("#solutions-groups .take")[2]
    browser.act("#solutions-groups .take")
    browser.act("#keep-line")
    browser.until(KEPT_SAID)
    second = browser.script("return decodeURIComponent(location.hash.split('kept=')[1].split(',')[0])")
    tally.equal("three are kept", (len(browser.texts("#kept-list li")), browser.text("kept-count")), (3, "3 lines"))
    tally.holds(f"one of the best, {second}", second.startswith(("normal.", "inverse.")))
    tally.holds("one of the list", third in browser.texts("#kept-list .step .moves"))
    chips = browser.script(KEPT_WORDS.replace(".step .moves, .chip, .case", ".chip"))
    tally.equal(
        "each with what it reaches", [any(word.startswith("EO ") for word in words) for words in chips], [True] * 3
    )
    cases = [len(each) for each in browser.script(KEPT_WORDS.replace(".step .moves, .chip, .case", ".case"))]
    tally.equal("and its cases, a row of the best with its own and the moves to it", cases, [2, 2, 2])


def keeps_in_address(tally: Tally, browser: Browser) -> None:
    """Those of before have notes, and come back from the address; they are gone on with and taken away."""
    browser.script(
        "const note = document.querySelector('#kept-list .note-field'); note.value = 'a \u00e9 ~ , ; note'; note.dispatchEvent(new "
        "Event('change'))",
    )
    before = browser.texts("#kept-list .step .moves")
    browser.open(browser.script("return location.hash"))
    browser.until(KEPT_SAID)
    notes = "return [...document.querySelectorAll('#kept-list .note-field')].map((each) => each.value)"
    tally.equal(
        "they come back from the address",
        (browser.texts("#kept-list .step .moves"), browser.script(notes)),
        (before, ["a \u00e9 ~ , ; note", "", ""]),
    )
    browser.act("#kept-list li:nth-child(2) button")
    tally.equal("one is gone on with", browser.text("bracketed"), before[1])
    tally.equal("and the others stay", browser.texts("#kept-list .step .moves"), before)
    browser.click("#kept-list li:nth-child(3) [data-control^=away]")
    tally.equal("one is taken away", browser.texts("#kept-list .step .moves"), before[:2])
    tally.equal(
        "its stars are the page's", browser.script("return document.getElementById('keep-line').ariaPressed"), "true"
    )


def copies_kept(tally: Tally, browser: Browser) -> None:
    """Those that are left are copied, with their notes; and no more are kept than the address has room for."""
    browser.hears("A line was removed.")
    copied = "Copied: " + "\n\n".join(
        [
            SCRAMBLE,
            *browser.script(
                "return [...document.querySelectorAll('#kept-list li')].map((each) => each.querySelector('.moves').textContent)"
            ),
            # by which the page takes them back
            f"{ADDRESS}&kept={browser.hash().split('&kept=')[1]}",
        ]
    )
    browser.click("#copy-kept")
    said = browser.hears("Copied: ")
    blocks = said.split("\n\n")
    tally.equal("all are copied", [blocks[0], *(block.split(" //")[0] for block in blocks[1:])], copied.split("\n\n"))
    tally.holds(f"with their notes: {blocks[1]}", blocks[1].endswith("// a \u00e9 ~ , ; note"))
    full = "#scramble=R&kept=" + ",".join(f"normal.{'_'.join(['R', 'U'] * at)}" for at in range(1, 25))
    browser.open(full)
    browser.submit("own", "F")
    browser.settle("return document.querySelectorAll('#line-list li').length === 1")
    browser.click("#keep-line")
    tally.equal("no more than fit", len(browser.texts("#kept-list li")), 24)
    said = browser.script(UNDER, "said", "keep-line")
    tally.equal(
        "which is said under the star",
        said,
        ["24 lines are kept, and there can be no more: remove one of them first.", True],
    )


def lengths_of(row: list[str], first: str) -> str:
    """The lengths of a row's reduction on each side alone, and over both if its first one is."""
    *_, normal, inverse = row
    moves = moves_of(first)
    both = f", {len(moves.split())} over both" if "(" in moves and not moves.startswith("(") else ""
    return f"{normal} normal, {inverse} inverse{both}"


def keeps_reductions(tally: Tally, browser: Browser) -> None:
    """A row of the best is kept with its reduction: the star is of that row, and what is kept says what the row says, sorted by it."""
    browser.open(ADDRESS)
    browser.wait_best()
    # two rows of one orientation may stand further down
    browser.click("#best-more")
    browser.wait_best()
    rows = browser.script(ROWS)
    one, other = next(pair for pair in combinations(range(len(rows)), 2) if rows[pair[0]][1] == rows[pair[1]][1])
    stars = "return [...document.querySelectorAll('#best-body .star')].map((each) => each.ariaPressed === 'true')"
    case = browser.texts(f"#best-body tr:nth-child({one + 1}) .case")[0]
    total, line, state, reduction, *_ = rows[one]
    told = """const it = document.querySelectorAll('#best-body .first')[arguments[0]]; it.scrollIntoView({ block: 'center' });
        return it.textContent"""
    browser.until(told, one)
    first = browser.script(told, one)
    said = f"{reduction} {case}: {lengths_of(rows[one], first)}"
    browser.act('[data-cell="eorl.normal"]')
    shortest = browser.script(
        "const row = document.querySelector('#solutions-groups li'); row.querySelector('.star').click();"
        "return row.querySelector('.take').textContent"
    )
    browser.script("document.querySelectorAll('#best-body .star')[arguments[0]].click()", one)
    browser.until(KEPT_SAID)
    tally.equal("the star is only of the row", browser.script(stars), [at == one for at in range(len(rows))])
    named = browser.script("return document.querySelectorAll('#best-body .star')[arguments[0]].ariaLabel", one)
    tally.holds(f"and says so: {named}", named.endswith(f", {reduction} {case}"))
    tally.equal(
        "it says what the row said, and comes before an orientation alone",
        browser.script(KEPT_WORDS)[0],
        [line, state, said, f"then {moves_of(first)}"],
    )
    tally.equal("which stays as it was", browser.script(KEPT_WORDS)[1][:2], [shortest, "EO R/L"])
    browser.script("document.querySelectorAll('#best-body .star')[arguments[0]].click()", other)
    browser.until(KEPT_SAID)
    both = [at in (one, other) for at in range(len(rows))]
    tally.equal("the other row of this orientation is kept by itself", browser.script(stars), both)
    totals = [each.split()[0] for each in browser.texts("#kept-list .total")]
    tally.equal("they are sorted by all moves, which are told", totals[:2], [rows[one][0], rows[other][0]])
    names = browser.script("return [...document.querySelectorAll('#kept-list button')].map((each) => each.ariaLabel)")
    tally.equal("no two buttons have one name", len(set(names)), len(names))
    moves = moves_of(first)
    reads_reductions(tally, browser, said, f"{moves} // {reduction} ({len(moves.split())}/{total})")


def keeps_what_is_gone_on_to(tally: Tally, browser: Browser) -> None:
    """A line is kept as it stands: beside the list of a reduction that its row of the best led to it is kept as that row is."""
    browser.open(ADDRESS)
    browser.wait_best()
    _, line, state, reduction, *_ = browser.script(ROWS)[0]
    first = browser.texts("#best-body .first")[0]
    pressed = "return document.querySelector(arguments[0]).ariaPressed"
    browser.act("#best-body .take")
    wide = "const { left, width } = part('keep-line').getBoundingClientRect(); return [left, width]"
    before = browser.script(wide)
    browser.click("#keep-line")
    tally.equal("the button is as wide as before", browser.script(wide), before)
    browser.until(KEPT_SAID)
    words = browser.script(KEPT_WORDS)
    tally.equal(
        "the line with its reduction",
        [(*each[:2], each[2][:6], each[3]) for each in words],
        [(line, state, reduction, f"then {moves_of(first)}")],
    )
    tally.equal("which the button says", browser.script(pressed, "#keep-line"), "true")
    browser.click("#solutions-close")
    tally.equal("without the list the line alone isn't kept", browser.script(pressed, "#keep-line"), "false")
    browser.press("u")
    browser.wait_best()
    tally.equal("the row has its star", browser.script(pressed, "#best-body .star"), "true")


def reads_reductions(tally: Tally, browser: Browser, said: str, step: str) -> None:
    """What is kept with its reduction comes back from the address and from the copy as it was, without a doubt, whatever its note says."""
    note = "const it = document.querySelector('#kept-list .note-field'); it.value = arguments[0]; it.dispatchEvent(new Event('change'))"
    noted = "2. on inverse, // premoves: R U F x2"
    browser.script(note, noted)
    browser.until(KEPT_SAID)
    before = browser.script(KEPT_WORDS)
    browser.open(browser.script("return location.hash"))
    browser.until(KEPT_SAID)
    tally.equal("they come back from the address", browser.script(KEPT_WORDS), before)
    browser.click("#copy-kept")
    text = browser.hears("Copied: ").removeprefix("Copied: ")
    tally.holds("the copy says it too, below the moves", f"\n{step}\n// {said}\n// {noted}\n" in text)
    notes = browser.script(NOTES)
    tally.equal("one has a note", [each for each in notes if each], [noted])
    for taken in (PASTE_ALL, PASTE):
        browser.open()
        for _ in "once", "again":
            browser.script(taken, text)
            browser.settle("return document.querySelectorAll('#kept-list .total').length > 0")
            browser.until(KEPT_SAID)
            tally.equal("it is read as it was", (browser.script(KEPT_WORDS), browser.script(NOTES)), (before, notes))
            tally.equal("without a doubt", (browser.text("scramble-doubt"), browser.text("alert")), ("", ""))
            tally.equal("of one scramble", (browser.value("scramble"), browser.look("n #desk-chips a")), (SCRAMBLE, 1))
    browser.open(f"{ADDRESS}&kept=normal.R;;drud-eofb,normal.R;a;drud-eofb")
    browser.until(KEPT_SAID)
    tally.equal("a reduction that may not follow is not said", browser.script(KEPT_WORDS), [["R"], ["R"]])


def goes_on_at_once(tally: Tally, browser: Browser) -> None:
    """Who goes on with a line as soon as it is seen comes to its reductions over both sides, since the side of the best isn't known yet."""
    script = browser.before_page(PRESS)
    browser.open(f"{ADDRESS_OF_EXAMPLE}&kept=inverse.B_D_R_F2_B_D;;drrl-eoud")
    browser.no_longer(script)
    tally.equal("it is pressed before more is known of it", browser.script("return window.known"), "")
    browser.settle("return document.activeElement.closest('#solutions-groups') !== null")
    tally.equal(
        "it goes on",
        (browser.text("bracketed"), browser.text("solutions-heading")),
        ("(B D R F2 B D)", "DR R/L after EO U/D, both sides"),
    )
    inverted = program_answers(browser.program, ["invert"], ["B D R F2 B D"])[0]
    found = [way for way in ways(f"0 ; {inverted} {EXAMPLE} ; ; B D R F2 B D") if way.step == "drrl-eoud"]
    least = min(way.length for way in found)
    tally.equal(
        "the list of its reduction", browser.listed(), [line_of(way.dr) for way in found if way.length == least]
    )


def keeps_a_note(tally: Tally, browser: Browser) -> None:
    """The press that ends a note is heard: the row of its button stays where it is."""
    browser.open(f"{ADDRESS}&kept=normal.R,normal.U")
    browser.until(KEPT_SAID)
    browser.click("#kept-list li:nth-child(1) .note-field")
    browser.press("a note ")
    second = browser.texts("#kept-list .step .moves")[1]
    browser.click("#kept-list li:nth-child(2) button")
    browser.wait()
    tally.equal("the press after a note is heard", browser.text("bracketed"), second)
    notes = "return [...document.querySelectorAll('#kept-list .note-field')].map((each) => each.value)"
    tally.equal("and the note is kept", browser.script(notes), ["a note", ""])
    browser.script("history.back()")
    tally.holds(
        "the way back has it too",
        browser.until("return document.getElementById('bracketed').textContent !== arguments[0]", second),
    )
    tally.equal("as it was", browser.script(notes), ["a note", ""])


def leaves_kept(tally: Tally, browser: Browser) -> None:
    """A scramble that is pasted in place of the whole leaves what is kept and taken, which Back leads to; the same one again doesn't."""
    two = {"#kept-list .step .moves": ["R", "U"]}
    browser.open(f"{ADDRESS}&kept=normal.R,normal.U")
    browser.walk(
        tally,
        "the same scramble keeps them",
        ("until", KEPT_SAID, {}),
        ("script", PASTE, f"{SCRAMBLE} // again", {}),
        ("wait", two),
        ("script", PASTE, EXAMPLE, {}),
        ("comes", "kept", 0, {}),
        ("script", "history.back()", {}),
        ("comes", "kept", 2, two),
        *(("fill", "scramble", typed, {}) for typed in ("", "B", "B U", "B U F")),
        ("comes", "kept", 0, {}),
        ("script", "history.back()", {}),
        ("comes", "kept", 2, two),
    )


def keeps_lengths(tally: Tally, browser: Browser) -> None:
    """What is kept of a row says what the row says, also where a twin that isn't shown has fewer moves on a side."""
    browser.open("#scramble=R-_U-_F_U-_R2_F_D2_L_R_D2_U_B_U-_B-_L_B_U-_L-_F-_R2_B_F_L_R-_U-_F")
    browser.choose("best-slack", "2")
    browser.wait_best()
    rows = browser.script(ROWS)
    tally.holds("a row has twins", browser.texts("#best-body .twins"))
    browser.script("document.querySelectorAll('#best-body .star').forEach((star) => star.click())")
    browser.until(KEPT_SAID)
    said = [[words[0], words[-2].split(": ")[1]] for words in browser.script(KEPT_WORDS)]
    wanted = [[row[1], lengths_of(row, first)] for row, (first, *_) in zip(rows, browser.script(DETAILS), strict=True)]
    tally.equal("each as in its row", said, wanted)
    tally.holds("some are over both sides", any("over both" in lengths for _, lengths in wanted))


def keeps_stages(tally: Tally, browser: Browser) -> None:
    """What is kept is seen step by step, each with what it reaches."""

    def shown(scramble: str, *lines: str) -> list[list[str]]:
        browser.open(f"{scramble}&kept=" + ",".join(lines))
        browser.until(KEPT_SAID)
        return browser.script(KEPT_WORDS.replace(".moves", ".moves, .total"))

    example = ADDRESS_OF_EXAMPLE
    whole = "~".join(("inverse.B_D_R_F2_B_D", "normal.R_B-", "normal.D2_R"))
    apart = "inverse.B_D_R~normal.R2~inverse.F2_B_D~normal.R2_R_B-_D2_R"
    oriented, reduced = ["(B D R F2 B D)", "EO U/D"], ["R B'", "D2 R", "DR F/B"]
    wanted = [
        [*oriented, *reduced, "10 in all"],
        [*oriented, *reduced, "10 in all"],
        [*oriented, *reduced, "(F2)", "11 in all"],
        ["(B D)", "2 in all"],
    ]
    tally.equal(
        "each step with what it reaches",
        shown(example, whole, f"{whole}~inverse.F2", "inverse.B_D", f"{whole};;drrl-eoud"),
        wanted,
    )
    both = ["(B D R)", "R2", "(F2 B D)", "EO U/D", "R2 R B' D2 R", "DR F/B"]
    tally.equal("an orientation on both sides", shown(example, apart)[0][:-1], both)
    tally.equal("one that held before", shown("#scramble=U_R", "normal.R-"), [["R'", "DR U/D", "1 in all"]])
    # U keeps the DR on its axis, and the other U brings both others back
    again = ["U R2", "(U)", "DR R/L", "DR F/B", "3 in all"]
    tally.equal("what held all the time isn't reached", shown("#scramble=U2", "normal.U_R2~inverse.U"), [again])
    tally.equal("one that solves", shown("#scramble=F", "normal.F-"), [["F'", "solved", "1 in all"]])
    tally.equal(
        "two that are reached at once", shown("#scramble=U2_F", "normal.F-"), [["F'", "DR U/D", "DR R/L", "1 in all"]]
    )


def leads_to_kept(tally: Tally, browser: Browser) -> None:
    """Where the page is narrow a button that stays in view leads to what is kept and back; a star moves nothing under a finger."""
    browser.command("Emulation.setDeviceMetricsOverride", width=360, height=740, deviceScaleFactor=1, mobile=False)
    seen = "return ['bar', 'bar-undo', 'bar-kept'].map((name) => document.getElementById(name).checkVisibility())"
    star = """const star = document.querySelector('#best-body .star'); if (arguments[0]) star.scrollIntoView({ block: 'center' });
        const { top } = star.getBoundingClientRect(); star.click();
        return document.querySelector('#best-body .star').getBoundingClientRect().top - top"""
    for is_scrolled in (True, False):
        browser.open(ADDRESS)
        browser.wait_best()
        tally.equal(
            "there is no bar without a step or a line that is kept", browser.script(seen), [False, False, False]
        )
        moved = browser.script(star, is_scrolled)
        tally.holds(f"a star stays where it is: {moved}", abs(moved) < 2)
        tally.equal(
            "what is kept is led to", (browser.script(seen), browser.text("bar-kept")), ([True, False, True], "★ 1")
        )
    browser.script(
        "document.querySelectorAll('#best-body .star')[1].click(); scrollTo({ top: 150, behavior: 'instant' })"
    )
    tally.equal("the button counts", browser.text("bar-kept"), "★ 2")
    leaves = "return document.getElementById('bar-kept').textContent === '★ 2'"
    is_seen = "const { top, bottom } = document.getElementById('kept').getBoundingClientRect(); return top >= 0 && top < innerHeight"
    tally.equal("they are far below", browser.script(is_seen), False)
    browser.click("#bar-kept")
    tally.equal(
        "it leads there",
        (browser.script(is_seen), browser.focused(), browser.text("bar-kept")),
        (True, "kept-heading", "Back"),
    )
    browser.click("#bar-kept")
    tally.equal("and back", (browser.script("return scrollY"), browser.text("bar-kept")), (150, "★ 2"))
    browser.click("#bar-kept")
    browser.script("scrollTo({ top: 0, behavior: 'instant' })")
    tally.holds("whoever leaves isn't led back", browser.until(leaves))
    browser.click("#bar-kept")
    browser.act("#kept-list li:nth-child(1) button")
    tally.equal(
        "whoever goes on comes to what follows",
        (browser.script(seen), browser.until(leaves)),
        ([True, True, True], True),
    )
    is_there = "return document.activeElement.closest('#solutions-groups') !== null"
    tally.equal("and has the focus in the list of its reduction", browser.until(is_there), True)
    fits = "return document.documentElement.scrollWidth <= innerWidth"
    tally.holds("the bar has room for all", browser.script(fits))
    browser.command("Emulation.setDeviceMetricsOverride", width=1280, height=1000, deviceScaleFactor=1, mobile=False)
    tally.equal("where the page is wide there is no bar", browser.script(seen), [False, False, False])

"""Lines that are kept beside each other: the cubes of both sides, how many steps follow on each, the first of the best, and notes."""
import re
from collections import Counter
from typing import Any

from best import LONGER, address_of
from browser import Browser, Keys
from kept import ADDRESS_OF_EXAMPLE, KEPT_SAID
from program import program_answers
from tally import Tally
from wanted import SIDES, Position
from told import chosen_by
from ways import line_of, state_of, title_of, ways

# the moves of each on both sides: two orientations, one with its reduction, two that reach nothing
EO, OTHER, DR, FIRST, LAST = (
    ("", "B D R F2 B D"),
    ("R' U F' R L", ""),
    ("R' U F' R L D' F B' L2 D", ""),
    ("D", ""),
    ("U", ""),
)
KEPT = "&kept=inverse.B_D_R_F2_B_D;six%20moves,normal.R-_U_F-_R_L;;drud-eorl,normal.R-_U_F-_R_L~normal.D-_F_B-_L2_D,normal.D,normal.U"
SHOWN = """return all('#comparison-lines li').map((each) => ({
    line: each.querySelector('h3').textContent, total: each.querySelector('.total').textContent,
    letters: [...each.querySelectorAll('.net')].map((net) => [...net.querySelectorAll('.sticker')].map((one) => one.dataset.colour).join('')),
    marks: [...each.querySelectorAll('figcaption')].map((one) => one.textContent),
    bad: [...each.querySelectorAll('.net')].map((net) => net.querySelectorAll('.bad').length),
    steps: [...each.querySelectorAll('tbody tr')].map((row) => [...row.children].map((cell) => cell.textContent)),
    texts: [...each.querySelectorAll(':scope > p')].slice(1).map((one) => one.textContent) }))"""
REDUCED = "&kept=normal.R-_U_F-_R_L~normal.D-_F_B-_L2_D,inverse.B_D_R_F2_B_D~normal.R_B-_D2_R,normal.D"
COMPARE = "[...document.querySelectorAll('#kept-list [data-control^=compare]')]"


def counts_of(at: Position, step: str, side: str) -> str:
    """How many solutions there are of the least length and of one move more, as the page writes it."""
    lengths = Counter(len(moves.split()) for moves in at.listed(step, side, 1))
    return ", ".join(f"{length} ×{lengths[length]:,}" for length in sorted(lengths))


def steps_of(at: Position, program: str) -> list[list[str]]:
    """The steps that follow, each with what solvers choose it by, its least length over both sides if that is less than on each, and its counts there."""
    reductions, orientations = at.open_steps()
    over, rows = at.over_both(program), []
    for step in [] if at.is_reduced() else reductions or orientations:
        both = f" {over[step]} over both" if step in over else ""
        head = f"{state_of(step)} {chosen_by(at, step)}{both}"
        rows.append([head, *(counts_of(at, step, side) for side in SIDES)])
    return rows


def chooses(browser: Browser, *lines: tuple[str, str]) -> None:
    """Has these lines compared, or no more."""
    for line in map(line_of, lines):
        browser.script(
            f"{COMPARE}.find((each) => each.dataset.control.replace(/ dr.*/, '') === 'compare ' + arguments[0]).click()",
            line,
        )


def end_of(shown: dict[str, Any]) -> int:
    """How many moves a line takes in all, with its best way on if it has one."""
    moves = re.findall(r"(\d+) move", shown["total"])
    return int([*moves, *re.findall(r"(\d+) in all", " ".join(shown["texts"]))][-1])


def beside_each_other(tally: Tally, browser: Browser) -> None:
    """Each has its cube on both sides, what follows it there, the first of the best, and its note."""
    browser.open(address_of(LONGER) + KEPT)
    browser.wait_best()
    browser.until("return all('#kept-list .total').every((each) => each.textContent !== '')")
    chooses(browser, EO)
    tally.equal("one alone isn't compared", browser.text("kept-compare"), "")
    chooses(browser, OTHER, DR, LAST)
    tally.equal("four are", browser.text("kept-compare"), "Compare 4")
    browser.click("#kept-compare")
    tally.holds("they come", browser.until("return document.querySelector('#comparison').open"))
    said = browser.texts("#comparison > .note")
    tally.equal("it is said what isn't counted", ["don't reach the step earlier" in each for each in said], [True])
    browser.resize(1440, 900)
    tally.holds(
        "a laptop has room for all of them",
        browser.script("return part('comparison').scrollHeight <= part('comparison').clientHeight"),
    )
    browser.resize()
    shown = {each["line"]: each for each in browser.script(SHOWN)}
    tally.equal("each of them", set(shown), set(map(line_of, (EO, OTHER, DR, LAST))))
    for made in (EO, OTHER, DR, LAST):
        at, told = Position(LONGER, *made), shown[line_of(made)]
        tally.equal(f"{made}: the cube on both sides", told["letters"], [at.letters(side) for side in SIDES])
        reached = {EO: ", EO U/D", OTHER: ", EO R/L", DR: ", DR F/B", LAST: ""}[made]
        moves = f"{at.in_all()} move{'' if at.in_all() == 1 else 's'}"
        tally.equal(f"{made}: all moves, and what is reached", told["total"], moves + reached)
        tally.equal(f"{made}: what follows on each side", told["steps"], steps_of(at, browser.program))
        tally.equal(f"{made}: nothing is marked only after a reduction", any(told["bad"]), made != DR)
    inverted = program_answers(browser.program, ["invert"], [EO[1]])[0]
    way = ways(f"0 ; {inverted} {LONGER} ; ; {EO[1]}")[0]
    tally.equal(
        "the first of the best, and the note",
        shown[line_of(EO)]["texts"],
        [f"Best way on: {line_of(way.dr)}, {title_of(way)}, {way.total} in all", "six moves"],
    )
    case = Position(LONGER, *EO).case(way.reduction)
    tally.equal(
        "its case is marked",
        shown[line_of(EO)]["marks"],
        [f"{side.title()} · {title_of(way)}: {case}" for side in SIDES],
    )
    kept = [f"{side.title()} · DR U/D: {Position(LONGER, *OTHER).case('ud')}" for side in SIDES]
    tally.equal("of one that was kept with a reduction that is marked", shown[line_of(OTHER)]["marks"], kept)
    ends = {line: end_of(each) for line, each in shown.items()}
    fewest = [line for line in ends if ends[line] == min(ends.values())]
    tally.holds(f"some take more than others: {ends}", len(fewest) < len(ends))
    tally.equal(
        "which take the fewest",
        browser.text("comparison-said"),
        f"They part at the first step. Fewest up to a DR: {min(ends.values())} moves in all, with {', or with '.join(fewest)}.",
    )
    tally.equal(
        "after a reduction no step follows", shown[line_of(DR)]["texts"], ["nissy has no step after a DR.", "", ""]
    )


def chosen(tally: Tally, browser: Browser) -> None:
    """No more than four are compared, the last that were chosen; a key closes them, and one leads on from one of them."""
    pressed = f"return {COMPARE}.filter((each) => each.ariaPressed === 'true').map((each) => each.dataset.control.slice(8).replace(/ dr.*/, ''))"
    browser.open(address_of(LONGER) + KEPT)
    browser.wait_best()
    browser.until("return all('#kept-list .total').every((each) => each.textContent !== '')")
    chooses(browser, FIRST, EO, OTHER, DR, LAST)
    wanted = sorted(map(line_of, (EO, OTHER, DR, LAST)))
    tally.equal("the last four", sorted(browser.script(pressed)), wanted)
    chooses(browser, DR, LAST)
    tally.equal(
        "two",
        (sorted(browser.script(pressed)), browser.text("kept-compare")),
        (sorted(map(line_of, (EO, OTHER))), "Compare 2"),
    )
    tally.holds("which is said", browser.hears("2 lines to compare."))
    browser.script("part('kept-compare').focus()")
    browser.press(Keys.ENTER)
    tally.holds("they come by keys", browser.until("return document.querySelector('#comparison').open"))
    browser.press(Keys.ESCAPE)
    tally.equal("a key closes them, and the focus is back", browser.focused(), "kept-compare")
    browser.click("#kept-compare")
    tally.holds("they come again", browser.until("return document.querySelector('#comparison').open"))
    browser.walk(
        tally,
        "one leads on",
        ("script", "document.querySelector('#comparison-lines button').click()", {}),
        ("comes", "steps", 1, {"comparison?": False}),
    )
    tally.holds("it is one of them", browser.text("bracketed") in map(line_of, (EO, OTHER)))


def goes_on_where_it_ended(tally: Tally, browser: Browser) -> None:
    """Who goes on with a line types on the side of its last step, or of the reduction that it was kept with, whatever side was typed on before."""
    sides = {"(B D R F2 B D)": "normal side", "R' U F' R L": "normal side", "U (R)": "inverse side"}
    browser.open(ADDRESS_OF_EXAMPLE + "&kept=inverse.B_D_R_F2_B_D;;drfb-eoud,normal.R-_U_F-_R_L,normal.U~inverse.R")
    browser.until(KEPT_SAID)
    kept = browser.look("kept lines")
    tally.equal("all of them", sorted(kept), sorted(sides))
    for key in ("i", "n"):
        for place, line in enumerate(kept, 1):
            browser.script("document.activeElement.blur()")
            browser.press(key)
            browser.click(f"#kept-list > li:nth-child({place}) [data-control^='on ']")
            tally.holds(f"{line} after {key} is gone on with", browser.comes("bracketed", line))
            tally.equal(f"{line} after {key}", browser.text("side"), sides[line])


def says_which(tally: Tally, browser: Browser) -> None:
    """Of lines that are reduced it is said by which reduction, and of one that solves only that."""
    totals = "return all('#comparison-lines .total').map((each) => each.textContent).sort()"
    notes = "return all('#comparison-lines > li > .note').map((each) => each.textContent).filter(Boolean)"
    browser.walk(
        tally,
        "two reductions and a solution",
        ("go", "#scramble=L2_U2_R-_F-&kept=normal.F,normal.F_R.inverse.U,normal.F_R_U2_L2", {}),
        ("until", KEPT_SAID, {}),
    )
    for line in ("F", "F R (U)", "F R U2 L2"):
        browser.script(f"{COMPARE}.find((each) => each.dataset.control === 'compare ' + arguments[0]).click()", line)
    browser.walk(
        tally,
        "they are compared",
        ("click", "#kept-compare", {}),
        ("until", "return document.querySelector('#comparison').open", {}),
        ("wait", {totals: ["1 move, DR R/L", "3 moves, DR U/D", "4 moves, solved"]}),
        ("wait", {notes: ["nissy has no step after a DR."] * 2}),
        ("press", Keys.ESCAPE, {}),
    )


def says_where_they_part(tally: Tally, browser: Browser) -> None:
    """It is said with which steps lines begin alike, and which of them takes the fewest moves; what is solved isn't compared with what isn't."""
    browser.open(
        "#scramble=L2_U2_R-_F-&kept=normal.F,normal.F~normal.R.inverse.U,normal.F~normal.R_U2_L2,inverse.L2_U2_R-_F-"
    )
    browser.until(KEPT_SAID)
    first, both, solved, other = ("F", ""), ("F R", "U"), ("F R U2 L2", ""), ("", "L2 U2 R' F'")
    for lines, said in (
        ((first, both), "They part at step 2, after F. Fewest up to a DR: 1 move in all, with F."),
        ((both, solved), "They part at step 2, after F."),
        ((solved, other), "They part at the first step. All take as many: 4 moves in all."),
    ):
        chooses(browser, *lines)
        browser.walk(
            tally,
            f"{lines}",
            ("click", "#kept-compare", {}),
            ("until", "return document.querySelector('#comparison').open", {"comparison-said": said}),
            ("press", Keys.ESCAPE, {}),
        )
        chooses(browser, *lines)


def says_nothing_of_no_steps(tally: Tally, browser: Browser) -> None:
    """How steps are counted is said only if a step follows one of the lines."""
    notes = "return seen('#comparison > .note').length"
    browser.open(address_of(LONGER) + REDUCED)
    browser.wait_best()
    browser.until("return all('#kept-list .total').every((each) => each.textContent !== '')")
    for lines, wanted in (((DR, ("(B D R F2 B D) R B' D2 R", "")), 0), ((FIRST,), 1)):
        chooses(browser, *lines)
        browser.click("#kept-compare")
        tally.holds("they come", browser.until("return document.querySelector('#comparison').open"))
        tally.equal("what is said of steps", browser.script(notes), wanted)
        browser.press(Keys.ESCAPE)

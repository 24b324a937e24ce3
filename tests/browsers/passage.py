"""How a reduction goes: the cases that it passes, its set-up and its trigger, as the model has them; rows in groups and chips of cases by these."""
import re
from collections import Counter

from best import LONGER, MORE, SCRAMBLE, address_of
from browser import Browser, Keys
from tally import Tally
from wanted import Position
from ways import ways

# from these on solvers know the moves to the end, as docs/WORDS.md says
KNOWN = ("4c4e", "4c2e", "3c2e", "2c4e")
EO = "B D R F2 B D"
AFTER = address_of(LONGER) + "&steps=inverse.B_D_R_F2_B_D"
# of each the moves, and where cases are written these, the moves after them, and whether they are of the trigger
PASSED = """return all(arguments[0]).map((each) => [each.textContent, [...each.querySelectorAll('.passed')].map((one) =>
    [getComputedStyle(one, '::before').content.replaceAll('"', '').trim(), one.textContent, one.matches('.trigger')])])"""
CHIPS = "return all('#%s-cases-chips button').map((each) => [each.dataset.case, Number(each.textContent.trim().split(' ')[1].replace(',', ''))])"
PRESSED = "return all('#%s-cases-chips [aria-pressed=true]').map((each) => each.dataset.case)"
CHIP = "#%s-cases-chips [data-case='%s']"
GROUPS = """return all('#solutions-groups .group').map((each) =>
    [each.querySelector('h3').textContent, [...each.querySelectorAll('.take')].map((take) => take.dataset.key)])"""


def sides_of(line: str) -> tuple[list[str], list[str]]:
    """The moves of a line on each side, of which those on the inverse stand at its end, in brackets."""
    normal, _, inverse = line.replace(")", "").partition("(")
    return normal.split(), inverse.split()


def cases_of(scramble: str, inverse: str, axis: str, line: str) -> list[str]:
    """The case before each move of a reduction, those on the normal side first."""
    normal, later = sides_of(line)
    none: list[str] = []
    before = [(normal[:at], none) for at in range(len(normal))] + [(normal, later[:at]) for at in range(len(later))]
    return [Position(scramble, " ".join(own), " ".join([inverse, *other])).case(axis) for own, other in before]


def begin_of(cases: list[str]) -> int:
    """Where the trigger begins: no later case is unknown."""
    return next((at for at in range(len(cases)) if all(each in KNOWN for each in cases[at:])), len(cases))


def trigger_of(cases: list[str]) -> str:
    """The case from which it goes."""
    return cases[begin_of(cases)]


def passage_of(cases: list[str], line: str) -> list[list[object]]:
    """The moves as the page has them: each case where it is another one."""
    begin, words = begin_of(cases), line.split()
    places = [at for at, each in enumerate(cases) if at == 0 or each != cases[at - 1]]
    return [[cases[at], " ".join(words[at:end]), at >= begin] for at, end in zip(places, [*places[1:], len(words)])]


def of_a_list(tally: Tally, browser: Browser) -> None:
    """The rows of a list of reductions go through their cases, stand together by their trigger, and are left by its case."""
    browser.open(AFTER + "&list=drrl-eoud.inverse.1")
    rows = browser.script(PASSED, "#solutions-groups .take")
    cases = {line: cases_of(LONGER, EO, "rl", line) for line, _ in rows}
    tally.equal(
        "each with its cases", [shown for _, shown in rows], [passage_of(cases[line], line) for line, _ in rows]
    )
    tally.holds("some have a set-up", {True, False} <= {is_last for _, shown in rows for _, _, is_last in shown})
    triggers = Counter(trigger_of(each) for each in cases.values())
    tally.holds(f"there are several triggers: {triggers}", len(triggers) > 1)
    groups = browser.script(GROUPS)
    tally.equal(
        "each group has one trigger, which its heading says",
        [{trigger_of(cases[key]) for key in keys} for _, keys in groups],
        [set(re.findall(r"trigger from (\dc\de): ", heading)) for heading, _ in groups],
    )
    tally.equal("the chips count them", dict(browser.script(CHIPS % "list")), dict(triggers))
    first, second = list(triggers)[:2]
    for pressed in ([first], [first, second], [second]):
        changed = second if len(pressed) == 2 else first
        browser.click(CHIP % ("list", changed))
        tally.equal(
            f"{pressed} leaves its rows",
            sorted(browser.listed()),
            sorted(line.strip("()") for line, each in cases.items() if trigger_of(each) in pressed),
        )
        tally.equal(
            f"{pressed}: which is seen, said, and keeps the focus",
            (
                sorted(browser.script(PRESSED % "list")),
                browser.text("list-clear"),
                browser.script("return document.activeElement.dataset.case"),
            ),
            (sorted(pressed), "Clear 1 filter", changed),
        )
    browser.press(Keys.SPACE)
    tally.equal("by keys it is pressed again", sorted(browser.script(PRESSED % "list")), sorted([first, second]))
    browser.click("#list-clear")
    tally.equal("cleared, none is pressed", (browser.script(PRESSED % "list"), len(browser.listed())), ([], len(rows)))
    browser.script("part('cover').click()")
    hidden = "return all('#solutions-groups .passed').map((each) => getComputedStyle(each, '::before').visibility)"
    tally.equal("covered moves show no cases", set(browser.script(hidden)), {"hidden"})
    browser.script("part('cover').click()")


def of_the_best(tally: Tally, browser: Browser) -> None:
    """So do the best reductions, over both sides too; a label says it."""
    browser.open(AFTER)
    browser.wait_best()
    tally.holds("all of them", browser.until(MORE))
    axes = [state.split()[1].replace("/", "").lower() for state in browser.texts("#best-body td:nth-child(3)")]
    rows = browser.script(PASSED, "#best-body .take")
    cases = [cases_of(LONGER, EO, axis, line) for axis, (line, _) in zip(axes, rows)]
    tally.equal(
        "each with its cases",
        [shown for _, shown in rows],
        [passage_of(each, line) for each, (line, _) in zip(cases, rows)],
    )
    tally.holds("some are over both sides", any(all(sides_of(line)) for line, _ in rows))
    labels = browser.script("return all('#best-body .take').map((each) => each.ariaLabel)")
    tally.equal(
        "a label says where it begins, and its trigger",
        [re.findall(r"from (\dc\de)", each) for each in labels],
        [[each[0], trigger_of(each)] for each in cases],
    )
    browser.script("part('best-options').open = true")
    triggers = Counter(map(trigger_of, cases))
    tally.holds(
        "the chips come", browser.until("return all('#best-cases-chips button').length === arguments[0]", len(triggers))
    )
    tally.equal("and count the triggers", dict(browser.script(CHIPS % "best")), dict(triggers))
    goes_on(tally, browser, rows[0][0], passage_of(cases[0], rows[0][0]))


def goes_on(tally: Tally, browser: Browser, line: str, wanted: list[list[object]]) -> None:
    """A reduction that is taken, and kept, shows them in the line, and in what is kept."""
    browser.act("#best-body .take")
    shown = [line, wanted]
    tally.equal("the line", browser.script(PASSED, "#line-list li:nth-child(2) .moves"), [shown])
    tally.equal(
        "the orientation has none", browser.script(PASSED, "#line-list li:first-child .moves"), [[f"({EO})", []]]
    )
    browser.act("#keep-line")
    browser.until("return document.querySelector('#kept-list .passed') !== null")
    tally.equal("what is kept", browser.script(PASSED, "#kept-list .step .step:nth-child(2) .moves"), [shown])


def of_orientations(tally: Tally, browser: Browser) -> None:
    """Before an orientation the chips count the cases of all rows, which are found once they are opened, and leave those of some."""
    browser.open(address_of(SCRAMBLE))
    browser.wait_best()
    browser.script("part('best-options').open = true")
    browser.wait_best()
    found = ways(f"0 ; {SCRAMBLE} ; ;")
    counts = Counter(way.case for way in found)
    tally.holds(
        "they count all", browser.until("return all('#best-cases-chips button').length === arguments[0]", len(counts))
    )
    chips = browser.script(CHIPS % "best")
    tally.equal("each case as often as the model has it", dict(chips), dict(counts))
    tally.equal(
        "the nearest first",
        [int(case[0]) + int(case[2]) for case, _ in chips],
        sorted(int(case[0]) + int(case[2]) for case in counts),
    )
    case = next(case for case, count in chips if 1 < count < len(found))
    browser.click(CHIP % ("best", case))
    tally.holds("all that are left", browser.until(MORE))
    tally.equal(
        "one leaves its rows",
        (browser.texts("#best-body .case"), browser.text("best-note")),
        ([case] * counts[case], f"{counts[case]} of {len(found)} rows."),
    )
    browser.fill("scramble", "R U F")
    browser.wait_best()
    tally.equal("for the next scramble it is still pressed", browser.script(PRESSED % "best"), [case])
    browser.click("#best-clear")
    tally.equal("until it is cleared", browser.script(PRESSED % "best"), [])

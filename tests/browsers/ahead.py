"""What a candidate leads to: how many reductions follow it on each side, and lists over both sides."""
from collections import Counter

from best import DETAILS, LONGER, ROWS, SCRAMBLE, address_of
from browser import Browser
from program import beginnings, program_answers, program_lists
from tally import Tally
from wanted import SIDES, Position, twin_key
from ways import line_of, ways


def counts_reductions(tally: Tally, browser: Browser) -> None:
    """Each row has the number of its shortest reductions on each side alone, after its moves."""
    for scramble in (SCRAMBLE, LONGER):
        browser.go(address_of(scramble))
        browser.wait_best()
        found = ways(f"0 ; {scramble} ; ;")
        for way, row, (_, *times) in zip(found, browser.script(ROWS), browser.script(DETAILS)):
            lines = Position(scramble, *way.eo).lines
            lists = [program_lists(browser.program, ["solve", way.step, "20"], [lines[side]])[0] for side in SIDES]
            wanted = [(str(len(each[0].split())), f"×{len(each):,}") for each in lists]
            tally.equal(f"{row[1]}, {row[3]}: how many there are", [*zip(row[4:], times)], wanted)


def pairs_of(program: str, scramble: str, step: str, length: int) -> set[tuple[str, str]]:
    """All solutions of a step with so many moves on both sides, the least: each way to begin on a side, gone on with on the other."""
    found: set[tuple[str, str]] = set()
    for side, other, counts in (("normal", "inverse", (0, 1, 2)), ("inverse", "normal", (0, 1))):
        begun = [line for count in counts for line in beginnings(count)]
        inverted = program_answers(program, ["invert"], begun)
        lists = program_lists(
            program, ["solve", step, "20"], [f"{each} {Position(scramble).lines[side]}" for each in inverted]
        )
        for begin, each in zip(begun, lists, strict=True):
            ways = ({side: moves, other: begin} for moves in each if len(moves.split()) + len(begin.split()) == length)
            found |= {(way["normal"], way["inverse"]) for way in ways}
    return found


def over_both(tally: Tally, browser: Browser) -> None:
    """A list over both sides has all with the fewest moves in all, as the built program finds them; a row is taken as one step."""
    length = 4
    pairs = pairs_of(browser.program, LONGER, "eofb", length)
    browser.go(address_of(LONGER) + "&list=eofb.both.0.all")
    listed = browser.texts("#solutions-groups .take")
    tally.equal("all of them", sorted(listed), sorted(line_of(pair) for pair in pairs))
    tally.holds("some are over both", any(all(pair) for pair in pairs))
    tally.equal("what it is called", browser.text("solutions-heading"), "EO F/B, both sides")
    at = next(at for at, line in enumerate(listed) if " (" in line)
    browser.walk(
        tally,
        "one is taken, as one step",
        ("script", "all('#solutions-groups .take')[arguments[0]].click()", at, {}),
        ("comes", "bracketed", listed[at], {"steps": 1}),
    )
    tally.holds("and reaches its step", "EO F/B" in browser.texts("#line-list .reaches"))
    browser.walk(
        tally, "Back leads to the list", ("script", "history.back()", {}), ("comes", "steps", 0, {"list-side=": "both"})
    )
    browser.choose("list-side", "inverse")
    browser.wait()
    tally.equal("another side is chosen", browser.listed(), Position(LONGER).solutions("eofb", "inverse"))
    browser.walk(
        tally,
        "it opens from the table of the next steps",
        ("go", address_of(LONGER), {}),
        ("act", '[data-cell="eofb.both"]', {"hash": address_of(LONGER) + "&list=eofb.both.0"}),
    )
    classes = Counter(tuple(twin_key(moves, "eofb") for moves in pair) for pair in pairs)
    tally.equal("twins have one row", (len(browser.listed()), len(pairs) > len(classes)), (len(classes), True))
    words = [" ".join(each.split()) for each in browser.texts("#solutions-groups .twins")]
    tally.equal(
        "of several it is said how many",
        sorted(each if each.startswith("or ") else "/" for each in words),
        sorted("/" if count == 2 else f"or {count - 1} twins" for count in classes.values() if count > 1),
    )
    tally.holds("there are some", any(each.startswith("or ") for each in words))

"""Scrambles and moves that turn the whole cube: what is listed for them reaches its step, and the page says how it reads them."""
from addresses import is_shown
from browser import LAST_STEP_AWAY, Browser
from kept import KEPT_SAID
from tally import Tally
from wanted import SIDES, TITLES, Position

# what is typed, and the same by face turns, as somebody turned a cube by hand
LINES = (
    ("R' U' F y", "R' U' F"),
    ("R U M", "R U R L'"),
    ("x (R U y) Lw2", "R2 B' U'"),
    ("y R U", "B U"),
    ("x x' S S'", ""),
)
READ = "Read as {}: the turns of the whole cube are left out, so U stays the face that was U."
STEPS = ("eofb", "eorl", "eoud")


def written(moves: str) -> str:
    """Moves as an address has them."""
    return moves.replace(" ", "_").replace("'", "-").replace("(", "%28").replace(")", "%29")


def reaches(tally: Tally, browser: Browser, what: str, address: str, *made: str) -> None:
    """The nets and the cells of a cube; and the first solution of each list reaches its step."""
    position = Position(*made)
    browser.walk(tally, what, ("go", address, {"cells": position.cells(browser.program)}))
    is_shown(tally, browser, f"{what}: the nets", *made)
    for step, side in ((step, side) for step in STEPS for side in SIDES):
        wanted = position.rows(step, side)
        if wanted == [""]:
            continue
        browser.walk(
            tally,
            what,
            ("act", f'[data-cell="{step}.{side}"]', {"listed": wanted}),
            ("act", "#solutions-groups .take", {"alert": ""}),
        )
        # a reduction that the step reaches with it is all that the line names
        reached = browser.text("reached")
        tally.holds(f"{what}, {side} side: {wanted[0]} reaches {step}: {reached}", TITLES[step] in reached)
        browser.act(LAST_STEP_AWAY)


def scrambles(tally: Tally, browser: Browser) -> None:
    """Scrambles with rotations, slices and wide moves."""
    for typed, faces in LINES[:2]:
        reaches(tally, browser, typed, "#scramble=" + written(typed), faces)
    browser.go()
    for typed, faces in LINES:
        said = {
            "scramble=": typed,
            "scramble-read": READ.format(faces) if faces else "",
            "letters normal": Position(faces).letters("normal"),
        }
        browser.walk(tally, "a scramble", ("fill", "scramble", typed, said))
    for typed, read in (
        ("y", READ.format("no moves")),
        ("Rw Rw'", ""),
        ("R (U F)", "Moves in brackets count as inverse moves."),
    ):
        browser.walk(tally, "how it is read", ("fill", "scramble", typed, {"scramble-read": read}))
    browser.walk(
        tally,
        "too many",
        ("fill", "scramble", "M E " * 128, {"#scramble-fault p": ["More than 256 moves, as face turns."]}),
    )


def by_hand(tally: Tally, browser: Browser) -> None:
    """Moves by hand with rotations, slices and wide moves, on both sides, and steps of an address."""
    for side, (typed, faces) in zip(SIDES, LINES):
        line = faces if side == "normal" else f"({faces})"
        browser.walk(
            tally,
            "by hand",
            ("go", f"#scramble=F_R2&side={side}", {}),
            ("submit", "own", typed, {}),
            ("comes", "bracketed", line, {}),
        )
    for typed, faces in (("R (x) U", "R U"), ("x (y)", ""), ("M (R y U) F", "R L' U (R U)"), ("R2 U ()", "R2 U")):
        said = "" if typed == "R2 U ()" else READ.format(faces or "no moves")
        browser.walk(
            tally,
            "by hand",
            ("go", "#scramble=F_R2&side=inverse", {}),
            ("submit", "own", typed, {}),
            ("comes", "own=", "", {"bracketed": faces, "own-read": said}),
        )
    for side, (typed, faces) in zip(reversed(SIDES), LINES):
        made = ("", faces) if side == "inverse" else (faces, "")
        reaches(
            tally,
            browser,
            f"{typed}, {side}, by address",
            f"#scramble=F_R2&steps={side}.{written(typed)}",
            "F R2",
            *made,
        )
    browser.walk(
        tally, "steps of an address", ("go", "#steps=normal.x2~inverse.Rw~normal.RU2", {"bracketed": "(L) R U2"})
    )


def kept(tally: Tally, browser: Browser) -> None:
    """Lines that an address keeps are read as its steps are; one that can't be read is said, and stays."""
    lines = {f"normal.{written(typed)}": faces for typed, faces in LINES if faces and "(" not in typed}
    sorted_lines = "return all('#kept-list .step .moves').map((each) => each.textContent).sort()"
    browser.walk(
        tally,
        "by their face turns",
        ("go", "#scramble=F&kept=" + ",".join(lines), {}),
        ("until", KEPT_SAID, {sorted_lines: sorted(lines.values())}),
        ("go", "#scramble=F&kept=normal.M_2,normal.R", {}),
        (
            "until",
            "return part('alert').textContent.startsWith('The lines that are')",
            {"#kept-list .step .moves": ["M 2", "R"]},
        ),
    )

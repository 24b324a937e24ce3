"""What is done with the line so far: it is copied and read again, edited and played, by keys too, and how it ends."""
from best import LONGER, address_of
from browser import HELD, LAST_STEP_AWAY, Browser, Keys
from kept import KEPT_SAID
from steps import ADDRESS, EXAMPLE
from tally import Tally
from wanted import Position, answer

WRITTEN = "#scramble=" + EXAMPLE.replace(" ", "_").replace("'", "-")
BLUR = "document.activeElement.blur()"
# a step of the line is edited
EDIT = """const item = part('line-list').children[arguments[0]]; item.querySelector('button').click();
    const field = item.querySelector('input'); field.value = arguments[1]; field.form.requestSubmit()"""


def fmc_text(tally: Tally, browser: Browser) -> None:
    """A line is copied as solvers write it, and read again; tabs are told apart."""
    browser.open(WRITTEN + "&steps=inverse.B_D_R_F2_B_D~normal.R_B-~normal.D2_R")
    before = browser.hash()
    browser.click("#copy-fmc")
    text = browser.hears("Copied: ").removeprefix("Copied: ")
    wanted = [EXAMPLE, "(B D R F2 B D) // EO U/D (6)", "R B' // (2/8)", "D2 R // DR F/B (2/10)"]
    tally.equal("the text", text.split("\n"), wanted)
    browser.walk(
        tally, "it is read again", ("go", {}), ("fill", "scramble", text, {}), ("comes", "steps", 3, {"hash": before})
    )
    tally.holds("tabs are told apart", "(B D R F2 B D) R B'" in browser.look("title"))
    browser.go("#scramble=U2_R&steps=normal.R-~normal.U2")
    solved_by = browser.text("fmc").split("\n")
    tally.equal("a step that solves", solved_by[-1], "U2 // solved (1/2)")


def edits(tally: Tally, browser: Browser) -> None:
    """A step in the middle is edited, left as it was, refused, and taken away; others are beside it."""
    step = "#line-list li:nth-child(2)"
    # it is seen as it is written, and one types at its end
    at = "const it = document.activeElement; return [it.value, it.selectionStart]"
    change = "const it = document.querySelector('#line-list input'); it.value = '(U2) L'; it.form.requestSubmit()"
    browser.walk(
        tally,
        "a step",
        ("go", "#scramble=R_U_F&steps=normal.R~inverse.U_D~normal.F", {}),
        ("act", f"{step} button", {at: ["(U D)", len("(U D)")]}),
        ("press", Keys.ESCAPE, {f"{step} .moves": ["(U D)"], "focus": "Edit"}),
        ("script", EDIT, 1, "(U q)", {}),
        ("until", "return document.querySelector('#line-list .fault')?.textContent.includes('no move')", {}),
        ("script", change, {}),
        ("comes", "bracketed", "R L (U2) F", {"steps": 3, "label": "Edit L on the inverse side U2"}),
        ("act", "#line-list li:nth-child(1) button:nth-of-type(2)", {"bracketed": "L (U2) F"}),
        ("act", LAST_STEP_AWAY, {"bracketed": "L (U2)", "steps": 1}),
    )


def takes_away(tally: Tally, browser: Browser) -> None:
    """A step says what it no longer reaches once one before it is edited or taken away, until it does again."""
    said = """return all('#line-list li').map((each) => ['.reaches', '.lost']
        .map((name) => each.querySelector(name)).map((one) => one.checkVisibility() ? one.textContent : ''))"""
    inverse, normal = "B D R F2 B D", "R B' D2 R"
    whole = {said: [["EO U/D", ""], ["DR F/B", ""]]}
    browser.walk(tally, "two steps", ("go", WRITTEN + "&steps=inverse.B_D_R_F2_B_D~normal.R_B-_D2_R", whole))
    for moves in (f"({inverse}')", "(B D R F2)", f"({inverse})"):
        browser.script(EDIT, 0, moves)
        browser.settle("return document.querySelector('#line-list .moves')?.textContent === arguments[0]", moves)
        position = Position(EXAMPLE, normal, moves.strip("()"))
        holds = [
            position.may_start("drfb-eoud"),
            position.may_start("drfb-eoud") and position.count("drfb-eoud", "normal")[0] == 0,
        ]
        for state, so, (reaches, lost) in zip(("EO U/D", "DR F/B"), holds, browser.script(said)):
            tally.equal(f"{state} after {moves}", (state in reaches, lost), (so, "" if so else f"no longer {state}"))
    tally.equal("the last of them brings both back", holds, [True, True])
    # a step that is cut says nothing
    browser.walk(
        tally,
        "taken away",
        ("act", "#line-list li:nth-child(1) button:nth-of-type(2)", {said: [["", "no longer DR F/B"]]}),
        ("script", "history.back()", {}),
        ("comes", "steps", 2, whole),
        ("script", EDIT, 1, "R B' D2", {}),
        ("comes", "bracketed", "(B D R F2 B D) R B' D2", {said: [["EO U/D", ""], ["", "no longer DR F/B"]]}),
    )


def edits_early(tally: Tally, browser: Browser) -> None:
    """A step may be edited before the engine says what it reaches."""
    browser.open("#scramble=R_U_F")
    browser.script(HELD % "examine")
    browser.submit("own", "F' L")
    browser.until("return all('#line-list li').length === 1")
    browser.script("document.querySelector('#line-list button').click()")
    tally.equal("its field is there first", browser.texts("#total"), ["\u2026"])
    browser.script("goOn()")
    browser.walk(
        tally,
        "left as it was",
        ("wait", {"alert": "", "return part('results').inert": False}),
        ("press", Keys.ESCAPE, {"#line-list .count": ["2 normal moves"]}),
    )


def keeps_focus(tally: Tally, browser: Browser) -> None:
    """Whoever changes or takes away one of several steps or lines has the focus at what is there then."""
    press = "const it = all(arguments[0]).at(arguments[1]); it.focus(); it.click()"
    browser.open("#scramble=R_U_F&steps=normal.R~inverse.U~normal.L&kept=normal.R,normal.U,normal.D")
    browser.until(KEPT_SAID)
    browser.script(press, "#line-list button", 3)
    browser.press(Keys.BACKSPACE, "2)", Keys.ENTER)
    browser.walk(
        tally,
        "a step is changed",
        ("comes", "bracketed", "R (U2) L", {"label": "Edit on the inverse side U2"}),
    )
    for selector, place, wanted in (
        ("#line-list button", 4, "Remove L"),
        ("#line-list button", 4, "Remove R"),
        *(
            ("#kept-list [data-control^=away]", *each)
            for each in ((1, "Remove: D"), (1, "Remove: R"), (0, "kept-back"))
        ),
    ):
        browser.walk(tally, "one is taken away", ("script", press, selector, place, {"label": wanted}))


def other_side(tally: Tally, browser: Browser) -> None:
    """A step that stands on the wrong side goes to the other one, with what it reaches there; one over both sides has them changed."""
    switch = "const it = document.querySelectorAll('#line-list li')[arguments[0]].lastChild.lastChild; it.focus(); it.click()"
    said = "return all('#line-list .reaches').map((each) => each.textContent)"
    hint = "return all('#line-list .otherwise').map((each) => each.textContent)"
    on_inverse = {
        "bracketed": "(B D R F2 B D)",
        said: ["EO U/D"],
        "label": "Other side on the inverse side B D R F2 B D",
    }
    browser.walk(
        tally,
        "a step",
        ("go", address_of(LONGER) + "&steps=normal.B_D_R_F2_B_D", {said: [""], hint: ["EO U/D on the other side"]}),
        ("script", switch, 0, on_inverse | {hint: [""], "#line-list .count": ["6 inverse moves"]}),
        ("script", switch, 0, {"bracketed": "B D R F2 B D", said: [""], "#line-list .count": ["6 normal moves"]}),
        ("go", "#scramble=R_U_F&steps=normal.D~normal.R2.inverse.L", {"bracketed": "D R2 (L)"}),
        ("script", switch, 1, {"bracketed": "D L (R2)", "steps": 2}),
    )
    # without a DR, and after one
    for address in ("#scramble=R_U_F&steps=normal.F-~normal.R_U", "#scramble=U_R2_F2&steps=normal.F2~normal.U_R2"):
        browser.walk(
            tally,
            "an end on the wrong side",
            ("go", address, {hint: ["", "solved on the other side"]}),
            ("script", switch, 1, {hint: ["", ""], "finished": "Solved: 3 moves."}),
        )


def goes_on_there(tally: Tally, browser: Browser) -> None:
    """Moves by hand go on the side of the last step once that is made on the other side, and on the normal one after a step over both sides."""
    other = "document.querySelectorAll('#line-list li')[arguments[0]].lastChild.lastChild.click()"
    over_both = "R' U' F U2 F' L B D2 R2 D R2 U' D' R B2 D' B R' F U2 F2 R' U' F"
    browser.walk(
        tally,
        "the last of two steps, and the first",
        ("go", "#scramble=R_U_F&steps=normal.D~normal.R2", {"side": "normal side"}),
        ("script", other, 1, {"bracketed": "D (R2)", "side": "inverse side"}),
        ("script", other, 0, {"bracketed": "(D R2)", "side": "inverse side"}),
        ("script", other, 1, {"bracketed": "(D) R2", "side": "normal side"}),
        ("script", other, 0, {"bracketed": "D R2", "side": "normal side"}),
        ("go", "#scramble=R_U_F&steps=normal.D~normal.R2.inverse.L&side=inverse", {"side": "inverse side"}),
        ("script", other, 1, {"bracketed": "D L (R2)", "side": "normal side"}),
    )
    browser.walk(
        tally,
        "a row of a list over both sides",
        ("go", address_of(over_both) + "&steps=inverse.L_F_U-_D2_B&side=inverse&list=drud-eofb.both.0", {}),
        ("act", "#solutions-groups .take", {"bracketed": "(L F U' D2 B) D2 R (U R)", "side": "normal side"}),
    )


def says_its_end(tally: Tally, browser: Browser) -> None:
    """After moves by hand that keep a reduction, or solve, it is said what is reached, since no step follows."""
    reduced = "DR F/B is reached: 12 moves. nissy has no step after a DR: go on by hand."
    for address, moves, said in (
        (WRITTEN + "&steps=inverse.B_D_R_F2_B_D~normal.R_B-_D2_R", "U2 B", reduced),
        ("#scramble=R_U&steps=normal.U-", "R'", "Solved: 2 moves."),
    ):
        browser.walk(tally, moves, ("open", address, {}), ("submit", "own", moves, {}), ("comes", "finished", said, {}))
        tally.equal(f"{moves}: what is said", browser.hears(said), said)


def shares_lines(tally: Tally, browser: Browser) -> None:
    """
    What a step is changed by stands beside its last words, if there is room; and how many moves it has beside the last of the lines that these take.
    """
    places = """const [moves, words, acts] = ['.moves', '.otherwise', '.acts'].map((name) =>
            document.querySelector(`#line-list ${name}`).getBoundingClientRect());
        return [words.top >= moves.bottom - 5, acts.top < words.bottom, words.right <= acts.left]"""
    long = "#scramble=R_U_F&steps=normal.R_U_F_L_B_D_R_U_F_L_B_D"
    browser.walk(tally, "a step whose words have two lines", ("go", long, {places: [True, True, True]}))
    beside = """const lines = [...document.querySelector('#line-list .moves').getClientRects()], last = lines.at(-1);
        const count = document.querySelector('#line-list .count').getBoundingClientRect();
        return [lines.length, count.left >= last.right, Math.abs(count.bottom - last.bottom) < 5]"""
    longer = "#scramble=R_U_F&steps=normal." + "_".join("RUFLBD" * 5)
    browser.walk(tally, "a step whose moves have two lines", ("go", longer, {beside: [2, True, True]}))


def by_keys(tally: Tally, browser: Browser) -> None:
    """Single keys, where nothing is typed, and their switch."""
    browser.open(ADDRESS)
    browser.wait_best()
    take = """const it = part('filter'); it.value = ''; it.dispatchEvent(new Event('input'));
        document.querySelector('#solutions-groups .take').click()"""
    browser.walk(
        tally,
        "keys",
        ("script", BLUR, {}),
        ("press", "i", {"side": "inverse side"}),
        ("press", "n", {"side": "normal side"}),
        ("press", "3", {"solutions-heading": "EO R/L, normal side"}),
    )
    first = browser.texts("#solutions-groups .take")[:1]
    browser.walk(
        tally,
        "keys",
        ("press", "s", {"#kept-list .step .moves": first}),
        ("press", "/", {"focus": "filter"}),
        ("press", "u", {"filter=": "u"}),
        ("script", take, {}),
        ("comes", "steps", 1, {}),
        ("press", "u", {"steps": 0}),
        ("script", "part('keys-on').checked = false;" + BLUR, {}),
        ("press", "i", {"side": "normal side"}),
    )


def keys_rest(tally: Tally, browser: Browser) -> None:
    """Single keys use nothing that is dimmed; the key for the scramble opens its folded card."""
    browser.open("#scramble=R_U_F&steps=normal.F-")
    browser.script("part('keys-on').checked = true")
    fault = {"hash": browser.hash().replace("F&", "F_q&")}
    browser.walk(
        tally,
        "under a fault",
        ("fill", "scramble", "R U F q", {}),
        ("script", BLUR, {}),
        ("press", *"1iusn", fault),
        ("fill", "scramble", "R U F", {}),
    )
    # no answer comes between what one script does
    press = "dispatchEvent(new KeyboardEvent('keydown', { key: '1' }))"
    take = f"{BLUR}; document.querySelector(arguments[0]).click(); {BLUR}; {press}"
    browser.walk(
        tally,
        "while the next cells are looked for",
        ("script", take, LAST_STEP_AWAY, {"hash": "#scramble=R_U_F"}),
        ("script", press, {"hash": "#scramble=R_U_F&list=eofb.normal.0"}),
    )
    browser.resize(640, 740)
    browser.walk(
        tally,
        "a folded scramble",
        ("open", "#scramble=R_U_F", {}),
        ("script", BLUR, {}),
        ("press", "/", {"focus": "scramble"}),
    )
    browser.resize()


# which way no move is left
ENDS = "return all('#player [aria-disabled=true]').map((each) => each.id)"


def plays(tally: Tally, browser: Browser) -> None:
    """The moves of the line are played on the nets. Who wants less motion goes a move a press by Play (see trifles)."""
    browser.go("#scramble=R_U&steps=normal.F_D~inverse.L")
    positions = [Position("R U"), Position("R U", "F"), Position("R U", "F D"), Position("R U", "F D", "L")]
    for place in (2, 1, 0):
        browser.walk(
            tally,
            "back",
            ("click", "#play-back", {}),
            (
                "until",
                "return part('played').textContent.startsWith(arguments[0])",
                f"{place} of 3",
                {"letters normal": positions[place].letters("normal"), ENDS: ["play-back"] if place == 0 else []},
            ),
        )
    browser.walk(
        tally,
        "on, and to its end",
        ("click", "#play-on", {"played": "1 of 3: F", "letters inverse": positions[1].letters("inverse")}),
        ("click", "#play", {}),
        ("comes", "played", "3 of 3: (L)", {"play": "Play", "letters normal": positions[3].letters("normal")}),
        ("wait", {ENDS: ["play-on"]}),
        ("go", "#scramble=R_U", {"letters normal": answer("print", "R U")}),
    )
    # U U is one move
    browser.walk(
        tally,
        "neighbours are one move",
        ("go", "#scramble=R_U&steps=normal.F_U~normal.U_D", {}),
        ("click", "#play-back", {}),
        ("comes", "played", "2 of 3: U", {"letters normal": Position("R U", "F U2").letters("normal")}),
        ("click", "#play-back", {"played": "2 of 3: U", "letters normal": Position("R U", "F U").letters("normal")}),
        ("click", "#play-back", {"played": "1 of 3: F"}),
        ("click", "#play-back", {"played": "0 of 3"}),
    )


def solved(tally: Tally, browser: Browser) -> None:
    """Nothing is finished where nothing was done, and several reductions are; no cell leads to an empty list."""
    nothing = {"finished": ""}
    browser.walk(
        tally,
        "nothing",
        ("open", {}),
        *(("fill", "scramble", scramble, nothing) for scramble in ("", "  ", "R R'", "x2")),
        ("fill", "scramble", "U2", {"reached": "Reached: EO F/B EO R/L EO U/D DR U/D DR R/L DR F/B"}),
    )
    every = "DR U/D, DR R/L and DR F/B are reached: 1 move. nissy has no step after a DR: go on by hand."
    for steps, said in (
        ("normal.R2", every),
        ("normal.U2", "Solved: 1 move."),
        ("inverse.U~normal.U-", "Solved: 2 moves, 1 without brackets."),
    ):
        browser.walk(tally, "steps", ("go", f"#scramble=U2&steps={steps}", {"finished": said}))
        tally.equal(
            f"{steps}: the cells", [name for name in browser.cells() if " 0 moves" in name or "reached" in name], []
        )


def premoves(tally: Tally, browser: Browser) -> None:
    """Without brackets inverse moves are premoves until the cube is solved, and it says so; nothing is said of a line on the normal side."""
    note = "Not finished: the inverse moves stand at the end as premoves, and what follows goes before them."
    browser.open()
    for steps, joined, said in (
        ("normal.R-", "R'", ""),
        ("inverse.F", "F'", note),
        ("normal.R-~inverse.F", "R' F'", note),
        ("normal.D_U", "D U", ""),
        ("normal.R-_F~normal.F-", "R'", ""),
        ("normal.R-_F~normal.F2~inverse.F", "R' F' F'", note),
        ("normal.R-~inverse.F~normal.U-~normal.F", "R' U'", ""),
        ("normal.R-~inverse.F~normal.U-", "R' U' F'", note),
    ):
        browser.walk(
            tally, "premoves", ("go", f"#scramble=U_R&steps={steps}", {"joined-note": said, "content joined": joined})
        )
    browser.walk(tally, "without them", ("act", LAST_STEP_AWAY, {}), ("act", LAST_STEP_AWAY, {"joined-note": ""}))

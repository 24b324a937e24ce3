"""What solvers write down of their attempts: how a text of one or several is read, a way to the others, and what joins the lines of its scramble."""
from best import LONGER, address_of
from browser import Browser
from tally import Tally

# as the browser does it, over all that the field has
PASTE = """const field = part('scramble'); field.focus(); field.select(); field.dispatchEvent(new ClipboardEvent('paste'));
    field.value = arguments[0]; field.dispatchEvent(new InputEvent('input', { inputType: 'insertFromPaste' }))"""
CHIPS, SHOWN, KEPT = "#desk-chips a", "#desk-chips [aria-current]", "kept lines"
NOTES = "return all('#kept-list .note-field').map((each) => each.value)"
# texts of one attempt: the scramble, the line so far, what is kept, and what is said to be left out
ONE: tuple[tuple[str, str, str, list[str], str], ...] = (
    ("R U F\n\nD L\n", "R U F", "D L", ["D L"], ""),
    ("Scramble 1: R U F", "Scramble 1: R U F", "", [], "Left out: “Scramble 1:”."),
    ("R U F\nD // EO\n\nSolution:\nD L2 B\n", "R U F", "D", ["D L2 B"], ""),
    ("Inverse: (R U)", "Inverse: (R U)", "", [], "Left out: labels. Moves in brackets count as inverse moves."),
    ("Inverse: R U", "R U", "", [], "Left out: labels."),
)
# texts of which steps turn the whole cube: the line so far names the faces as they were at first. After x, U is what was F, B what was U; after
# z2, each of U and D, R and L is the other; what is in brackets is undone at the end, as the cube is held then
HELD = (
    ("R U F D2 B\n\nB' D2 x // EO\nU' B' R' // DR", "B' D2 F' U' R'"),
    ("R U F\n\nx // inspection\nU' B' R'", "F' U' R'"),
    ("R U F\n\nz2 // inspection\nF' D' // EO\n(L2)\nR", "F' U' (R2) L"),
    ("R U F\n\nx y // inspection\ny' x' U\nR", "U R"),
    ("R U F\n\nD // EO\nM // slice\nU // after it", "D R L' B"),
    ("R U F\n\nx (U)\nD", "(F) B"),
    ("R U F\n\n(U x F)\nF", "(F B) F"),
    ("R U F x\n\nU' B' R'", "F' U' R'"),
)
# what is said of the steps that are in doubt, by their places
OF_STEPS = "return all('#line-list li').flatMap((each, at) => [...each.querySelectorAll('.doubt:not([hidden])')].map((one) => [at, one.textContent]))"
PREMOVES = "premoves stand before the scramble, but are read after it: premoves R U are (U' R') in brackets"
ONE_SIDE = "“NISS” names a side, and its moves may belong on the other one"
# texts with a step in doubt: the text, the line so far, what is said, and of which step
OF_A_STEP = (
    ("R U F\n\nR U // premoves\nF' // EO", "R U F'", PREMOVES, 0),
    ("R U F\n\nF' // EO\nPre-Moves: R U", "F' R U", PREMOVES, 1),
    # the premoves are those of the text, inverted: a half turn stays, and of others the last comes first, the other way
    (
        "R U F\n\nPremoves: L D2 F'\nF' // EO",
        "L D2 F' F'",
        PREMOVES.replace("R U are (U' R')", "L D2 F' are (F D2 L')"),
        0,
    ),
    # the moves of a step that has premoves aren't these
    ("R U F\n\nD // EO with premoves R", "D", PREMOVES.split(": ")[0] + ": write them inverted, in brackets", 0),
    # a wide turn of F is one of B, seen from another side: so the faces of the others are named as they were before
    ("R U F\n\nf' u' r'", "B' L' B'", "“f'” is read as a wide turn: face turns have capital letters", 0),
    ("R U F\n\nR U // NISS\nF' // EO", "R U F'", ONE_SIDE, 0),
    (f"{LONGER}\nR' U F' R L // EO, then NISS\nD' F B' // DR", "R' U F' R L D' F B'", ONE_SIDE, 0),
    (
        "R U F\n\nAnna: F' U' R'\nBert: F' U' D",
        "F' U' R' F' U' D",
        "as a whole this doesn't solve the scramble, but a part of it does",
        0,
    ),
    ("R U F\n\nD\nF' // EO U' R' D", "D F'", "moves and a comment may be taken for each other", 1),
)
# what is said beside the scramble of a text, and where its button leads: whether all is solved, or what the text calls its solution; if that is the
# line the card of this says that it doesn't solve, in the same words
UNSOLVED = "The solution doesn't solve the scramble."
ENDS = (
    ("R U F\nF' U' R' // all", "Solved: 3 moves.", "Line so far"),
    ("R U F\nSolution: F' U' R'", "Solved: 3 moves.", "Line so far"),
    ("R U F\nSolution: F' U' R", UNSOLVED, "Line so far"),
    ("Mischung: R U F\nL\u00f6sung (3): F' U' R", UNSOLVED, "Line so far"),
    # by hand: after R U only the edges of F and B are where quarter turns of these don't matter
    ("R U F\nEO: F'", "Not solved: 1 move, EO F/B.", "Line so far"),
    ("R U F\nD // EO\nR", "Not solved: 2 moves.", "Line so far"),
    # what can't be read may solve it
    ("R U F\nF' // EO\nU3 R'", "Read in part: 1 move, EO F/B.", "Line so far"),
    ("R U F\nF' // EO\n\nSolution:\nF' U' R'", "The solution solves the scramble. 1 line is kept.", "Line so far"),
    ("R U F\nF' // EO\n\nSolution:\nF' U' R", f"{UNSOLVED} 1 line is kept.", "Line so far"),
    ("R U F\n\nD2\n\nR2\n", "2 lines are kept.", "Kept"),
    ("R U F\nR U // premoves\nD // EO", "Not solved: 3 moves. In doubt: step 1.", "Line so far"),
)
# other texts in doubt: the text, the scramble, what is said, the sign that is marked, and how many stand before it
DOUBTS = (
    (
        "R U F\n\nEO: D\n\nDR: L\n\nD L B",
        "R U F",
        "which solution counts, or the order of its steps, can't be told",
        "D",
        11,
    ),
    ("R' U' F D R' U' F R U", "R' U' F D R' U' F R U", "moves of this line may be of a scramble, or of a step", "R", 0),
)
SHEET = (
    "Hello!\nScramble 1 of 3\nR U F\nD // EO\n\nL2\n// a note\n\nScramble 2 of 3\nF' L2, U\nScramble 3 of 3\nB2 R q\n"
)


def chip(number: int) -> str:
    """The link to a scramble, from 1 on."""
    return f"{CHIPS}:nth-child({number})"


def reads_one(tally: Tally, browser: Browser) -> None:
    """A scramble with a solution below it, one with a name, a solution beside the steps, a label before it."""
    for text, scramble, line, kept, said in ONE:
        browser.open()
        browser.walk(
            tally,
            f"{text!r}",
            ("script", PASTE, text, {}),
            ("comes", "bracketed", line, {}),
            ("comes", KEPT, kept, {"scramble=": scramble, "scramble-read": said, "scramble-fault": ""}),
        )


def turns_the_cube(tally: Tally, browser: Browser) -> None:
    """Steps after one that turns the whole cube are read as the cube is held by then, also those of a candidate."""
    for text, line in HELD:
        browser.open()
        browser.walk(tally, f"{text!r}", ("script", PASTE, text, {}), ("comes", "bracketed", line, {}))
    browser.open()
    text = "R U F\n\nD // EO\n\nx // inspection\nU' B'"
    browser.walk(tally, "a candidate", ("script", PASTE, text, {}), ("comes", KEPT, ["F' U'", "D"], {}))


def goes_on_where_it_ended(tally: Tally, browser: Browser) -> None:
    """Moves by hand go on the side of the last step that is read."""
    for text, line, side in (("R U F\n\nD\n(L)", "D (L)", "inverse side"), ("R U F\n\n(D)\nL", "(D) L", "normal side")):
        browser.open()
        browser.walk(tally, f"{text!r}", ("script", PASTE, text, {}), ("comes", "bracketed", line, {"side": side}))


def doubts(tally: Tally, browser: Browser) -> None:
    """A text that may be meant otherwise than it is read: why is said, with the place marked, until anything is changed, and not beside a fault."""
    for text, scramble, said, sign, before in DOUBTS:
        browser.open()
        browser.walk(
            tally,
            f"{text!r}",
            ("script", PASTE, text, {}),
            (
                "comes",
                "#scramble-doubt p",
                [f"In doubt: {said}."],
                {"#scramble-doubt mark": [sign], "scramble=": scramble, "bracketed": "", OF_STEPS: []},
            ),
        )
        shown = browser.texts("#scramble-doubt pre")[0].split("\n")
        tally.equal(f"the place of the doubt of {text!r}", (shown[1].index("^"), shown[0][before]), (before, sign))
        browser.walk(
            tally,
            "it goes away",
            ("fill", "scramble", "R U", {"scramble-doubt?": False, OF_STEPS: []}),
            ("fill", "scramble", "r q", {"scramble-doubt?": False}),
        )
    small = ["In doubt: “r” is read as a wide turn: face turns have capital letters."]
    browser.open()
    browser.walk(
        tally,
        "a scramble in small letters",
        ("fill", "scramble", "r u f", {"#scramble-doubt p": small}),
        ("submit", "own", "F", {}),
        ("comes", "steps", 1, {"scramble-doubt?": False}),
    )
    browser.open()
    browser.walk(
        tally,
        "a solution that solves",
        ("script", PASTE, "r u f\n\nf' u' r'", {}),
        ("comes", "steps", 1, {"scramble-doubt?": False}),
    )


def doubts_steps(tally: Tally, browser: Browser) -> None:
    """A step that may be meant otherwise says so itself, once, until the line is changed; none does if each step reaches something."""
    for text, line, said, at in OF_A_STEP:
        browser.open()
        browser.walk(
            tally,
            f"{text!r}",
            ("script", PASTE, text, {}),
            ("comes", OF_STEPS, [[at, f"In doubt: {said}."]], {"bracketed": line, "scramble-doubt?": False}),
            ("act", f"#line-list li:nth-child({at + 1}) button:last-child", {OF_STEPS: []}),
        )
    browser.open()
    browser.walk(
        tally,
        "each step reaches what it says",
        ("script", PASTE, f"{LONGER}\nR' U F' R L // EO, then NISS\nD' F B' L2 D // DR", {}),
        ("comes", "#line-list .reaches", ["EO R/L", "DR F/B"], {OF_STEPS: [], "scramble-doubt?": False}),
    )


def says_how_it_ends(tally: Tally, browser: Browser) -> None:
    """Beside the scramble stands whether its attempt is solved, or that what it calls its solution isn't one, until anything is changed."""
    for text, words, way in ENDS:
        browser.open()
        browser.walk(
            tally,
            f"{text!r}",
            ("script", PASTE, text, {}),
            (
                "comes",
                "attempt-words",
                words,
                {
                    "attempt-way": way,
                    "n #attempt-words.lost": int(UNSOLVED in words),
                    "unsolved": UNSOLVED if words == UNSOLVED else "",
                },
            ),
            ("hears", words, {}),
            ("act", "#attempt-way", {"focus": f"{'kept' if way == 'Kept' else 'line'}-heading"}),
        )
    for change in (("submit", "own", "R2"), ("fill", "scramble", "R U")):
        browser.open()
        browser.walk(
            tally,
            f"{change}",
            ("script", PASTE, ENDS[2][0], {}),
            ("comes", "attempt?", True, {"unsolved": UNSOLVED}),
            (*change, {}),
            ("comes", "attempt?", False, {"unsolved": ""}),
        )
    browser.open(address_of(LONGER) + "&steps=normal.R")
    tally.equal("nothing is said of an address", browser.look("attempt?"), False)


def answers_each_line(tally: Tally, browser: Browser) -> None:
    """Of each line its side is said, what it reaches, that it reaches nothing or gives something up, and what it would reach on the other side; a
    button puts it there, and all that follows is told anew."""
    rows = """return all('#line-list .step').map((each) =>
        [...each.children].filter((one) => one.checkVisibility()).map((one) => one.textContent))"""
    rest = ["2 normal moves, 8 in all", "reaches no step"]
    browser.open()
    browser.walk(
        tally,
        "a line on the wrong side",
        ("script", PASTE, f"{LONGER}\nB D R F2 B D // EO\nR B'\nD2 R // DR\n", {}),
        (
            "comes",
            "steps",
            3,
            {
                rows: [
                    ["B D R F2 B D", "6 normal moves", "EO U/D on the other side"],
                    ["R B'", *rest],
                    ["D2 R", "2 normal moves, 10 in all", "reaches no step"],
                ]
            },
        ),
        (
            "act",
            "#line-list li:first-child button:last-child",
            {
                rows: [
                    ["(B D R F2 B D)", "EO U/D", "6 inverse moves"],
                    ["R B'", *rest],
                    ["D2 R", "DR F/B", "2 normal moves, 10 in all"],
                ]
            },
        ),
        ("go", address_of(LONGER) + "&steps=inverse.B_D_R_F2_B_D~normal.U.inverse.L", {}),
        (
            "wait",
            {
                rows: [
                    ["(B D R F2 B D)", "EO U/D", "6 inverse moves"],
                    ["U (L)", "2 moves, 8 in all", "gives up EO U/D"],
                ]
            },
        ),
        ("go", "#scramble=R_U&steps=normal.U-_R-", {rows: [["U' R'", "solved", "2 normal moves"]]}),
    )


def chooses(tally: Tally, browser: Browser) -> None:
    """Of several attempts the first is read, and the others go onto the desk: each is read there as if only it had been pasted; so does Back."""
    first = {"scramble=": "R U F", "bracketed": "D", KEPT: ["L2"], SHOWN: ["1 \u26051"]}
    second = {"scramble=": "F' L2 U", "bracketed": "", "kept": 0, SHOWN: ["2"]}
    for width in (1280, 360):
        browser.resize(width, 900, width < 400)
        browser.open()
        browser.walk(
            tally,
            f"{width}: a sheet",
            ("script", PASTE, SHEET, {"desk?": True}),
            ("comes", "kept", 1, first | {"scramble-read": "Left out: 1 line before the scramble."}),
            ("act", chip(2), second | {"scramble?": width > 400}),
            (
                "act",
                chip(3),
                {"#scramble-fault p": ["\u201cq\u201d is no move."], "#scramble-fault mark": ["q"], SHOWN: ["3"]},
            ),
        )
        # what is mended stays beside the others
        browser.walk(
            tally,
            f"{width}: mended",
            ("fill", "scramble", "B2 R D", {"scramble-read": "", SHOWN: ["3"]}),
            ("script", "history.back()", {}),
            ("comes", "scramble=", "F' L2 U", second),
            ("act", chip(3), {"scramble=": "B2 R D"}),
            ("act", chip(1), {}),
            ("comes", "kept", 1, first),
        )
        browser.walk(
            tally,
            f"{width}: another scramble, and back",
            ("script", "part('random').click()", {}),
            ("comes", SHOWN, ["4"], {"scramble-read": ""}),
            ("script", "history.back()", {}),
            ("comes", "bracketed", "D", first),
            ("fill", "scramble", "", {CHIPS: ["1 \u26051", "2", "3"]}),
            ("fill", "scramble", " ", {}),
            ("act", chip(1), {}),
            ("comes", "scramble=", "R U F", first),
            ("script", PASTE, "U2 F", {"scramble-read": "", "scramble-fault": ""}),
        )


def joins(tally: Tally, browser: Browser) -> None:
    """A text of the same scramble keeps the lines that are kept: its candidates join them, none twice, and its steps become the line."""
    browser.resize()
    first = {"bracketed": "D", KEPT: ["L2", "B"], NOTES: ["one", ""]}
    joined = {"bracketed": "F2", KEPT: ["L2", "B", "U"], NOTES: ["one", "", ""], "kept": 3}
    full = "#scramble=R_U_F&kept=" + ",".join(f"normal.{'_'.join(['R', 'U'] * at)}" for at in range(1, 24))
    most = "24 lines are kept, and there can be no more: remove one of them first."
    browser.open()
    browser.walk(
        tally,
        "a solution of the same scramble",
        ("script", PASTE, "R U F\nD // EO\n\nL2\n// one\n\nB\n", {}),
        ("comes", "kept", 2, first),
        ("script", PASTE, "R,  U F\nF2 // EO\n\nL2\n// other\n\nU\n", {}),
        ("comes", "kept", 3, joined),
        ("script", "history.back()", {}),
        ("comes", "bracketed", "D", {"kept": 3}),
        ("script", "history.forward()", {}),
        ("comes", "bracketed", "F2", joined),
    )
    browser.walk(
        tally,
        "only candidates leave the line",
        ("script", PASTE, "R U F\n\nD2\n\nR2\n", {}),
        ("comes", KEPT, ["L2", "B", "U", "D2", "R2"], {"bracketed": "F2"}),
    )
    browser.walk(
        tally,
        "another scramble",
        ("script", PASTE, "R U\n\nD2\n\nR2\n", {}),
        ("comes", KEPT, ["D2", "R2"], {"bracketed": "", CHIPS: ["1 \u26055", "2 \u26052"]}),
    )
    browser.walk(
        tally,
        "no room",
        ("go", full, {}),
        ("script", PASTE, "R U F\n\nL\n\nB2\n", {}),
        ("comes", "alert", most, {"kept": 24}),
    )

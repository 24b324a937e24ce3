"""The first visit, and another scramble that is typed: what a stranger sees, and what is left with the lines of the last one."""
from best import LONGER, SCRAMBLE
from browser import HELD, Browser, Keys
from tally import Tally

CARDS = "return seen('.card').map((each) => each.id)"
ADDRESS = "#scramble=" + LONGER.replace(" ", "_").replace("'", "-")
LINES = ADDRESS + "&steps=inverse.B_D_R_F2_B_D&kept=inverse.B_D_R_F2_B_D;a_note,normal.R-_U_F-_R_L"
# what is taken and kept of it, and when nothing is
WITH, WITHOUT = {"steps": 1, "kept": 2}, {"steps": 0, "kept": 0}
SELECT = "part('scramble').focus(); part('scramble').select()"


def welcomes(tally: Tally, browser: Browser) -> None:
    """No card without content, three sentences, and one button, which leads to the answers."""
    main = """return all('button').filter((each) => each.checkVisibility()
        && getComputedStyle(each).backgroundColor === getComputedStyle(part('random')).backgroundColor).map((each) => each.id)"""
    browser.open()
    for width in (1440, 1180, 390):
        browser.resize(width, 900)
        words = [text.split()[0].strip(",:") for text in browser.texts("#welcome li")]
        tally.equal(
            f"{width}: the cards, the sentences, and the main button",
            (browser.script(CARDS), words, browser.script(main)),
            (["scramble-card", "welcome"], ["Scramble", "EO", "DR"], ["random"]),
        )
    browser.click("#random")
    browser.settle("return part('scramble').value !== ''")
    tally.holds(
        "it leads to the answers",
        browser.look("n #steps-body td .cell") == 6 and "welcome" not in browser.script(CARDS),
    )
    browser.resize()


def types_another(tally: Tally, browser: Browser) -> None:
    """Another scramble that is typed in an emptied field leaves the old lines, which stay on the desk; the same one again doesn't."""
    browser.walk(tally, "an emptied field", ("go", LINES, {}), ("script", SELECT, {}), ("press", Keys.DELETE, {}))
    browser.settle("return !location.hash.includes('scramble=')")
    browser.walk(tally, "an emptied field leaves nothing yet", ("wait", WITH), ("press", LONGER[:14], {}))
    browser.settle("return location.hash.includes('scramble=R-_U-_F_D2_L2')")
    browser.walk(tally, "nor does the same scramble, typed again", ("wait", WITH), ("press", "B B B", {}))
    # all of it is read, since a sign may come after a pause
    browser.settle("return location.hash.endsWith('B_B_B')")
    browser.walk(
        tally,
        "another one does",
        ("comes", "kept", 0, WITHOUT | {"n #desk a[aria-current]": 1}),
        ("script", "history.back()", {}),
        ("comes", "hash", LINES, {}),
    )


def leaves_typed(tally: Tally, browser: Browser) -> None:
    """What is typed just before Back doesn't come over what that leads to, though this takes a while."""
    typed = """const it = part('scramble');
        it.value = 'R U F D';
        it.dispatchEvent(new InputEvent('input', { inputType: 'insertText' }));
        history.back();
        return new Promise((done) => setTimeout(() => done(window.goOn()), 500))"""
    browser.walk(
        tally,
        "Back in the pause",
        ("open", LINES, {}),
        ("follow", "#scramble=R_U_F", {"scramble=": "R U F"}),
        ("script", HELD % "readAddressed" + typed, {}),
        ("comes", "scramble=", LONGER, WITH | {"hash": LINES}),
    )


def types_over(tally: Tally, browser: Browser) -> None:
    """What is typed over the whole field is another scramble too; what is typed at its end mends it."""
    at_end = "const it = part('scramble'); it.focus(); it.setSelectionRange(it.value.length, it.value.length)"
    browser.walk(tally, "mending", ("go", LINES, {}), ("script", at_end, {}), ("press", " D", {}))
    browser.settle("return location.hash.includes('F_D&')")
    browser.walk(
        tally, "what is mended keeps its lines", ("wait", WITH), ("script", SELECT, {}), ("press", SCRAMBLE[:8], {})
    )
    browser.walk(
        tally, "what is typed over it doesn't", ("comes", "kept", 0, WITHOUT), ("script", "history.back()", {})
    )
    tally.holds(
        "Back leads to it and them",
        browser.until("return location.hash.includes('F_D&') && location.hash.includes('kept=')"),
    )


def shows_text(tally: Tally, browser: Browser) -> None:
    """The FMC text is seen."""
    fmc = f"{LONGER}\n(B D R F2 B D) // EO U/D (6)"
    browser.walk(tally, "the FMC text is seen", ("go", LINES, {"fmc": fmc}))


def copies_early(tally: Tally, browser: Browser) -> None:
    """What is kept is copied as soon as it is known what it is, if that is asked for before, however long that takes."""
    away = 'document.querySelector("#kept-list li:last-child [data-control^=away]").click()'
    # a browser knows of a press for five seconds
    wait = "return new Promise((done) => setTimeout(() => done(window.goOn()), 6000))"
    browser.walk(
        tally,
        "Copy all just after a line is removed",
        ("open", LINES, {}),
        ("until", "return all('#kept-list .total').every((each) => each.textContent !== '')", {}),
        ("script", HELD % "walkKept" + away, {"kept": 1}),
        ("click", "#copy-kept", {}),
        ("script", wait, {}),
    )
    tally.equal("the scramble, then what is left", browser.hears("Copied: ").split("\n")[:1], [f"Copied: {LONGER}"])

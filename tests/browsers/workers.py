"""What the page says of a worker that fails, or that ends without a word, and how it goes on by another one."""
from browser import BEST, IDLE, TURN, Browser
from tally import Tally

ADDRESS = "#scramble=R_U_F"
# what is put before the script of each worker until `sound` is set; waits as long as the page's patience are shorter, but as long as sound workers are
# waited for, since the machine may be busy
SPOILT = """
    const [Sound, later, addressOf] = [Worker, setTimeout, URL.createObjectURL.bind(URL)];
    URL.createObjectURL = (script) => {
        window.spoilt = addressOf(new Blob([%r, script]));
        return addressOf(script);
    };
    window.setTimeout = (act, wait, ...words) => later(act, wait >= 20000 && !window.isPatient ? 3000 : wait, ...words);
    window.isPatient = %r === "";
    window.made = [];
    window.Worker = class extends Sound {
        constructor(address, how) {
            super(window.sound ? address : spoilt, how);
            made.push(this);
        }
    };
"""
FAILED = "return !part('failed').hidden"
MENDED = f"window.sound = true; return part('failed').hidden && (() => {{ {IDLE} }})() && (() => {{ {BEST} }})()"
SILENCE = "The engine has given no answer for 20 seconds. It may still be at work, or it has ended without a word."
MUTE = "self.addEventListener('message', (event) => event.stopImmediatePropagation());"
# what spoils a worker, whose own script has names too, and what is said of it
SCRIPTS = (
    ("throw new Error('spoilt');", "The engine doesn't work here. Uncaught Error: spoilt"),
    (MUTE, SILENCE),
    ("{ let asked = 0; self.addEventListener('message', () => { if (++asked === 4) close(); }); }", SILENCE),
    (
        "WebAssembly.Memory.prototype.grow = () => { throw new RangeError('no memory is left'); };",
        "There is no answer: no memory is left.",
    ),
    (
        "self.addEventListener('message', () => Promise.reject(new Error('uncaught'))); " + MUTE,
        "The engine doesn't work here. Uncaught Error: uncaught",
    ),
)
UNREADABLE = "made.forEach((each) => each.dispatchEvent(new MessageEvent('messageerror')))"
# a worker that has crashed: its page is told nothing
CRASH = "window.isPatient = false; made.forEach((each) => each.terminate())"
# one for lines, one for lists, one for moves by hand, and one for the best of each axis
WORKERS = 6
NO_WORDS = {"failed": "", "alert": "", "own-fault": ""}


def opened(browser: Browser, script: str) -> None:
    """Goes to the page with workers that a script spoils."""
    spoiling = browser.before_page(SPOILT % (script, script))
    browser.open(ADDRESS, browser.page)
    browser.no_longer(spoiling)


def fails(tally: Tally, browser: Browser, what: str, said: str) -> None:
    """It is said, in these words."""
    tally.holds(f"{what}: something is said", browser.until(FAILED))
    tally.equal(f"{what}: what is said", browser.text("failed-words"), said)


def mends(tally: Tally, browser: Browser, what: str) -> None:
    """The button beside the words asks all again, and the page has its answers by other workers."""
    browser.script("window.sound = window.isPatient = true")
    browser.click("#again")
    tally.holds(f"{what}: it is mended", browser.until(MENDED))
    browser.wait_best()
    browser.walk(tally, what, ("wait", NO_WORDS))
    tally.holds(f"{what}: there are cells, and the best", browser.cells() and browser.texts("#best-body .take"))


def begins(tally: Tally, browser: Browser) -> None:
    """Workers that are spoilt from their start."""
    for script, said in SCRIPTS:
        opened(browser, script)
        fails(tally, browser, script, said)
        mends(tally, browser, script)
    opened(browser, MUTE)
    # until the page waits for one of them
    browser.until(f"{UNREADABLE}; {FAILED}")
    fails(tally, browser, "unreadable", "The engine doesn't work here. An answer of it can't be read.")
    mends(tally, browser, "unreadable")


def crashes(tally: Tally, browser: Browser) -> None:
    """Workers that end later, of which the page is told nothing: it says so once it waits for one, and then goes on from where it was."""
    acts = {
        "a step": "document.querySelector('#best-body .take').click()",
        "a list": "document.querySelector('#steps-body .cell').click()",
        "the best": "const field = part('best-slack'); field.value = '1'; field.dispatchEvent(new Event('change'))",
        "a random scramble": "part('random').click()",
        "moves by hand": "part('own').value = 'R'; part('own-form').requestSubmit()",
    }
    for what, act in acts.items():
        opened(browser, "")
        browser.wait_best()
        # while the page is seen it prepares what may be asked, so that each worker is there
        browser.script(TURN, True)
        browser.until(f"return made.length >= {WORKERS}")
        browser.script(TURN, False)
        tally.holds(f"{what}: nothing failed before", not browser.script(FAILED))
        browser.script(CRASH + ";" + act)
        fails(tally, browser, what, SILENCE)
        mends(tally, browser, what)


def late(tally: Tally, browser: Browser) -> None:
    """What a worker says late is taken, and the words go."""
    slow = "{ const say = postMessage; self.postMessage = (...words) => setTimeout(() => say(...words), 6000); }"
    opened(browser, slow)
    fails(tally, browser, "a slow engine", SILENCE)
    tally.holds("and its answers are taken", browser.until("return all('#steps-body td .cell').length === 6"))
    tally.holds("and the words go", browser.until(MENDED))
    # what the spoilt ones threw
    browser.complaints()

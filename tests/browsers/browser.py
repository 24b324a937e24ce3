"""The page in Chromium, and what the tests ask of it."""
import time
from typing import Any

from selenium.webdriver import Chrome

from chromium import Tab
from net import letters_of, stickers_of
from tally import Tally, made_again

# longer continuations are looked for by themselves, and tables built ahead, only while the page is seen: for most of what is tried it isn't, so that
# rows stay, and the processors are left to what is asked
UNSEEN = 'Object.defineProperty(Document.prototype, "hidden", { configurable: true, get: () => !window.isSeen });'
# has it seen or not
TURN = "window.isSeen = arguments[0]; document.dispatchEvent(new Event('visibilitychange'))"
# keeps what is said to screen readers, since what is said next takes its place
ANNOUNCED = """window.announced = [];
    addEventListener("DOMContentLoaded", () => {
        const said = (changes) => window.announced.push(...changes.flatMap(({ addedNodes }) => [...addedNodes].map((each) => each.textContent)));
        const status = document.getElementById("status");
        if (status) new MutationObserver(said).observe(status, { childList: true });
    });"""
# takes what was said up to this from what is kept, whatever was said after it
HEARD = """const at = window.announced.findIndex((each) => each.includes(arguments[0]));
    window.heard = window.announced.splice(0, at + 1).pop();
    return at >= 0"""
# by itself it looks for them on a machine with some processors
PROCESSORS = "Object.defineProperty(Navigator.prototype, 'hardwareConcurrency', { configurable: true, get: () => %d });"
IDLE = """
    return document.querySelector("#results[aria-busy=false]") !== null
        && document.querySelector("[aria-busy=true]:not(#best, #best-body)") === null"""
# the best are looked for by themselves, and most of the page doesn't wait for them
BEST = "return document.querySelector('#best[aria-busy=true], #best-body[aria-busy=true]') === null"
# what the page asks of the engine by a call comes once it is let go on
HELD = """const { postMessage } = Worker.prototype;
    window.held = [];
    Worker.prototype.postMessage = function (...words) {
        const send = () => postMessage.apply(this, words);
        if (words[0].request?.call === "%s") window.held.push(send); else send();
    };
    window.goOn = () => { Worker.prototype.postMessage = postMessage; window.held.forEach((send) => send()); };
"""
# keeps each text that a button has from now on, with its width then: some stay for a moment only
WORDS = """const it = part(arguments[0]);
    window.words = [];
    new MutationObserver(() => window.words.push([it.textContent, it.getBoundingClientRect().width])).observe(it, { childList: true })"""
# How many seconds what is waited for may take, and a search: a script may take longer, so that the wait says what doesn't come
LONGEST_WAIT, LONGEST_SEARCH = 120, 300
# how often a press is made anew whose place another thing took before it came there
MOST_PRESSES = 5
# what takes the last step of a line away
LAST_STEP_AWAY = "#line-list li:last-child .acts button:nth-child(2)"
# a method with its words, and each look with what is wanted of it
Step = tuple[Any, ...]
# what may be looked for by a short name, beside what `look` says
LOOKS = {
    "hash": "return location.hash",
    "title": "return document.title",
    "focus": "const at = document.activeElement; return at.id || at.dataset.cell || at.textContent",
    "steps": "return all('#line-list li').length",
    "kept": "return all('#kept-list li').length",
    "kept lines": "return all('#kept-list li > .step').map((it) => [...it.querySelectorAll('.moves')].map((one) => one.textContent).join(' '))",
    "said": "return part('status').textContent",
    "label": "return document.activeElement.ariaLabel ?? document.activeElement.id",
}
# waits in the page until what another script says is true
UNTIL = """const [words, end] = [[...arguments], performance.now() + %d];
    const says = function () { %s\n};
    return new Promise((done, fails) => {
        const look = () => {
            try {
                if (says(...words)) done(true);
                else if (performance.now() > end) done(false);
                else setTimeout(look, 10);
            } catch (fault) {
                fails(fault);
            }
        };
        look();
    })"""
# the middle of what a selector finds, once it is in view; a press that comes to something else, since that moved meanwhile, does nothing
MIDDLE = """const it = document.querySelector(arguments[0]), opened = it.closest("details");
    if (opened && !it.matches("summary")) opened.open = true;
    if (!it.checkVisibility()) throw new Error("it isn't seen");
    const box = () => it.getClientRects()[0];
    if (box().top < 0 || box().bottom > innerHeight) it.scrollIntoView({ block: "nearest", behavior: "instant" });
    const [x, y] = [box().left + box().width / 2, box().top + box().height / 2], there = document.elementFromPoint(x, y);
    if (!it.contains(there)) throw new Error(`${there?.outerHTML.slice(0, 80)} stands on it`);
    window.aim?.abort();
    [window.aim, window.missed] = [new AbortController(), null];
    for (const kind of ["pointerdown", "mousedown", "pointerup", "mouseup", "click"]) addEventListener(kind, (event) => {
        const isHit = document.querySelector(arguments[0])?.contains(event.target);
        if (kind === "pointerdown") window.missed = isHit ? "" : event.target.outerHTML.slice(0, 80);
        if (!window.missed) return;
        event.preventDefault();
        event.stopImmediatePropagation();
    }, { capture: true, signal: window.aim.signal });
    return [x, y]"""
# what a press came to in place of what it was meant for, once the page was drawn: nobody is quicker; a page that isn't seen may not be drawn
PRESSED = """const drawn = new Promise((done) => requestAnimationFrame(() => requestAnimationFrame(done)));
    return Promise.race([drawn, new Promise((done) => setTimeout(done, 5000))]).then(() => {
        window.aim?.abort();
        return window.missed ?? "";
    })"""


class Keys:
    """Keys that type no sign."""

    TAB, ENTER, ESCAPE, BACKSPACE, DELETE, HOME, SPACE = "Tab", "Enter", "Escape", "Backspace", "Delete", "Home", " "
    ARROW_LEFT, ARROW_UP, ARROW_RIGHT, ARROW_DOWN = "ArrowLeft", "ArrowUp", "ArrowRight", "ArrowDown"


CODES = {
    "Tab": 9,
    "Enter": 13,
    "Escape": 27,
    "Backspace": 8,
    "Delete": 46,
    "Home": 36,
    "ArrowLeft": 37,
    "ArrowUp": 38,
    "ArrowRight": 39,
    "ArrowDown": 40,
}


class Browser(Tab):
    """One window with the page."""

    def __init__(self, driver: Chrome, page: str) -> None:
        super().__init__(driver)
        # the built program, and the page as a browser has it that runs no WebAssembly
        self.page, self.program, self.page_without_engine = page, "", ""
        self.resize()
        self.media(prefers_color_scheme="light")
        self.before_page(UNSEEN + PROCESSORS % 4 + ANNOUNCED)

    def resize(self, width: int = 1280, height: int = 1000, mobile: bool = False) -> None:
        """Makes the window so large."""
        self.command(
            "Emulation.setDeviceMetricsOverride", width=width, height=height, deviceScaleFactor=1, mobile=mobile
        )

    def media(self, kind: str = "", **features: str) -> None:
        """Has the browser tell the page of these wishes, and of no others."""
        wished = [{"name": name.replace("_", "-"), "value": value} for name, value in features.items()]
        self.command("Emulation.setEmulatedMedia", media=kind, features=wished)

    def before_page(self, script: str) -> str:
        """Has a script run before those of each page that is opened, and returns its name."""
        return str(self.command("Page.addScriptToEvaluateOnNewDocument", source=script)["identifier"])

    def no_longer(self, name: str) -> None:
        """Has a script no longer run before those of a page."""
        self.command("Page.removeScriptToEvaluateOnNewDocument", identifier=name)

    def forget(self) -> None:
        """Takes all scrambles off the desk, as for one who was never here."""
        # a browser may deny it
        self.script("try { localStorage.removeItem('nissy-desk') } catch {}")

    def open(self, address: str = "", page: str = "") -> None:
        """The same of one who was never here."""
        self.forget()
        self.reopen(address, page)

    def reopen(self, address: str = "", page: str = "") -> None:
        """Loads the page anew with this text after its address, and waits for its answers."""
        self.load("about:blank")
        self.load((page or self.page) + address)
        if not page:
            self.wait()

    def go(self, address: str = "") -> None:
        """The same of one whose desk is empty, if the page isn't there already."""
        if self.script("return location.hash !== arguments[0]", address):
            self.forget()
        self.follow(address)

    def follow(self, address: str = "") -> None:
        """Has the page go to this address, or loads it if it isn't open, and waits for its answers: what was chosen stays."""
        if self.script(
            """const before = location.hash, results = part("results");
                if (results === null) return true;
                document.activeElement?.blur();
                scrollTo({ top: 0, behavior: "instant" });
                location.hash = arguments[0];
                if (location.hash !== before) results.setAttribute("aria-busy", "true")""",
            address,
        ):
            self.load(self.page + address)
        self.wait()

    def until(self, text: str, *words: object, seconds: int = LONGEST_WAIT) -> bool:
        """Waits until a script answers with true, which it says, or stops if that doesn't come in time."""
        try:
            is_so = self.script(UNTIL % (1000 * seconds, text), *words)
        except ValueError as fault:
            raise ValueError(f"{str(fault).splitlines()[0]} in the wait for: {text}") from None
        if not is_so:
            raise TimeoutError(f"within {seconds} seconds this doesn't come with {words}: {text}")
        return True

    def wait(self) -> None:
        """Waits until nothing on the page waits for an answer."""
        self.until(IDLE, seconds=LONGEST_SEARCH)

    def settle(self, text: str, *words: object) -> None:
        """Waits until a script answers with true, and then until nothing waits for an answer."""
        self.until(text, *words)
        self.wait()

    def wait_best(self) -> None:
        """Waits until the best are found, or nothing looks for them."""
        self.wait()
        self.until(BEST, seconds=LONGEST_SEARCH)

    def hears(self, text: str) -> str:
        """Waits until something with this text is said to screen readers that wasn't heard before, and returns all that was said then."""
        self.until(HEARD, text)
        return self.script("return window.heard")

    def choose(self, name: str, value: str) -> None:
        """Chooses of a field, without waiting."""
        self.script(
            "const it = part(arguments[0]); it.value = arguments[1]; it.dispatchEvent(new Event('change'))", name, value
        )

    def listed(self) -> list[str]:
        """The solutions that are listed, without their brackets."""
        lines = self.script("return all('#solutions-groups .take').map((each) => each.dataset.key)")
        return [line.strip("()") for line in lines] if self.value("list-side") == "inverse" else lines

    def text(self, name: str) -> str:
        """The text of the part with this id, as it is seen, "" where it is hidden."""
        return self.script(
            "const it = part(arguments[0]); return it.checkVisibility() ? it.innerText.trim() : ''", name
        )

    def content(self, name: str) -> str:
        """The text of the part with this id, also where it is hidden."""
        return self.script("return part(arguments[0]).textContent", name)

    def value(self, name: str) -> str:
        """What a field holds."""
        return self.script("return part(arguments[0]).value", name)

    def hash(self) -> str:
        """The end of the address, which holds the page's state."""
        return self.script("return location.hash")

    def texts(self, selector: str) -> list[str]:
        """The texts of all elements that a selector finds."""
        return self.script("return all(arguments[0]).map((each) => each.textContent)", selector)

    def focused(self) -> str:
        """The id of what has the focus, or the name of its cell, or its text."""
        return self.look("focus")

    def look(self, name: str) -> Any:
        """
        What is seen by a name: one of LOOKS, what a script or a method here returns, what a field holds (`name=`), whether it is seen (`name?`), how many
        a selector finds (`n selector`), the texts of what a selector finds that begins with a sign, or the text of a part.
        """
        kind, *words = name.split()
        if name in LOOKS or "return " in name:
            return self.script(LOOKS.get(name, name))
        if kind in ("cells", "listed", "letters", "content"):
            return getattr(self, kind)(*words)
        if name.endswith("="):
            return self.value(name[:-1])
        if name.endswith("?"):
            return self.script("return part(arguments[0]).checkVisibility()", name[:-1])
        if name.startswith("n "):
            return len(self.texts(name[2:]))
        return self.text(name) if name[0].isalpha() else self.texts(name)

    def comes(self, name: str, wanted: object) -> bool:
        """Waits until a look has this value and nothing waits for an answer, and says whether that came in time."""
        end = time.monotonic() + LONGEST_WAIT
        while self.look(name) != wanted and time.monotonic() < end:
            time.sleep(0.02)
        self.wait()
        return self.look(name) == wanted

    def walk(self, tally: Tally, what: str, *steps: Step) -> None:
        """Does one step after another: a method of this class with its words, and then each look with what is wanted of it."""
        for (name, *words), looks in ((step[:-1], step[-1]) for step in steps):
            did = f"{what}, {name} {', '.join(map(str, words))[:80]}"
            tally.holds(f"{did}: it comes to its end", getattr(self, name)(*words) is not False)
            self.wait()
            for look, wanted in looks.items():
                tally.equal(f"{did}: {look}", self.look(look), wanted)

    def press(self, *keys: str, modifiers: int = 0) -> None:
        """Keys, as they come to what has the focus: those of CODES by their names, and each sign of another text."""
        for key in (
            each for keys_or_text in keys for each in ([keys_or_text] if keys_or_text in CODES else keys_or_text)
        ):
            text = {"text": "\r" if key == "Enter" else key} if key == "Enter" or key not in CODES else {}
            code = {"windowsVirtualKeyCode": CODES.get(key, ord(key.upper()) if len(key) == 1 and key.isalnum() else 0)}
            for kind in ("keyDown" if text else "rawKeyDown", "keyUp"):
                words = text if kind == "keyDown" else {}
                self.command("Input.dispatchKeyEvent", type=kind, key=key, modifiers=modifiers, **code, **words)

    def tab_to(self, wanted: str, most: int = 60, back: bool = False) -> bool:
        """Goes by the Tab key until this has the focus, and says whether it came there."""
        while (is_there := self.focused() == wanted) is False and most > 0:
            most -= 1
            self.press(Keys.TAB, modifiers=8 if back else 0)
        return is_there

    def fill(self, name: str, text: str) -> None:
        """Puts a text in place of a field's, and waits for what the page makes of it."""
        self.script(
            "const field = part(arguments[0]); field.value = arguments[1];"
            'part("results").setAttribute("aria-busy", "true"); field.dispatchEvent(new Event("input"))',
            name,
            text,
        )
        self.wait()

    def submit(self, name: str, text: str) -> None:
        """Puts a text in place of a field's, and sends its form, without waiting."""
        send = "const field = part(arguments[0]); field.value = arguments[1]; field.form.requestSubmit()"
        self.script(send, name, text)

    def click(self, selector: str) -> None:
        """Clicks the first element that a selector finds, in an opened part, and again where that moves away before the press comes there."""
        for _ in range(MOST_PRESSES):
            if not (other := self.pressed(selector)):
                return
            made_again("press", f"{selector} moved away before it was pressed, and {other} stood there")
        raise TimeoutError(f"{selector} moves away before each of {MOST_PRESSES} presses")

    def pressed(self, selector: str) -> str:
        """Presses where an element stands, and returns what the press came to in its place, "" if it came to it."""
        x, y = self.script(MIDDLE, selector)
        for kind in ("mouseMoved", "mousePressed", "mouseReleased"):
            self.command(
                "Input.dispatchMouseEvent",
                type=kind,
                x=x,
                y=y,
                button="none" if kind == "mouseMoved" else "left",
                clickCount=1,
            )
        return self.script(PRESSED)

    def act(self, selector: str) -> None:
        """Clicks, and waits for the answers."""
        self.click(selector)
        self.wait()

    def letters(self, side: str) -> str:
        """The letters that a net shows, by where they are seen, in the order of the program's letters."""
        return letters_of(self.script(stickers_of(side)))

    def cells(self) -> list[str]:
        """What the cells of the table are called."""
        return self.script("return all('#steps-body .cell').map((each) => each.ariaLabel)")

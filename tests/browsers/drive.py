#!/usr/bin/env python3
"""Drives the page in Chromium, and holds what it shows against the independent model.

    tests/browsers/drive.py [PAGE PROGRAM [PART..]]

PAGE is the joined file, PROGRAM the built nissy, and a PART one of those in PARTS below; all where none is named. Of a part each function is tried
that takes a tally and a browser alone. Without a word it prints the names of the parts, in lines of which each may be tried beside the others.
"""
import shutil
import subprocess
import sys
import tempfile
from importlib import import_module
from inspect import isfunction, signature
from pathlib import Path
from traceback import extract_tb
from typing import Callable

from selenium.common.exceptions import WebDriverException

sys.path.insert(0, str(Path(__file__).resolve().parent.parent))

from browser import Browser
from chromium import chromium
from tally import Tally

# in the order in which they are dealt out to the browsers
PARTS = (
    "keyboard faults workers addresses best searches at_once turned steps line kept focus stops phone narrow sizes settings filters looks still "
    "trifles further desk first ahead teacher marks attempts scrambles brought passage compared walk"
).split()
# how many signs of a fault are shown
LONGEST_WORDS = 600
# how many browsers there are, each with some of the parts
BROWSERS = 12
TOP = Path(__file__).resolve().parent.parent.parent
NO_ENGINE = "globalThis.WebAssembly = undefined;\n"


def page_without_engine(room: Path) -> str:
    """The page as a browser has it that runs no WebAssembly."""
    shutil.copytree(TOP / "build/web", room / "web")
    engine = room / "web/module/engine/source.js"
    engine.write_text(NO_ENGINE + engine.read_text())
    (room / "module").write_bytes(b"none")
    subprocess.run([TOP / "tools/page", room / "web/page", room / "module", room / "page.html"], check=True)
    return (room / "page.html").as_uri()


def trials(part: str) -> list[Callable[[Tally, Browser], None]]:
    """The functions of a part that take a tally and a browser alone, as they stand there."""
    own = [each for each in vars(import_module(part)).values() if isfunction(each) and each.__module__ == part]
    return [each for each in own if list(signature(each).parameters) == ["tally", "browser"]]


def stopped_at(stop: Exception, part: str) -> str:
    """In which functions of a part a fault came up, and which, in one line."""
    places = [each for each in extract_tb(stop.__traceback__) if Path(each.filename).stem == part]
    words = " ".join(f"{type(stop).__name__}: {stop}".split())
    return f"{', '.join(f'{each.name} at line {each.lineno}' for each in places)}: {words[:LONGEST_WORDS]}"


def try_part(tally: Tally, browser: Browser, part: str) -> None:
    """The functions of a part, up to one that the page stops."""
    try:
        for each in trials(part):
            each(tally, browser)
    except (TimeoutError, LookupError, TypeError, ValueError, WebDriverException) as stop:
        tally.holds(f"{part} goes to its end: {stopped_at(stop, part)}; {browser.state()}", False)


def main() -> None:
    """Each part in a page of its own, with a storage of its own, whose console and requests are looked at in the end."""
    if len(sys.argv) == 1:
        for at in range(BROWSERS):
            print(*PARTS[at::BROWSERS])
        return
    page, program = Path(sys.argv[1]).resolve().as_uri(), str(Path(sys.argv[2]).resolve())
    tally = Tally()
    driver = chromium()
    with tempfile.TemporaryDirectory() as room:
        without = page_without_engine(Path(room))
        for part in sys.argv[3:] or PARTS:
            browser = Browser(driver, page)
            browser.program, browser.page_without_engine = program, without
            try_part(tally, browser, part)
            tally.equal(f"{part}: the console", browser.complaints(), [])
            beyond = [
                url for url in browser.requests() if not url.startswith((page, without, "blob:", "data:", "about:"))
            ]
            tally.equal(f"{part}: requests beyond the file", beyond, [])
            browser.end()
    driver.quit()
    tally.end()


if __name__ == "__main__":
    main()

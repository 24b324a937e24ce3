#!/usr/bin/env python3
"""Bundles the installed package as its page says, and opens what comes of it in each browser that is here; and a page that takes the package from
another server:

    tests/npm/bundled.py FOLDER

FOLDER has the package in node_modules. Run it by Debian's Python, which has Debian's selenium, and with a display, which WebKit needs.
"""
import re
import shlex
import shutil
import subprocess
import sys
import tempfile
from dataclasses import dataclass
from pathlib import Path

TOP = Path(__file__).resolve().parent.parent.parent
sys.path[:0] = [str(TOP / "tests"), str(TOP / "tests/browsers")]

from served import served
from tally import Tally
from window import Window
from windows import BROWSERS, is_here

OF_TESTS = TOP / "tests/npm/bundled"


def page_of(package: Path) -> str:
    """Returns the package's page."""
    return (package / "README.md").read_text(encoding="utf-8")


def by_page(package: Path) -> tuple[dict[str, str], list[list[str]]]:
    """Returns the scripts that the package's page names, and the words of each command that bundles them."""
    scripts = dict(re.findall(r"^```javascript (\S+)\n(.*?)^```$", page_of(package), re.M | re.S))
    return scripts, [shlex.split(line) for line in re.findall(r"^    ((?:esbuild|rollup) .*)$", page_of(package), re.M)]


def site(folder: Path, script: str) -> None:
    """Writes the page that starts a folder's script."""
    (folder / "index.html").write_text(
        f'<!doctype html><meta charset="utf-8"><title>nissy</title><script type="module" src="{script}"></script>\n'
    )


def with_scripts(package: Path, folder: Path, scripts: dict[str, str]) -> Path:
    """Makes a folder with scripts by their names, which take the package from its node_modules."""
    folder.mkdir()
    (folder / "node_modules").symlink_to(package.parent)
    for name, text in scripts.items():
        (folder / name).write_text(text)
    return folder


def bundle(tally: Tally, package: Path, user: Path) -> dict[str, Path]:
    """Bundles the page's scripts by each bundler that is here, each in a folder of its own, and returns the folder of each bundle."""
    scripts, commands = by_page(package)
    tally.equal("the scripts of the package's page", sorted(scripts), ["engine.js", "page.js", "rollup.config.mjs"])
    tally.equal("the bundlers that it has a command of", [words[0] for words in commands], ["esbuild", "rollup"])
    made = {}
    for words in commands:
        if not shutil.which(words[0]):
            print(f"skipped: a bundle by {words[0]}, which isn't installed")
            continue
        folder = with_scripts(package, user / f"by-{words[0]}", scripts)
        ran = subprocess.run(words, cwd=folder, capture_output=True, text=True, check=False)
        tally.holds(f"{words[0]} bundles what the page says: {ran.stderr[-400:]}", ran.returncode == 0)
        made[f"by {words[0]}"] = folder / "site"
        site(folder / "site", "page.js")
    return made


def bundle_without(tally: Tally, package: Path, user: Path) -> list[Path]:
    """Bundles a page of which the bundle has no script for the worker, and returns the bundle's folder."""
    if not shutil.which("esbuild"):
        return []
    shutil.copy(OF_TESTS / "unmade.js", user)
    words = ["esbuild", "--bundle", "--format=esm", "--outdir=unmade", "unmade.js"]
    ran = subprocess.run(words, cwd=user, capture_output=True, text=True, check=False)
    tally.holds(f"esbuild bundles a page without a script for the worker: {ran.stderr[-400:]}", ran.returncode == 0)
    shutil.copy(package / "nissy.wasm", user / "unmade")
    site(user / "unmade", "unmade.js")
    return [user / "unmade"]


def plain(package: Path, user: Path) -> Path:
    """Makes the folder of the page without a bundler, as the package's page has it."""
    html = (
        "<!doctype html><title>nissy</title>\n" + re.findall(r"^```html\n(.*?)^```$", page_of(package), re.M | re.S)[0]
    )
    return with_scripts(package, user / "plain", {"index.html": html})


def with_script(package: Path, user: Path, name: str) -> Path:
    """Makes the folder of a page with a script of these tests, which may take the package from its node_modules."""
    script = f"{name}.js"
    folder = with_scripts(package, user / name, {script: (OF_TESTS / script).read_text(encoding="utf-8")})
    site(folder, script)
    return folder


def seen(window: Window, address: str) -> object:
    """What a page saw, in the end."""
    window.open(address)
    window.until("return window.seen !== undefined")
    return window.script("return window.seen")


@dataclass
class Trial:
    """The folders that servers have: those whose page shows a solution, by what made them, of a bundle without the worker's script, of a page
    that makes calls without a bundler, of one that takes the package from another server, and of the package."""

    solving: dict[str, Path]
    unmade: list[Path]
    calls: Path
    elsewhere: Path
    package: Path

    def in_window(self, tally: Tally, browser: str, window: Window) -> None:
        """Opens each page in a window."""
        for what, folder in self.solving.items():
            with served(folder) as address:
                window.open(address + "index.html")
                tally.holds(f"{browser}: the page {what} has a solution", window.until("return document.title === 'F'"))
        for folder in self.unmade:
            with served(folder) as address:
                missing = f"EngineMissing: the worker's script, or one that it imports, can't be loaded from {address}worker.js"
                tally.equal(
                    f"{browser}: a bundle without the worker's script", seen(window, address + "index.html"), missing
                )
        with served(self.calls) as address:
            window.open(address + "index.html")
            tally.holds(
                f"{browser}: the page of calls comes to its end", window.until("return window.seen !== undefined")
            )
            for what, got, wanted in window.script("return window.seen"):
                tally.equal(f"{browser}: {what}", got, wanted)
        with served(self.elsewhere) as address, served(self.package, {"Access-Control-Allow-Origin": "*"}) as server:
            got = seen(window, f"{address}index.html?{server}")
            tally.equal(f"{browser}: the package from another server", got, "AbortError, F2 U R'")


def in_browser(trial: Trial, tally: Tally, browser: str) -> None:
    """Opens the pages in a browser."""
    with tempfile.TemporaryDirectory(ignore_cleanup_errors=True) as room:
        window = BROWSERS[browser](room)
        try:
            trial.in_window(tally, browser, window)
        finally:
            window.end()


def main() -> None:
    """Bundles, and opens the pages in one browser after the other."""
    tally = Tally()
    package = Path(sys.argv[1]) / "node_modules/nissy"
    with tempfile.TemporaryDirectory(dir=sys.argv[1]) as made:
        user = Path(made)
        solving = {**bundle(tally, package, user), "without a bundler": plain(package, user)}
        calls, elsewhere = (with_script(package, user, name) for name in ("calls", "elsewhere"))
        trial = Trial(solving, bundle_without(tally, package, user), calls, elsewhere, package)
        for browser in BROWSERS:
            if not is_here(browser):
                print(f"skipped: the bundles in {browser}, which isn't installed")
                continue
            in_browser(trial, tally, browser)
    tally.end()


if __name__ == "__main__":
    main()

"""Chromium, which selenium drives: one after another, windows that begin with an empty storage and take commands of the browser's own protocol."""
import json
import shutil
from typing import Any

from selenium import webdriver
from selenium.common.exceptions import WebDriverException

# how many seconds a script may take
PATIENCE = 400
WORDS = (
    "--headless=new",
    "--no-sandbox",
    "--disable-dev-shm-usage",
    "--no-first-run",
    "--disable-background-networking",
    "--disable-component-update",
    "--disable-sync",
    "--disable-extensions",
    "--disable-default-apps",
)
# what a page shows where a test stops, whether it is drawn within two seconds, and what it said last to screen readers
STATE = """const texts = Object.fromEntries(["status", "alert", "failed-words", "scramble-fault", "best-note", "best-stop", "solutions-note"]
        .map((name) => [name, part(name)?.textContent.trim()]));
    const drawn = new Promise((done) => { requestAnimationFrame(() => done(true)); setTimeout(done, 2000, false); });
    return drawn.then((isDrawn) => JSON.stringify({
        ...texts,
        announced: window.announced?.slice(-4),
        kept: all("#kept-list .step:has(.step)").map((each) => each.textContent),
        pressed: all("[data-word]").map((each) => `${each.id}: ${each.textContent}`),
        open: all(":popover-open, dialog[open]").map((each) => `${each.id}: ${each.textContent}`),
        busy: all("[aria-busy=true]").map((each) => each.id),
        inert: all("[inert]").map((each) => each.id),
        focus: document.activeElement?.id || document.activeElement?.tagName,
        hasFocus: document.hasFocus(), visibility: document.visibilityState, isDrawn, missed: window.missed, at: location.hash,
    }))"""
SHORT = 10
# what the scripts of the tests call by short names
HELPERS = """const part = (name) => document.getElementById(name), all = (selector) => [...document.querySelectorAll(selector)];
    const seen = (selector) => all(selector).filter((each) => each.checkVisibility());"""


# the same engine without the browser's own windows, which nobody sees here, but take a third of the processors
SHELL = "chromium-headless-shell"


def chromium() -> webdriver.Chrome:
    """A browser that is seen nowhere, and tells what its pages ask for."""
    options = webdriver.ChromeOptions()
    options.binary_location = shutil.which(SHELL) or ""
    for word in WORDS:
        options.add_argument(word)
    options.set_capability("goog:loggingPrefs", {"browser": "ALL", "performance": "ALL"})
    driver = webdriver.Chrome(options=options)
    # a browser with windows lets a page copy once it is pressed, and has nobody to ask
    driver.execute_cdp_cmd("Browser.grantPermissions", {"permissions": ["clipboardSanitizedWrite"]})
    driver.set_script_timeout(PATIENCE)
    return driver


class Tab:
    """A window of a browser, while no other one is looked at."""

    def __init__(self, driver: webdriver.Chrome) -> None:
        self.driver, self.first = driver, driver.current_window_handle
        driver.switch_to.new_window("window")
        self.command("Storage.clearDataForOrigin", origin="file://", storageTypes="all")

    def command(self, name: str, **words: object) -> dict[str, Any]:
        """What is answered to a command to the page."""
        answer: dict[str, Any] = self.driver.execute_cdp_cmd(name, words)
        return answer

    def load(self, address: str = "") -> None:
        """Goes to an address, or loads the page again, and waits until it is loaded."""
        if address:
            self.driver.get(address)
        else:
            self.driver.refresh()

    def script(self, text: str, *words: object) -> Any:
        """What a script returns, or what its promise comes to."""
        try:
            return self.driver.execute_script(f"{HELPERS} return (function () {{ {text}\n}})(...arguments)", *words)
        except WebDriverException as fault:
            raise ValueError(f"{fault.msg} in {text}") from None

    def state(self) -> str:
        """What the page shows, where a test stops."""
        self.driver.set_script_timeout(SHORT)
        try:
            return f"the page shows {self.script(STATE)}"
        except (ValueError, WebDriverException) as fault:
            return f"the page doesn't say what it shows: {fault}"
        finally:
            self.driver.set_script_timeout(PATIENCE)

    def workers(self) -> int:
        """How many workers there are."""
        return sum(each["type"] == "worker" for each in self.command("Target.getTargets")["targetInfos"])

    def complaints(self) -> list[str]:
        """What the console said beside plain notes since this was last asked."""
        return [entry["message"] for entry in self.driver.get_log("browser") if entry["level"] in ("SEVERE", "WARNING")]

    def requests(self) -> list[str]:
        """The addresses that were asked for since this was last asked."""
        messages = [json.loads(entry["message"])["message"] for entry in self.driver.get_log("performance")]
        return [each["params"]["request"]["url"] for each in messages if each["method"] == "Network.requestWillBeSent"]

    def end(self) -> None:
        """Closes it."""
        self.driver.close()
        self.driver.switch_to.window(self.first)

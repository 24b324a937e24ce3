"""Windows of any browser that is here. All that drives one is imported with this module, before there are threads: by Python 3.11 two threads that
import at once may wait for each other without end."""
import encodings.idna  # of the name of a host, for each connection
import json
import shutil
from importlib.util import find_spec
from typing import Any, Callable

from firefox import Firefox
from window import SEEN, Window

HAS_SELENIUM = find_spec("selenium") is not None
if HAS_SELENIUM:
    from selenium import webdriver

    from chromium import Tab, chromium


class OfChromium(Window):
    """A window of Chromium."""

    def __init__(self) -> None:
        super().__init__(Tab(chromium()))

    def open(self, address: str) -> None:
        self.driver.load(address)

    def script(self, text: str) -> Any:
        return self.driver.script(text)

    def labels(self, selector: str) -> list[str]:
        found = self.driver.command("Runtime.evaluate", expression=f"(() => {{ {SEEN % json.dumps(selector)} }})()")[
            "result"
        ]["objectId"]
        each = self.driver.command("Runtime.getProperties", objectId=found, ownProperties=True)["result"]
        nodes = [
            self.driver.command(
                "Accessibility.getPartialAXTree", objectId=one["value"]["objectId"], fetchRelatives=False
            )["nodes"][0]
            for one in each
            if one["name"].isdigit()
        ]
        return [node.get("name", {}).get("value", "") for node in nodes]

    def resize(self, width: int, height: int) -> None:
        self.driver.command(
            "Emulation.setDeviceMetricsOverride", width=width, height=height, deviceScaleFactor=1, mobile=False
        )

    def end(self) -> None:
        self.driver.driver.quit()


def webkit(_room: str) -> Window:
    """A window of WebKit."""
    return Window(webdriver.WebKitGTK())


BROWSERS: dict[str, Callable[[str], Window]] = {
    "chromium": lambda _room: OfChromium(),
    "firefox": Firefox,
    "webkit": webkit,
}
NEEDS = {"chromium": ["chromium", "chromedriver"], "firefox": ["firefox"], "webkit": ["WebKitWebDriver", "xvfb-run"]}


def is_here(browser: str) -> bool:
    """Whether what a browser's window needs is here."""
    is_driven = browser == "firefox" or HAS_SELENIUM
    return is_driven and all(shutil.which(name) or shutil.which(f"{name}-esr") for name in NEEDS[browser])

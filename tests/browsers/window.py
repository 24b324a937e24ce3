"""A window of a browser, and when the page in one has its answers."""
import json
import time
from typing import Any

PATIENCE = 400
# kept lines have their totals by a worker of their own, for which nothing else waits; longer ones are counted, and wait until they are asked for
DONE = """
    const stop = document.getElementById("best-stop");
    return document.querySelector("#results[aria-busy=false]") !== null && document.querySelector("[aria-busy=true]") === null
        && (stop.disabled || stop.textContent === "Go on")
        && [...document.querySelectorAll("#kept-list .total")].every((each) => each.textContent !== "")"""
SEEN = "return [...document.querySelectorAll(%s)].filter((each) => each.checkVisibility({ visibilityProperty: true }))"


class Window:
    """A window of a browser that selenium drives; those of Firefox do the same otherwise."""

    def __init__(self, driver: Any) -> None:
        self.driver = driver

    def open(self, address: str) -> None:
        """Goes to an address."""
        self.driver.get(address)

    def script(self, text: str) -> Any:
        """What a script of the page answers."""
        return self.driver.execute_script(text)

    def labels(self, selector: str) -> list[str]:
        """What the browser's accessibility tree calls the elements that a selector finds and that are seen."""
        return [each.accessible_name for each in self.script(SEEN % json.dumps(selector))]

    def resize(self, width: int, height: int) -> None:
        """Makes the window about so large."""
        self.driver.set_window_size(width, height)

    def end(self) -> None:
        """Ends it."""
        self.driver.quit()

    def until(self, text: str) -> bool:
        """Waits until a script answers with true, and says whether it did in time."""
        end = time.monotonic() + PATIENCE
        while not self.script(text):
            if time.monotonic() > end:
                return False
            time.sleep(0.05)
        return True

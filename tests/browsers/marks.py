"""How the marks on a net are seen: by the colours of what is drawn, from the ground beside a sticker to the colour within its mark."""
import re

from browser import Browser
from looks import SCRAMBLE
from tally import Tally

# as WCAG 2 asks of what is no text
LEAST_CONTRAST = 3
# of each sticker that is marked its letter, and the colours from the ground on its left to within its ring, below the letter
ACROSS = """const [data, scale] = arguments, image = new Image();
    image.src = `data:image/png;base64,${data}`;
    return image.decode().then(() => {
        const canvas = Object.assign(document.createElement('canvas'), { width: image.width, height: image.height });
        const drawn = canvas.getContext('2d', { willReadFrequently: true });
        drawn.drawImage(image, 0, 0);
        return seen('#cube .sticker.bad').map((each) => {
            const { left, top, width, height } = each.querySelector('rect').getBoundingClientRect();
            const [from, to] = [-0.08, 0.4].map((share) => Math.round(scale * (left + share * width)));
            const { data: bytes } = drawn.getImageData(from, Math.floor(scale * (top + 0.775 * height)), to - from, 1);
            return [each.dataset.shown, Array.from({ length: to - from }, (_, at) => [...bytes.slice(4 * at, 4 * at + 3)])];
        });
    })"""


def light(colour: list[int]) -> float:
    """The relative luminance of a colour, by WCAG 2."""
    red, green, blue = (
        part / 255 / 12.92 if part <= 0.04045 * 255 else ((part / 255 + 0.055) / 1.055) ** 2.4 for part in colour
    )
    return 0.2126 * red + 0.7152 * green + 0.0722 * blue


def channels(colour: str) -> list[int]:
    """The parts of a colour as a browser writes it."""
    return [int(part) for part in re.findall(r"\d+", colour)]


def contrast(one: list[int], other: list[int]) -> float:
    """The contrast of two colours."""
    darker, lighter = sorted((light(one), light(other)))
    return (lighter + 0.05) / (darker + 0.05)


def contrast_of_ring(across: list[list[int]]) -> float:
    """The greatest contrast that some colour has both to what is on its left, and to the colour on the right, within the ring."""
    return max(
        min(max(contrast(each, left) for left in across[:at]), contrast(each, across[-1]))
        for at, each in enumerate(across)
        if at > 0
    )


def are_seen(tally: Tally, browser: Browser) -> None:
    """The ring of each sticker that is marked is seen on its colour and on the ground, in light and dark, on small and large nets, and in print."""
    for name, width, scale, act in (
        ("a phone", 390, 3, ""),
        ("a desktop", 1280, 1, ""),
        ("a sheet", 794, 2, "print"),
        ("large nets", 1280, 1, "part('cube-large').click()"),
    ):
        for colours in ("light", "dark"):
            browser.resize(width, 1000, width < 400)
            browser.open(SCRAMBLE)
            browser.wait_best()
            browser.media("print" if act == "print" else "", prefers_color_scheme=colours)
            browser.choose("marks", "DR F/B")
            browser.script("" if act == "print" else act)
            browser.script("part('cube').scrollIntoView({ block: 'center', behavior: 'instant' })")
            about = {
                "clip": {"x": 0, "y": browser.script("return scrollY"), "width": width, "height": 1000, "scale": scale}
            }
            data = browser.command("Page.captureScreenshot", format="png", **about)["data"]
            found = browser.script(ACROSS, data, scale)
            tally.equal(f"{name}, {colours}: colours", {letter for letter, _ in found}, set("URFDLB"))
            least, letter, across = min((contrast_of_ring(across), letter, across) for letter, across in found)
            said = f"{name}, {colours}: the least contrast of a ring: {least:.2f}, on {letter}: {across}"
            tally.holds(said, least >= LEAST_CONTRAST)
            browser.media(prefers_color_scheme="light")
    browser.resize()

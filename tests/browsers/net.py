"""The letters of a net, by where its stickers are seen."""
from typing import TypedDict

# where the faces U, R, F, D, L and B stand in a net, in blocks of three stickers from the left and from above
BLOCKS = ((1, 0), (2, 1), (1, 1), (1, 2), (0, 1), (3, 1))


class Sticker(TypedDict):
    """The middle of a sticker in points of the window, and its letter."""

    left: float
    top: float
    letter: str


def stickers_of(side: str) -> str:
    """A script that answers of each sticker of a net the letter that it shows, which is that of its colour too, and its place."""
    return f"""return [...document.querySelectorAll("#net-{side} .sticker")].map((each) => {{
        // the middle, since the ring of a marked one is wider
        const {{ x, y, width, height }} = each.firstElementChild.getBoundingClientRect();
        const [left, top] = [x + width / 2, y + height / 2];
        const letter = each.querySelector("text").textContent;
        return {{ left, top, letter: each.dataset.colour === letter ? letter : "?" }};
    }});"""


def letters_of(seen: list[Sticker]) -> str:
    """The letters of these stickers, in the order of the program's letters."""
    columns = sorted({round(it["left"]) for it in seen})
    rows = sorted({round(it["top"]) for it in seen})
    if (len(seen), len(columns), len(rows)) != (54, 12, 9):
        return f"{len(seen)} stickers in {len(columns)} columns and {len(rows)} rows"
    shown = {(columns.index(round(it["left"])), rows.index(round(it["top"]))): it["letter"] for it in seen}
    return "".join(
        shown.get((3 * column + place % 3, 3 * row + place // 3), "?") for column, row in BLOCKS for place in range(9)
    )

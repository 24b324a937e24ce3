"""What the built program answers."""
import subprocess
from functools import cache


def program_answers(program: str, words: list[str], lines: list[str]) -> list[str]:
    """What the built program answers to each line."""
    text = "".join(line + "\n" for line in lines)
    return subprocess.run([program, *words], input=text, capture_output=True, text=True, check=True).stdout.splitlines()


def program_lists(program: str, words: list[str], lines: list[str]) -> list[list[str]]:
    """The moves of the solutions that the built program lists for each line."""
    text = "".join(line + "\n" for line in lines)
    out = subprocess.run([program, *words], input=text, capture_output=True, text=True, check=True).stdout
    return [
        [line.rsplit("(", 1)[0].strip() for line in block.splitlines()]
        for block in out.removesuffix("\n\n").split("\n\n")
    ]


TURNS = [face + power for face in "UDRLFB" for power in ("", "2", "'")]


def beginnings(count: int, kept: str = "") -> list[str]:
    """
    All lines of so many turns, of which neighbours turn other faces, those of opposite faces in one order alone; none is a quarter turn of the faces whose
    orientation is kept.
    """
    turns = [turn for turn in TURNS if turn[0] not in kept or turn[1:] == "2"]
    lines: list[list[str]] = [[]]
    for _ in range(count):
        lines = [
            [*line, turn]
            for line in lines
            for turn in turns
            if not line or (line[-1][0] != turn[0] and line[-1][0] + turn[0] not in ("DU", "LR", "BF"))
        ]
    return [" ".join(line) for line in lines]


@cache
def fewer_over_both(program: str, step: str, sides: tuple[str, ...], least: int) -> int | None:
    """
    The least length of a step over both sides, None if it isn't less than the least on each alone: begun on the side that has no more of it, gone on with
    on the other.
    """
    fewer, count = None, 1
    while 2 * count < least:
        begun = program_answers(program, ["invert"], beginnings(count, step[7:].upper()))
        after = [f"{each} {line}" for line in sides for each in begun]
        for each in program_answers(program, ["count", step, str(least - 1 - count)], after):
            if not each.startswith("length none") and int(each.split()[1]) + count < least:
                fewer = least = int(each.split()[1]) + count
        count += 1
    return fewer

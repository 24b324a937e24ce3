"""The lines that calls are timed on, and the tables of their times."""
import random

TURNS = "U U2 U' D D2 D' R R2 R' L L2 L' F F2 F' B B2 B'".split()
# those that keep the edges oriented
OF_ORIENTED = [turn for turn in TURNS if turn not in ("F", "F'", "B", "B'")]


def drawn(count: int, turns: list) -> list:
    """Lines of twenty turns, always the same ones."""
    draw = random.Random(42)
    return [" ".join(draw.choice(turns) for _ in range(20)) for _ in range(count)]


def row(*columns: str) -> None:
    """One row of a table."""
    print("| " + " | ".join(columns) + " |")

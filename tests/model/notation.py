"""Lines of moves for the independent model: how they are read, expanded, cleaned and written."""
import re
from collections.abc import Iterable

from cube import Effect, Move, effect_of, inverse_effect, rotation_of, then

MOST_MOVES = 256

EXPANSION = {
    "Rw": ["L", "x"],
    "Lw": ["R", "x'"],
    "Uw": ["D", "y"],
    "Dw": ["U", "y'"],
    "Fw": ["B", "z"],
    "Bw": ["F", "z'"],
    "M": ["R", "L'", "x'"],
    "E": ["U", "D'", "y'"],
    "S": ["F'", "B", "z"],
}
# After a rotation the letter of a face stands for another face of the cube as it was held before.
RENAMED = {"x": dict(zip("UFDBRL", "FDBURL")), "y": dict(zip("UFDBRL", "URDLBF")), "z": dict(zip("UFDBRL", "LFRBUD"))}
OPPOSITE = {"U": "D", "D": "U", "R": "L", "L": "R", "F": "B", "B": "F"}
TURNS = [(face, quarters) for face in "UDRLFB" for quarters in (1, 2, 3)]
SUFFIX_OF_QUARTERS = {1: "", 2: "2", 3: "'"}


def word_of(move: Move) -> str:
    """A move as it is written."""
    return move[0] + SUFFIX_OF_QUARTERS[move[1]]


def words_of(moves: Iterable[Move]) -> str:
    """Moves as they are written, with single spaces."""
    return " ".join(word_of(move) for move in moves)


def power_of_word(word: str, power: int) -> Move:
    """The move that a word made `power` times is: x' made twice is x2."""
    letters, quarters = (word[:-1], 3) if word.endswith("'") else (word, 1)
    return letters, quarters * power % 4


def expanded(move: Move) -> list[Move]:
    """A wide turn or slice turn as face turns and a rotation; other moves as they are."""
    letters, quarters = move
    return [power_of_word(word, quarters) for word in EXPANSION[letters]] if letters in EXPANSION else [move]


def to_faces(moves: list[Move]) -> tuple[list[Move], list[Move]]:
    """Face turns with all rotations pushed to the end, and the rotation that is left."""
    faces: list[Move] = []
    name = {face: face for face in "UFDBRL"}
    for letters, quarters in [part for move in moves for part in expanded(move)]:
        if letters in RENAMED:
            for _ in range(quarters):
                name = {face: name[RENAMED[letters][face]] for face in name}
        else:
            faces.append((name[letters], quarters))
    return faces, rotation_of(effect_of(moves))


def allowed(last: Move | None, turn: Move) -> bool:
    """Whether a turn may follow the last one, None where there is none, in a canonical sequence."""
    return last is None or not (last[0] == turn[0] or (OPPOSITE[last[0]] == turn[0] and last[0] in "DLB"))


def clean(faces: list[Move]) -> list[Move]:
    """Face turns rewritten, each time at the leftmost pair that isn't canonical, until none is left."""
    faces, at = list(faces), 0
    while at + 1 < len(faces):
        last, turn = faces[at], faces[at + 1]
        if allowed(last, turn):
            at += 1
            continue
        if last[0] == turn[0]:
            quarters = (last[1] + turn[1]) % 4
            faces[at : at + 2] = [(last[0], quarters)] if quarters else []
        else:
            faces[at : at + 2] = [turn, last]
        at = max(at - 1, 0)
    return faces


NOT_A_MOVE = "not a move"
NESTED = "bracket inside a bracket"
UNOPENED = "bracket closed that was not opened"
UNCLOSED = "bracket not closed"
TOO_LONG = "more than 256 moves"

# Blanks, a bracket, or a move: its letters, and what belongs to them; E2 80 99 is the typographic apostrophe.
ITEM = re.compile(rb"[ \t\r]+|[()]|([UDRLFB]w?|[udrlfbMESxyz])(2?(?:'|\xe2\x80\x99)|2)?")
QUARTERS_OF_SUFFIX = {None: 1, b"2": 2, b"'": 3, b"2'": 2, b"\xe2\x80\x99": 3, b"2\xe2\x80\x99": 2}


class ReadFault(Exception):
    """What is wrong with a line, and the column of the byte where it is."""

    def __init__(self, kind: str, column: int) -> None:
        super().__init__(kind, column)
        self.kind, self.column = kind, column


def bracket(opened: int | None, item: bytes, at: int) -> int | None:
    """Where the bracket that is open after this one began, or None."""
    if item == b"(" and opened is not None:
        raise ReadFault(NESTED, at + 1)
    if item == b")" and opened is None:
        raise ReadFault(UNOPENED, at + 1)
    return at if item == b"(" else None


def read(line: bytes) -> tuple[list[Move], list[Move]]:
    """The normal moves of a line and those in brackets; a ReadFault where it isn't spelled."""
    normal: list[Move] = []
    bracketed: list[Move] = []
    opened: int | None = None
    at = 0
    while at < len(line):
        item = ITEM.match(line, at)
        if item is None:
            raise ReadFault(NOT_A_MOVE, at + 1)
        if item.group(1) is not None:
            if len(normal) + len(bracketed) == MOST_MOVES:
                raise ReadFault(TOO_LONG, at + 1)
            letters = item.group(1).decode()
            letters = letters.upper() + "w" if letters in "udrlfb" else letters
            (normal if opened is None else bracketed).append((letters, QUARTERS_OF_SUFFIX[item.group(2)]))
        elif item.group() in (b"(", b")"):
            opened = bracket(opened, item.group(), at)
        at = item.end()
    if opened is not None:
        raise ReadFault(UNCLOSED, opened + 1)
    return normal, bracketed


def meaning(normal: list[Move], bracketed: list[Move]) -> Effect:
    """The effect of a line: its normal moves, and then the inverse of the bracketed ones."""
    return then(effect_of(normal), inverse_effect(effect_of(bracketed)))


def cleaned_words(moves: list[Move]) -> list[str]:
    """Moves as cleaned face turns and one rotation, written."""
    faces, rotation = to_faces(moves)
    return [word_of(move) for move in clean(faces) + rotation]


def cleaned_line(normal: list[Move], bracketed: list[Move]) -> str:
    """A line with its two parts cleaned, each by itself; empty brackets are left out."""
    words, inner = cleaned_words(normal), cleaned_words(bracketed)
    return " ".join(words + (["(" + " ".join(inner) + ")"] if inner else []))

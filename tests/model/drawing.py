"""Drawn lines, damaged lines, words and numbers, and lines that a step may start on."""
import random
from collections.abc import Iterable, Sequence

import solving
from cube import Move, brought_home, effect_of, inverse_of
from notation import read, to_faces, word_of, words_of

LETTERS = "U D R L F B Uw Dw Rw Lw Fw Bw u d r l f b M E S x y z".split()
FACES = "U D R L F B".split()
SUFFIXES = ["", "", "2", "'", "2'", "\u2019", "2\u2019"]
DAMAGES = [bytes([byte]) for byte in b"UwxM2'()Q \t\r\n3,.;-#/[]{}\0\x7f\x80\x99\xe2\xff\xc3"] + (
    b"\xe2\x80|\xe2\x99|\xe2\x80\x98|\xe2\x80\x99|''|2'|'2|22|3|w|w'|((|))|()|#R|//R|[R,U]"
).split(b"|")
# In and out of range, with leading zeros, and what other programs take for a number.
NUMBERS = (
    f"0|1|2|3|20|21|00|020|0021|+1|-1| 1|1 ||1.0|0x1|1e1|a|\u0661|256|257|10000|10001|18446744073709551615|"
    f"18446744073709551616|{'0' * 40}5|{'9' * 60}|1_0|\u00b2|4294967296|99999999999999999999"
).split("|")
VOCABULARY = (
    "invert|unniss|cleanup|print|solve|count|near|scramble|steps|Invert|help|-h|--help|--version||solv|solve | solve|"
    "twophase|eofb|dr-eofb|drud-eofb|drud-eoud|eo|EO|dr|htr|R|F|(|"
).split("|") + NUMBERS


def is_outside(words: list[str], at: int) -> bool:
    """Whether this place among words is outside brackets."""
    return words[:at].count("(") == words[:at].count(")")


def letters_after(moves: list[Move]) -> dict[str, str]:
    """For each face of the cube as it was held at first, the letter that turns it after these moves."""
    turned = {letter: to_faces(moves + [(letter, 1)])[0][-1][0] for letter in FACES}
    return {face: letter for letter, face in turned.items()}


class Drawing(random.Random):
    """What a run is made of, drawn with a seed."""

    def move(self, letters: Sequence[str] | None = None) -> str:
        """A move as it may be spelled."""
        return self.choice(letters or LETTERS) + self.choice(SUFFIXES)

    def moves(self, count: int, letters: Sequence[str] | None = None) -> list[str]:
        """Moves as words."""
        return [self.move(letters) for _ in range(count)]

    def glued(self, words: Sequence[str]) -> str:
        """Words and brackets with one blank between, none, or drawn ones."""
        taste = self.random()
        if taste < 0.6:
            return (" " if taste < 0.4 else "").join(words)
        text = self.choice(["", " ", "\t", "\r"])
        for word in words:
            text += word + self.choice(["", " ", "  ", "\t", "\r", " \t\r "])
        return text

    def line(self, most: int = 30) -> str:
        """A line that is spelled, with brackets in some."""
        letters = self.choice([LETTERS, LETTERS, FACES, ["M", "E", "S", "x", "U"], ["R", "L"], ["U", "D", "y"]])
        words = self.moves(self.randrange(0, most + 1), letters)
        for _ in range(self.choice([0, 0, 0, 1, 1, 2, 3])):
            inner, at = self.moves(self.randrange(0, 6), letters), self.randrange(0, len(words) + 1)
            if is_outside(words, at):
                words[at:at] = ["("] + inner + [")"]
        return self.glued(words)

    def ended(self, lines: Iterable[str]) -> bytes:
        """Lines as input, the last one mostly with its line feed."""
        return "\n".join(lines).encode() + (b"\n" if self.random() < 0.8 else b"")

    def damaged(self, data: bytes) -> bytes:
        """Input with a byte or a few put in, changed or taken away at one place."""
        at, kind = self.randrange(len(data) + 1), self.random()
        if kind < 0.35:
            return data[:at] + self.choice(DAMAGES) + data[at:]
        if kind < 0.6:
            return data[:at] + self.choice(DAMAGES) + data[at + 1 :]
        if kind < 0.75:
            return data[:at] + bytes([self.randrange(256)]) + data[at + 1 :]
        return data[:at] + data[at + 1 :] if kind < 0.9 else data[:at]

    def started(self, name: str, most: int) -> str:
        """A line on which a step may start."""
        start, turns, _ = solving.STEPS[name]
        if start is None:
            return self.line(most)
        if self.random() < 0.5:
            return self.started_from_solved(solving.TURNS_OF[turns], most)
        return self.started_by_orientation("eo" + start, solving.TURNS_OF[turns], most)

    def started_from_solved(self, turns: list[Move], most: int) -> str:
        """Turns of the step alone, some of them in brackets."""
        words = [word_of(self.choice(turns)) for _ in range(self.randrange(0, most + 1))]
        if words and self.random() < 0.4:
            at = self.randrange(len(words))
            words = words[:at] + ["("] + words[at:] + [")"]
        return self.glued(words)

    def started_by_orientation(self, orientation: str, turns: list[Move], most: int) -> str:
        """A drawn line, then a shortest orientation of its edges and turns of the step, spelled after its rotations."""
        text = self.line(min(most, 8))
        normal, bracketed = read(text.encode())
        whole = normal + inverse_of(bracketed)
        step = solving.step(orientation)
        _, found, _ = step.search(step.position(brought_home(effect_of(whole))), solving.FARTHEST, 0)
        letter = letters_after(whole)
        faces = [step.turns[index] for index in self.choice(found)]
        faces += [self.choice(turns) for _ in range(self.randrange(0, most + 1))]
        tail = [(letter[face], quarters) for face, quarters in faces]
        if self.random() < 0.5 and not bracketed:
            return text + " " + words_of(tail)
        return "(" + words_of(inverse_of(tail)) + ")" + text

    def line_by_distance(self, name: str) -> str:
        """A line at a position of the step's first goal, each distance as likely as the others."""
        step = solving.step(name)
        distance, move = step.goals[0].distance, step.movers[0]
        wanted = self.choice(sorted(set(distance) - {solving.BEYOND}))
        position = distance.find(wanted, self.randrange(len(distance)))
        if position < 0:
            position = distance.find(wanted)
        turns = []
        while distance[position]:
            nearer = [index for index in range(len(step.turns)) if distance[move(position, index)] < distance[position]]
            index = self.choice(nearer)
            turns.append(step.turns[index])
            position = move(position, index)
        return words_of(inverse_of(turns))

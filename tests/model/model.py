#!/usr/bin/env python3
"""An independent model of nissy: what each run answers, written from definitions in words without a look at the crates.

    tests/model/model.py COMMAND [ARGUMENTS]

It answers as nissy does, by slow and plain means. `run` says for words and input what the output, the text of faults and the
status are; `against.py` and `hostile.py` compare the program with it.
"""
import sys

from cube import Effect, Move, brought_home, facelet_text, inverse_of
from notation import TURNS, ReadFault, allowed, cleaned_line, meaning, read, word_of, words_of
from solving import FARTHEST, STEPS, solutions_of, step

MOST_INPUT = 16_777_216
MOST_SCRAMBLES = 10_000
MOST_TURNS = 256
MOST_OF_64_BITS = (1 << 64) - 1
REWRITES = ("invert", "unniss", "cleanup", "print")
USAGE = b"usage: nissy COMMAND [ARGUMENTS]\n"
INPUT_TOO_LONG = b"nissy: input longer than %d bytes\n" % MOST_INPUT
CANNOT_READ = b"nissy: cannot read\n"
CANNOT_WRITE = b"nissy: cannot write\n"
NO_MEMORY = b"nissy: out of memory\n"

# the output, the text of faults and the status
Answer = tuple[bytes, bytes, int]
# the words of a command, and its input
Run = tuple[list[str], bytes]


class Generator:
    """The generator PCG XSH RR 64/32 that scrambles are drawn with."""

    def __init__(self, state: int, stream: int) -> None:
        self.increment = (stream << 1 | 1) & MOST_OF_64_BITS
        self.state = (state + self.increment) & MOST_OF_64_BITS
        self.advance()

    def advance(self) -> None:
        """The next state."""
        self.state = (self.state * 6364136223846793005 + self.increment) & MOST_OF_64_BITS

    def word(self) -> int:
        """The next 32 bits."""
        old = self.state
        self.advance()
        shifted = ((old >> 18 ^ old) >> 27) & 0xFFFFFFFF
        turned = old >> 59
        return (shifted >> turned | shifted << (32 - turned)) & 0xFFFFFFFF


FOLLOWING = {last: [turn for turn in TURNS if allowed(last, turn)] for last in [None, *TURNS]}


def scramble(generator: Generator, length: int) -> str:
    """One scramble: each turn is drawn from those that may follow."""
    turns: list[Move] = []
    last: Move | None = None
    for _ in range(length):
        choices = FOLLOWING[last]
        last = choices[generator.word() * len(choices) >> 32]
        turns.append(last)
    return words_of(turns)


def scrambles(state: int, stream: int, length: int, count: int) -> bytes:
    """The lines of `scramble`, all drawn with one generator."""
    generator = Generator(state, stream)
    return "".join(scramble(generator, length) + "\n" for _ in range(count)).encode()


class Usage(Exception):
    """Words that are no command."""


def number(word: str, most: int) -> int:
    """A number of the digits 0 to 9, with leading zeros or none."""
    if not word or any(digit not in "0123456789" for digit in word):
        raise Usage
    digits = word.lstrip("0") or "0"
    if len(digits) > 25 or int(digits) > most:
        raise Usage
    return int(digits)


def parsed(words: list[str]) -> tuple[str, str, tuple[int, ...], list[str]]:
    """The command, its step if it searches one, its numbers, and the words that are its input."""
    if not words:
        raise Usage
    command, rest = words[0], words[1:]
    if command in REWRITES:
        return command, "", (), rest
    if command in ("solve", "count", "near"):
        wanted = 3 if command == "near" else 2
        if len(rest) < wanted or rest[0] not in STEPS:
            raise Usage
        return command, rest[0], tuple(number(word, FARTHEST) for word in rest[1:wanted]), rest[wanted:]
    if command == "scramble" and len(rest) == 4:
        most = (MOST_OF_64_BITS, MOST_OF_64_BITS, MOST_TURNS, MOST_SCRAMBLES)
        return command, "", tuple(number(*pair) for pair in zip(rest, most)), []
    if command == "steps" and not rest:
        return command, "", (), []
    raise Usage


class StartFails(Exception):
    """A line on which the step may not start."""


def rewritten(command: str, normal: list[Move], bracketed: list[Move]) -> str:
    """The answer of a command that rewrites a line."""
    whole = normal + inverse_of(bracketed)
    if command == "unniss":
        return words_of(whole)
    if command == "invert":
        return words_of(inverse_of(whole))
    if command == "cleanup":
        return cleaned_line(normal, bracketed)
    return facelet_text(meaning(normal, bracketed))


def searched(command: str, name: str, limit: int, slack: int, home: Effect) -> str:
    """The answer of a command that searches a step."""
    this = step(name)
    if this.start is not None and not this.may_start(home):
        raise StartFails("eo" + this.start)
    least, found, looks = solutions_of(name, this.position(home), limit, slack)
    if command == "count":
        return "length %s solutions %d nodes %d" % ("none" if least is None else least, len(found), looks)
    if least is None:
        return "no solution within %d moves\n" % limit
    words = [word_of(turn) for turn in this.turns]
    return "\n".join(" ".join([words[index] for index in path] + ["(%d)" % len(path)]) for path in found) + "\n"


def answer(command: str, name: str, numbers: tuple[int, ...], line: bytes) -> str:
    """What is written for one line."""
    normal, bracketed = read(line)
    if command in REWRITES:
        return rewritten(command, normal, bracketed) + "\n"
    slack = numbers[1] if command == "near" else 0
    return searched(command, name, numbers[0], slack, brought_home(meaning(normal, bracketed))) + "\n"


def answers(command: str, name: str, numbers: tuple[int, ...], lines: list[bytes]) -> tuple[list[bytes], bytes, int]:
    """The answers up to the first line with a fault, and its text with the status, or none and 0."""
    written: list[bytes] = []
    known: dict[bytes, bytes] = {}
    for line_number, line in enumerate(lines, 1):
        try:
            if line not in known:
                known[line] = answer(command, name, numbers, line).encode()
        except ReadFault as fault:
            return written, ("nissy: line %d, column %d: %s\n" % (line_number, fault.column, fault.kind)).encode(), 1
        except StartFails as fault:
            return written, ("nissy: line %d: %s does not hold\n" % (line_number, fault)).encode(), 1
        written.append(known[line])
    return written, b"", 0


def run(words: list[str], data: bytes = b"", read_fails: bool = False) -> Answer:
    """The output, the text of faults and the status for words and what standard input gives before its end or a failure."""
    try:
        command, name, numbers, rest = parsed(words)
    except Usage:
        return b"", USAGE, 2
    if command == "steps":
        return "".join(name + "\n" for name in STEPS).encode(), b"", 0
    if command == "scramble":
        return scrambles(*numbers), b"", 0
    if rest:
        data, read_fails = " ".join(rest).encode() + b"\n", False
        if len(data) > MOST_INPUT:
            return b"", INPUT_TOO_LONG, 3
    too_long = len(data) > MOST_INPUT
    lines = data[:MOST_INPUT].split(b"\n")
    last = lines.pop()
    if last and not read_fails and not too_long:
        lines.append(last)
    written, fault, status = answers(command, name, numbers, lines)
    if status == 0 and (too_long or read_fails):
        fault, status = (INPUT_TOO_LONG if too_long else CANNOT_READ), 3
    return b"".join(written), fault, status


def main() -> None:
    """Answers as the program does."""
    words, data = sys.argv[1:], b""
    try:
        command, _, _, rest = parsed(words)
        if command not in ("steps", "scramble") and not rest:
            data = sys.stdin.buffer.read()
    except Usage:
        pass
    output, fault, status = run(words, data)
    sys.stdout.buffer.write(output)
    sys.stdout.buffer.flush()
    sys.stderr.buffer.write(fault)
    sys.exit(status)


if __name__ == "__main__":
    main()

"""Hostile use: files of any bytes, inputs of 16 MiB, and lists of odd and long words."""
import resource

import model
import solving
from drawing import Drawing
from streams import run_with
from trial import Trial

ALPHABET = b"UDRLFBudrlfbMESxyzw2' \t\r\n()\xe2\x80\x99qQ3\0\xff"
# What stands across the boundary of two blocks that are read.
ACROSS = (
    b"R\xe2\x80\x99|R2\xe2\x80\x99|Rw2'|(U)|R\nU\n|q|\xe2\x80U|R\xe2\x80\nU|\n\n\n|R\r\nU|))|(\n)|\0|U'2|R ' "
).split(b"|")


def line(draw: Drawing, most: int) -> bytes:
    """A line as bytes."""
    words = draw.moves(draw.randrange(0, most + 1))
    if draw.random() < 0.3:
        at = draw.randrange(len(words) + 1)
        words[at:at] = ["("] + draw.moves(draw.randrange(4)) + [")"]
    return draw.choice(["", " ", " \t"]).join(words).encode()


def lines(draw: Drawing, count: int, most: int) -> bytes:
    """Lines as bytes, the last one without a line feed."""
    return b"\n".join(line(draw, most) for _ in range(count))


def files(trial: Trial, draw: Drawing, count: int) -> None:
    """Files of bytes of every value, of those that moves are spelled with, and with a move, a bracket or a fault across the end of a block."""
    for at in range(count):
        block = draw.choice([4096, 8192, 12288, 65536, 131072])
        across = draw.choice(ACROSS) + draw.choice([b"", b"\n", b"U\n", b" "])
        unit = draw.choice([b" ", b"R U'\n", b"\n", b"R" * 250 + b" " * draw.randrange(0, 300) + b"\n"])
        before = (unit * (block // len(unit) + 1))[: block - draw.randrange(0, len(across) + 2)]
        data = draw.choice(
            [
                draw.randbytes(draw.randrange(0, 200)),
                bytes(draw.choice(ALPHABET) for _ in range(draw.randrange(0, 60))),
                before + across + draw.choice([b"", b"R\n", b"M x\n" * 2000, b" " * 5000]),
            ]
        )
        words = draw.choice([[draw.choice(model.REWRITES)]] * 9 + [["solve", "eofb", "2"], ["near", "eo", "3", "1"]])
        trial.compare("files of any bytes", words, data, at % 2 == 0)


def large(trial: Trial) -> None:
    """Inputs of 16 MiB, a byte less and a byte more, with faults before and after the limit."""
    most = model.MOST_INPUT
    filled = (b"R" + b" " * 8190 + b"\n") * (most // 8192)
    cases = [
        b" " * most,
        b" " * (most + 1),
        b" " * (most - 1) + b"\n",
        b" " * most + b"\n",
        filled,
        filled + b"R",
        filled[:-1],
        filled[:-2] + b"q\n",
        filled[:-2] + b"q\nR",
        filled[:-1] + b"(",
        filled[:-2] + b"\nqq",
        b"U" * 257 + b" " * (most - 257) + b"\n",
        b"q" + b" " * most,
        b"R" * (most + 1),
        b"(" + b" " * (most - 1),
        filled[:-3] + b"\xe2\x80\x99",
        filled[:-2] + b"\xe2\x80\x99",
        filled + filled[:100000],
    ]
    for at, data in enumerate(cases):
        trial.compare("input of 16 MiB and about", [model.REWRITES[at % 4]], data, at % 2 == 0)
    for words, data in (
        (["print"], b"\n" * 81920 + b" " * (most - 81919)),
        (["invert"], (b"RU\n" * (most // 3 + 1))[: most + 5]),
        (["count", "eofb", "3"], filled[:24576] + b"F" + b" " * (most - 24576)),
    ):
        trial.compare("input of 16 MiB and about", words, data, True)


def odd_word(draw: Drawing) -> str:
    """A word of any characters, of those of the notation, a name, a number or a line."""
    kind = draw.randrange(6)
    if kind == 0:
        return "".join(
            chr(draw.choice([draw.randrange(1, 128), draw.randrange(128, 0xD800), draw.randrange(0x10000, 0x10FFFF)]))
            for _ in range(draw.randrange(0, 12))
        )
    if kind == 1:
        return "".join(draw.choice("UDRLFBudrwMESxyz2'() \t\r\n\u2019\u2018q") for _ in range(draw.randrange(0, 10)))
    if kind == 2:
        return draw.choice(list(model.REWRITES) + ["solve", "count", "near", "scramble", "steps"])
    if kind == 3:
        return draw.choice(list(solving.STEPS)[:3] + ["eo", "drud", "eof", ""])
    if kind == 4:
        return str(draw.choice([0, 1, 2, 3, 20, 21, 256, 257, draw.getrandbits(64), draw.getrandbits(65)]))
    return line(draw, 5).decode()


def word_lists(trial: Trial, draw: Drawing, count: int) -> None:
    """Lists of odd words, most of them after a command."""
    for _ in range(count):
        words = [odd_word(draw) for _ in range(draw.randrange(0, 6))]
        if draw.random() < 0.7:
            words.insert(0, draw.choice(list(model.REWRITES) + ["steps", "solve", "count", "near", "scramble"]))
        if words[:1] == ["scramble"] and len(words) == 5 and len(words[4]) > 2:
            words[4] = "3"
        trial.compare("word lists", words, b"R\nU\n")


def long_words(trial: Trial) -> None:
    """Words and lists of words as long as the system lets them be."""
    zeros, most = "0" * 60_000, 18446744073709551615
    cases = [
        ["invert"] + [""] * 20_000,
        ["solve", "eofb", "0" * 100_000 + "5", "F"],
        ["solve", "eofb", "9" * 100_000, "F"],
        ["scramble", zeros + str(most), zeros + str(most + 1), "3", "1"],
        ["scramble", zeros + str(most), zeros + str(most), "3", "1"],
        ["unniss"] + ["R2'"] * 256,
        ["unniss"] + ["R2'"] * 257,
        ["R2'"] * 20_000,
    ]
    for size in (1000, 100_000, 131_000):
        cases += [["invert", " " * size, "R"], ["unniss", "(" + " " * size], ["print", "\n" * size]]
    for words in cases:
        trial.compare("word lists, long", words)
    for last in ("R", "q", "(", "\nU"):
        words = ["unniss"] + [" " * 131_000] * 40 + [last]
        got = run_with(trial, words, before=lambda: resource.setrlimit(resource.RLIMIT_STACK, (1 << 26, 1 << 26)))
        trial.check("word lists, 5 MB", words[:1] + [last], b"", got, model.run(words))

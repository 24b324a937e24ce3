"""Reads text as solvers write it, by the library: what is no move but is written beside moves becomes a blank or an
apostrophe, or is left out. What comes of it is a line for the other calls, or it is at fault there."""
from bisect import bisect_right
from itertools import accumulate, chain, compress, islice
from typing import Any, Callable, Iterable, List, NamedTuple, Optional, Sequence, Tuple, Union, overload

from . import _library, _rooms
from ._given import Text, bytes_of, kind_of
from ._tokens import FormPlace
from ._values import Fault, LineFault, value_of

# what the library leaves out, by its bits, and what each number of them says
_NAMES = ("labels", "numbers of moves", "comments", "line numbers", "commas", "signs that aren't seen")
_LEFT_OUT = [tuple(name for bit, name in enumerate(_NAMES) if number >> bit & 1) for number in range(1 << len(_NAMES))]
# the apostrophes for which the library writes U+2019, and of these those that have fewer bytes
_APOSTROPHES = "\u2018\u02bc\u2032\u00b4`"
_SHORTER = ((b"`", 2), (b"\xc2\xb4", 1), (b"\xca\xbc", 1))
_PLACE = 8
# the white space of the web's scripts
WHITE = (
    "\n\t\v\f\r \u00a0\u1680\u2000\u2001\u2002\u2003\u2004\u2005\u2006\u2007\u2008\u2009\u200a\u2028\u2029\u202f"
    "\u205f\u3000\ufeff"
)
# the same, and what quotes a line
_QUOTED = f">{WHITE}"
# bytes that a line may have in place of others
_OWN = b" ()"
# 1 for each byte with which a sign begins, of a text in UTF-8
_BEGINS = bytes(byte & 0xC0 != 0x80 for byte in range(256))


class PlainLine(NamedTuple):
    """A text as one line."""

    line: str
    """The moves, for the other calls."""
    places: Tuple[int, ...]
    """The place in the text of each sign of the line, in characters from 0."""
    left_out: Tuple[str, ...]
    """What the line hasn't: "labels", "numbers of moves", "comments", "line numbers", "commas", "signs that aren't
    seen"."""


class TextPlace(NamedTuple):
    """Where a fault or a form stands in a text."""

    at: int
    """In characters of the text, from 0."""
    line: int
    """The line, from 1."""
    column: int
    """The character in that line, from 1."""


def string_of(text: Text) -> str:
    """Returns a text as a string, in which a byte that isn't UTF-8 is half of a surrogate pair."""
    if isinstance(text, str):
        return str.__str__(text)
    return bytes_of(text, "the text").decode(errors="surrogateescape")


def _is_utf8(data: bytes) -> bool:
    try:
        data.decode()
    except UnicodeDecodeError:
        return False
    return True


class WrittenLine(NamedTuple):
    """A line that a call wrote of a text, in bytes, with the place in the text of each, and the library's number for
    what is left out."""

    line: bytes
    places: Sequence[int]
    left_out: int


def end_unless_made(status: int) -> None:
    """Raises MemoryError if a call was refused memory, of which some take a little in nissy.c."""
    if status == _library.STOPPED:
        raise MemoryError("no memory for the lines of a text")


def written_by(most: int, call: Callable[..., Any]) -> WrittenLine:
    """Returns what a call writes into a room of this many bytes and places."""
    size = (1 + _PLACE) * most
    room = _rooms.take() if size <= _rooms.ORDINARY else _rooms.Room(size)
    answer = call(room.address + _PLACE * most, most, room.address, most)
    line = room.memory[_PLACE * most : _PLACE * most + answer.length]
    # of a long text there are many, of which most are asked for once
    places = memoryview(bytes(room.memory[: _PLACE * answer.length])).cast("Q")
    if size <= _rooms.ORDINARY:
        _rooms.put_back(room)
    end_unless_made(answer.status)
    return WrittenLine(line, places, answer.left_out)


class Written:
    """A text in characters and in bytes."""

    def __init__(self, text: Text) -> None:
        self.text, self.data = string_of(text), bytes_of(text, "the text")
        # which character each byte is of, and the end; as many as bytes if all are ASCII
        self._characters: Optional[List[int]] = None
        # where each line begins, once it is asked for, and whether one ends by two signs
        self._lines: List[int] = []
        self._has_pairs = "\r\n" in self.text
        self._is_text = _is_utf8(self.data)
        if self._is_text and len(self.data) > len(self.text):
            # the first sign is character 0
            counts = accumulate(chain((-1,), self.data.translate(_BEGINS)))
            self._characters = [*islice(counts, 1, None), len(self.text)]
        elif len(self.data) > len(self.text):
            sizes = (len(bytes_of(sign, "")) for sign in self.text)
            self._characters = [*chain(*([at] * size for at, size in enumerate(sizes))), len(self.text)]

    def each_at(self, places: Iterable[int]) -> Iterable[int]:
        """Returns the character of each byte."""
        return places if self._characters is None else map(self._characters.__getitem__, places)

    def place(self, at: int) -> TextPlace:
        """Returns the place of a character. Lines are looked for once."""
        begins = self._lines = self._lines or self._begins()
        # between the two signs of a line's end the next line begins
        line = bisect_right(begins, at + 1 if self._has_pairs and self.text[at - 1 : at + 1] == "\r\n" else at)
        return value_of(TextPlace, (at, line, at - begins[line - 1] + 1 or 1))

    def _begins(self) -> List[int]:
        """Returns where each line begins."""
        ends = accumulate(map(len, self.data.splitlines(keepends=True)))
        begins = [0, *self.each_at(ends)]
        # at the end of the text a line begins only after another's end
        return begins if not self.data or self.data[-1] in b"\r\n" else begins[:-1]

    def place_of_byte(self, byte: int) -> TextPlace:
        return self.place(byte if self._characters is None else self._characters[byte])

    def words(self, begin: int, end: int) -> str:
        """Returns some bytes as words, without signs in front that quote a line."""
        characters = self._characters
        if characters is not None:
            begin, end = characters[begin], characters[end]
        return self.text[begin:end].rstrip(WHITE).lstrip(_QUOTED)

    def plain(self, written: WrittenLine) -> PlainLine:
        """Returns a line that was written of this text."""
        return Cuts(self, written).cut(0, len(written.line), written.left_out)

    def signs(self, line: bytes, places: Sequence[int]) -> Optional[Tuple[str, Sequence[int]]]:
        """Returns a line that was written of this text, and the character here of each of its own; nothing if the text
        isn't UTF-8."""
        if self._characters is None and line.isascii():
            return line.decode("ascii"), places
        if not self._is_text:
            return None
        return line.decode(), tuple(self.each_at(compress(places, line.translate(_BEGINS))))

    def broken(self, line: bytes, places: Sequence[int], left_out: int) -> PlainLine:
        """Returns a line that was written of this text, which isn't UTF-8."""
        # of a sign that has several bytes the first one counts; what a line has of its own isn't of the text
        signs, own, last = [], [], -1
        for byte, at in zip(line, self.each_at(places)):
            if byte in _OWN or at != last:
                sign = self.text[at : at + 1]
                signs.append(chr(byte) if byte in _OWN else "\u2019" if sign in _APOSTROPHES else sign)
                own.append(at)
            last = last if byte in _OWN else at
        return PlainLine("".join(signs), tuple(own), _LEFT_OUT[left_out])


class Cuts:
    """A line that was written of a text, of which parts are lines too."""

    def __init__(self, whole: Written, written: WrittenLine) -> None:
        self._whole, self._written, self._signs = whole, written, whole.signs(written.line, written.places)
        # how many signs begin before each byte; as many as bytes if all are ASCII
        self._counts: Optional[List[int]] = None
        if self._signs is not None and len(self._signs[0]) < len(written.line):
            self._counts = [0, *accumulate(written.line.translate(_BEGINS))]

    def cut(self, begin: int, end: int, left_out: int) -> PlainLine:
        """Returns what stands from one byte of the line to another."""
        if self._signs is None:
            written = self._written
            return self._whole.broken(written.line[begin:end], written.places[begin:end], left_out)
        if self._counts is not None:
            begin, end = self._counts[begin], self._counts[end]
        line, places = self._signs
        return value_of(PlainLine, (line[begin:end], tuple(places[begin:end]), _LEFT_OUT[left_out]))


def plain_line(text: Text) -> PlainLine:
    """A text as solvers write it as one line: without labels, comments, and numbers of lines and moves. `place_of` says
    where a fault or a form of the line stands in the text."""
    whole = Written(text)
    data = whole.data
    # a sign is written as three bytes at most
    most = len(data) + sum(more * data.count(sign) for sign, more in _SHORTER)
    return whole.plain(written_by(most, lambda *room: _library.nissy_plain(data, len(data), *room)))


@overload
def place_of(found: Union[LineFault, FormPlace], plain: PlainLine, text: Text) -> TextPlace:
    ...


@overload
def place_of(found: Union[Fault, FormPlace], plain: PlainLine, text: Text) -> Optional[TextPlace]:
    ...


def place_of(found: Union[Fault, FormPlace], plain: PlainLine, text: Text) -> Optional[TextPlace]:
    """Where a fault or a form of a plain line stands in the text that it is of, or None if a fault has no place. The
    line may be a part of an attempt, with its places in the whole text."""
    if not isinstance(found, (Fault, FormPlace)):
        raise TypeError(f"what is found is a Fault or a FormPlace, not {kind_of(found)}")
    if not isinstance(plain, PlainLine):
        raise TypeError(f"the plain line is a PlainLine, not {kind_of(plain)}")
    written = string_of(text)
    if not isinstance(found, (LineFault, FormPlace)):
        return None
    at = place_in(found, plain)
    # both signs of a line's end count once; nothing is made of the lines above, which may be many
    above = written.count("\n", 0, at) + written.count("\r", 0, at) - written.count("\r\n", 0, at)
    begin = max(written.rfind("\n", 0, at), written.rfind("\r", 0, at)) + 1
    return TextPlace(at, above + 1, at - begin + 1)


def place_in(found: Union[LineFault, FormPlace], plain: PlainLine) -> int:
    """Returns the character of a text at which a fault or a form of a plain line stands. What isn't at a sign of the
    line is at its end."""
    places, nth = plain.places, found.character
    return places[nth - 1] if 0 < nth <= len(places) else places[-1] + 1 if places else 0

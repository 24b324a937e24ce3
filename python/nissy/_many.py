"""Many lines: taken in pieces, each of which goes to the library in one call, one piece after
another or several side by side."""
from __future__ import annotations

from collections import deque
from itertools import islice
from time import perf_counter, sleep
from typing import Any, Callable, Deque, Generic, Iterable, Iterator, List, NamedTuple, Optional, Tuple, Type, TypeVar

from ._given import Progress, Text, bytes_of, each_of, function_of, number_of

Value = TypeVar("Value")

# the most lines of a piece: an ordinary room has an answer to each
_MOST_LINES = 16_384
_MOST_BYTES = 1 << 22
_MOST_THREADS = 1024
# A piece takes this many seconds or more, if there are lines enough, and at most twice as many: in between Python hears
# of signals. Threads have longer ones, since each waits for the lock when it has done one.
_SHORT, _SHORT_OF_THREADS = 0.005, 0.03
# The first piece has one line, since that may take long, and the next ones at most this many
# times as many as one before it.
_GROWTH = 16
# a piece that took this much of those seconds shows well how many lines the next ones are to have
_TELLING = 1 / 64
# A thread that goes on keeps Python's lock from others for five thousandths of a second. After this many
# seconds of sleep one of them has it.
_REST = 0.00001
# seconds that are worth a piece of their own
_WORTH = 0.002


class Piece(NamedTuple):
    """Some lines: the number of the first one, from 1, the lines as they were given, and as a text in
    which a line feed ends each."""

    first: int
    lines: List[Text]
    text: bytes

    def line(self, at: int) -> Tuple[int, bytes]:
        return self.first + at, bytes_of(self.lines[at], "the line")


class Asking(Generic[Value]):
    """How a piece is asked: in a first part that may run in a thread of its own, and in a second
    one that gives the answers."""

    def __init__(self, ask: Callable[[Piece], Any], told: Callable[[Piece, Any], Iterable[Value]]) -> None:
        self.ask, self.told = ask, told

    def timed(self, piece: Piece) -> Tuple[Any, float]:
        """Returns what the first part returns, and the seconds that it took."""
        begun = perf_counter()
        return self.ask(piece), perf_counter() - begun


class _Telling:
    """Tells how many lines are done, and of how many."""

    def __init__(self, lines: Iterable[Any], progress: Optional[Progress]) -> None:
        self._progress, self._done, self._all = function_of(progress, "the progress"), 0, _count_of(lines)
        self._told: Optional[int] = None
        self._next = 0.0

    def add(self, count: int) -> None:
        """Reports that this many more are done."""
        self._done += count
        if self._progress is not None:
            self._told = self._done
            self._progress(self._done, self._all)

    def add_line(self) -> None:
        """Adds a line, and reports those since the last time if that took as long as a piece."""
        now = perf_counter()
        if now < self._next:
            self._done += 1
        else:
            self._next = now + _SHORT
            self.add(1)

    def end(self) -> None:
        is_told = self._done == self._told == self._all
        self._all = self._done
        if not is_told:
            self.add(0)


class _Taking:
    """Takes lines in pieces. What ends them before their end is kept until those before it are answered."""

    def __init__(self, lines: Iterator[Text], short: float, count: int = 0, threads: int = 1) -> None:
        self._lines, self._short = lines, short
        self._size, self._next = 1, 1
        self._count, self._threads = count, threads
        self._is_told, self._least = False, 1
        self.error: Optional[Exception] = None

    def __iter__(self) -> Iterator[Piece]:
        while self.error is None:
            piece = self._piece()
            if not piece.lines:
                break
            yield piece

    def _piece(self) -> Piece:
        lines: List[Text] = []
        try:
            # what came before an exception is there
            lines.extend(islice(self._lines, self._most()))
        except Exception as error:
            self.error = error
        text = self._text(lines)
        piece = Piece(self._next, lines, text)
        self._next += len(lines)
        return piece

    def _most(self) -> int:
        """Returns how many lines come next at most. If it is known how many there are, those that are left are shared
        by the threads, so that none works long at only the last piece."""
        left = self._count - self._next + 1
        return min(self._size, max(self._least, left // (2 * self._threads))) if self._count else self._size

    def _text(self, lines: List[Text]) -> bytes:
        """Returns lines as one text. Of those that are no lines, the first one and all after it are taken off."""
        try:
            text = "\n".join(lines + [""]).encode()  # type: ignore[arg-type]
        except (TypeError, UnicodeEncodeError):
            text = b""
        return text if text.count(b"\n") == len(lines) else self._joined(lines)

    def _joined(self, lines: List[Text]) -> bytes:
        """Returns lines of any form as one text. In place of a line feed in one comes a zero
        byte, which is no move either."""
        parts: List[bytes] = []
        for line in lines:
            try:
                parts.append(_bytes_of(self._next + len(parts), line).replace(b"\n", b"\0") + b"\n")
            except (TypeError, ValueError) as error:
                self.error = error
                break
        del lines[len(parts) :]
        return b"".join(parts)

    def took(self, piece: Piece, seconds: float) -> None:
        """Tells how long a piece took, by which the next ones are longer or shorter."""
        if len(piece.text) > _MOST_BYTES or seconds > 2 * self._short:
            self._size = max(1, self._size // 2)
        elif seconds < self._short and len(piece.lines) == self._size:
            growth = min(_GROWTH, max(2, int(self._short / max(seconds, 1e-6))))
            self._size = min(_MOST_LINES, growth * self._size)
        if seconds >= _TELLING * self._short:
            self._is_told, self._least = True, max(1, int(len(piece.lines) * _WORTH / seconds))

    def ahead(self) -> int:
        """Returns how many pieces are asked before the first one's answers are taken. Until it is told how many lines
        they may have, that is one for each thread."""
        return 4 * self._threads + 1 if self._is_told else self._threads

    def rest(self) -> None:
        """Lets another thread begin or end a piece, if pieces are so long that it waits longer than that takes."""
        if self._is_told:
            sleep(_REST)


def _count_of(lines: Iterable[Any]) -> Optional[int]:
    """Returns how many lines there are, as a list or a tuple says: one of another kind may say anything."""
    return len(lines) if type(lines) in (list, tuple) else None  # type: ignore[arg-type]


def _copied(line: Text) -> Text:
    """Returns a line as it is now. What is no line is refused later, with its number."""
    if isinstance(line, str):
        return line
    try:
        return bytes_of(line, "the line")
    except TypeError:
        return line


def _lasting(lines: Iterable[Text], each: Iterator[Text]) -> Iterator[Text]:
    """Returns lines one by one, each as it is when it comes: an iterator may fill the same buffer anew for the next
    one."""
    if _count_of(lines) is not None:
        return each
    return (line if type(line) is str else _copied(line) for line in each)


def in_pieces(
    lines: Iterable[Text], asking: Asking[Value], threads: int, progress: Optional[Progress]
) -> Iterator[Value]:
    """Returns an iterator of the answers to lines, which are taken in pieces. The arguments are checked at once."""
    each = each_of(lines, "the lines")
    if number_of(threads, "threads", _MOST_THREADS, 1) == 1:
        return _in_turn(_Taking(_lasting(lines, each), _SHORT), asking, _Telling(lines, progress))
    return _by_threads(lines, each, asking, threads, progress)


def _by_threads(
    lines: Iterable[Text], each: Iterator[Text], asking: Asking[Value], threads: int, progress: Optional[Progress]
) -> Iterator[Value]:
    """Returns an iterator of the answers to lines, which are given both as a whole and one by one."""
    taking = _Taking(_lasting(lines, each), _SHORT_OF_THREADS, _count_of(lines) or 0, threads)
    return _side_by_side(taking, asking, _Telling(lines, progress), threads)


def one_by_one(
    lines: Iterable[Text], ask: Callable[[int, bytes], Value], threads: int, progress: Optional[Progress]
) -> Iterator[Value]:
    """Returns an iterator of the answers to lines, each of which is taken when its answer is asked for: so they come by
    one thread. Several take pieces. A line is asked by its number, from 1, and its bytes."""
    each = each_of(lines, "the lines")
    if number_of(threads, "threads", _MOST_THREADS, 1) == 1:
        return _told(lines, (ask(number, _bytes_of(number, line)) for number, line in enumerate(each, 1)), progress)

    def of_piece(piece: Piece) -> List[Value]:
        return [ask(*piece.line(at)) for at in range(len(piece.lines))]

    def found(_: Piece, values: List[Value]) -> List[Value]:
        return values

    return _by_threads(lines, each, Asking(of_piece, found), threads, progress)


def pair_by_pair(
    pairs: Iterable[Iterable[Text]], ask: Callable[[int, Tuple[bytes, bytes]], Value], progress: Optional[Progress]
) -> Iterator[Value]:
    """Returns an iterator of the answers to pairs of a scramble and a solution, each of which is taken when its answer
    is asked for. A pair is asked by its number, from 1, and its bytes."""
    each = enumerate(each_of(pairs, "the pairs"), 1)
    return _told(pairs, (ask(number, _pair_of(number, pair)) for number, pair in each), progress)


def _pair_of(number: int, pair: Iterable[Text]) -> Tuple[bytes, bytes]:
    """Returns the bytes of one of many pairs. What is raised of it has its number."""
    try:
        lines = list(each_of(pair, "a scramble and a solution"))
        if len(lines) != 2:
            raise ValueError(f"a scramble and a solution are two, not {len(lines)}")
        return bytes_of(lines[0], "the scramble"), bytes_of(lines[1], "the solution")
    except (TypeError, ValueError) as error:
        raise _kind_of(error)(f"pair {number}: {error}") from None


def _told(given: Iterable[Any], answers: Iterator[Value], progress: Optional[Progress]) -> Iterator[Value]:
    """Returns the same answers, of which progress is told if anyone asks."""
    return answers if progress is None else _each_told(answers, _Telling(given, progress))


def _each_told(answers: Iterator[Value], telling: _Telling) -> Iterator[Value]:
    """Yields the same answers, and tells of them."""
    for answer in answers:
        telling.add_line()
        yield answer
    telling.end()


def _bytes_of(number: int, line: Text) -> bytes:
    """Returns the bytes of one of many lines. What is raised of it has its number."""
    try:
        return bytes_of(line, "the line")
    except (TypeError, ValueError) as error:
        raise _kind_of(error)(f"line {number}: {error}") from None


def _kind_of(error: Exception) -> Type[Exception]:
    """Returns the kind of exception that tells of the same with a number."""
    return TypeError if isinstance(error, TypeError) else ValueError


def _in_turn(taking: _Taking, asking: Asking[Value], telling: _Telling) -> Iterator[Value]:
    """Yields the answers to lines, one piece after another."""
    for piece in taking:
        told, seconds = asking.timed(piece)
        taking.took(piece, seconds)
        telling.add(len(piece.lines))
        yield from asking.told(piece, told)
    if taking.error is not None:
        raise taking.error
    telling.end()


class _Asked(Generic[Value]):
    """A piece that waits for a thread, or is asked by one, or was."""

    def __init__(self, piece: Piece, asking: Asking[Value], pool: Any) -> None:
        self.piece, self._asking = piece, asking
        self._other = pool.submit(asking.timed, piece)
        self._own: Optional[Tuple[Any, float]] = None

    def is_open(self) -> bool:
        """Whether it waits, or another thread asks it."""
        return self._own is None and not self._other.done()

    def take_over(self) -> bool:
        """Asks it in this thread, if it waits. Returns whether it did."""
        if not self.is_open() or not self._other.cancel():
            return False
        self._own = self._asking.timed(self.piece)
        return True

    def give_up(self) -> None:
        """Has it asked by none, if it waits."""
        self._other.cancel()

    def told(self) -> Tuple[Any, float]:
        """Returns what the first part returned, and the seconds that it took."""
        return self._own or self._other.result()


def _side_by_side(taking: _Taking, asking: Asking[Value], telling: _Telling, threads: int) -> Iterator[Value]:
    """Yields the answers to lines, of which this many pieces are asked at the same time, in the order of
    the lines. This thread is one of those that ask: with one more than processors, two would share a
    processor while another one rests."""
    # nobody else waits for this module to be read
    from concurrent.futures import ThreadPoolExecutor

    asked: Deque[_Asked[Value]] = deque()

    def first() -> Iterable[Value]:
        while asked[0].is_open() and any(it.take_over() for it in asked):
            pass
        it = asked.popleft()
        told, seconds = it.told()
        taking.took(it.piece, seconds)
        telling.add(len(it.piece.lines))
        return asking.told(it.piece, told)

    def answers(pool: ThreadPoolExecutor) -> Iterator[Value]:
        for piece in taking:
            asked.append(_Asked(piece, asking, pool))
            taking.rest()
            if len(asked) >= taking.ahead():
                yield from first()
        while asked:
            yield from first()
            taking.rest()

    pool = ThreadPoolExecutor(threads - 1, "nissy")
    try:
        yield from answers(pool)
    finally:
        # Those that have begun end, and the others need not. None is waited for: an iterator that is left may be
        # collected at any time, also while Python begins or ends a thread.
        for it in asked:
            it.give_up()
        pool.shutdown(wait=False)
    if taking.error is not None:
        raise taking.error
    telling.end()

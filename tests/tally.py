"""Counts what holds and what doesn't, and the line that a script of the gate ends with."""
import os
import sys
import time
from concurrent.futures import ThreadPoolExecutor
from contextlib import contextmanager
from typing import Any, Callable, Iterable, Iterator, List, Type, TypeVar

Item = TypeVar("Item")
Found = TypeVar("Found")


class Tally:
    """What passed and what failed."""

    def __init__(self) -> None:
        self.passed, self.failed = 0, 0

    def holds(self, what: str, so: object) -> None:
        """One thing that must be so."""
        if so:
            self.passed += 1
        else:
            self.failed += 1
            print(f"not so: {what}")

    def equal(self, what: str, got: object, wanted: object) -> None:
        """Two values that must be the same."""
        self.holds(f"{what}: {short(got)} for {short(wanted)}", got == wanted)

    def says(self, kind: Type[BaseException], text: str, call: Callable[[], object]) -> None:
        """A call raises exactly this kind of exception, with this text."""
        self.equal(f"what {kind.__name__} says", str(raised(kind, call)), text)

    def soon(self, what: str, seconds: float, call: Callable[[], Found]) -> Found:
        """What a call returns that takes less than so many seconds of a processor. Others' work may make it many times slower for a while: then it is
        called again, twice at most."""
        for tries_left in (2, 1, 0):
            begun = time.process_time()
            found = call()
            took = time.process_time() - begun
            if took < seconds or not tries_left:
                break
            made_again("time", f"{what} took {took:.1f} seconds")
        self.holds(f"{what} took {took:.1f} seconds, for less than {seconds}", took < seconds)
        return found

    def end(self) -> None:
        """Ends the script by its last line and its status."""
        print(f"{self.passed} passed, {self.failed} failed")
        sys.exit(0 if self.passed and not self.failed else 1)


def tried(*parts: Callable[[Tally], None]) -> None:
    """Tries parts one after another, and ends the script."""
    tally = Tally()
    for part in parts:
        part(tally)
    tally.end()


@contextmanager
def without_imports(tally: Tally) -> Iterator[None]:
    """While there are threads none may import: by Python 3.11 two that do so at once may wait for each other without end. So what they need is imported
    before."""
    before = set(sys.modules)
    yield
    tally.equal("what was imported while there were threads", sorted(set(sys.modules) - before), [])


def side_by_side(tally: Tally, count: int, call: Callable[[Item], Found], items: Iterable[Item]) -> List[Found]:
    """What a call returns of each item, by so many threads."""
    with without_imports(tally), ThreadPoolExecutor(count) as pool:
        return list(pool.map(call, items))


def made_again(kind: str, why: str) -> None:
    """Says that something is tried once more, and counts it for the closing line of the whole run, in the file that tests/shared names."""
    print(f"made again ({kind}): {why}", flush=True)
    if os.environ.get("NISSY_MADE_AGAIN"):
        with open(os.environ["NISSY_MADE_AGAIN"], "a", encoding="utf-8") as it:
            it.write(f"{kind}\n")


def raised(kind: Type[BaseException], call: Callable[[], object]) -> Any:
    """What a call raises of exactly this kind, or None."""
    try:
        call()
    except Exception as error:
        return error if type(error) is kind else None
    return None


def short(value: object, most: int = 300) -> str:
    """A value as it is shown."""
    text = repr(value)
    return text if len(text) <= most else text[:most] + "..."

"""Marks in build/refused, each of which says that some wrong bodies of a crate were refused. They count as long as nothing changes that verdicts stand
on, as `rt ci` keeps what passed."""

import fcntl
import hashlib
import os
import subprocess
from collections.abc import Iterator
from contextlib import contextmanager
from functools import lru_cache

import kit
from bodies import FOLDER, WrongBody

ROOM = f"{kit.TOP}/build/refused"


@lru_cache(None)
def sum_of(crate: str) -> str:
    """Returns the sum of what verdicts on bodies of a crate stand on: the kit, these tools, the crate and those below it, and the texts of the bodies."""
    version = subprocess.run(["rt", "version"], capture_output=True, check=True).stdout
    whole = hashlib.sha256(version)
    crates = [f"{kit.TOP}/crates/{name}/{part}" for name in [*kit.below(crate), crate] for part in kit.PARTS]
    for folder in [f"{kit.TOP}/tools", f"{FOLDER}/{crate}", *crates]:
        for path in sorted(f"{at}/{name}" for at, _, names in os.walk(folder) for name in names):
            with open(path, "rb") as it:
                whole.update(repr((os.path.relpath(path, kit.TOP), it.read())).encode())
    return whole.hexdigest()


class Mark:
    """The mark of some bodies of a crate."""

    def __init__(self, crate: str, bodies: list[WrongBody]):
        names = hashlib.sha256(repr((sum_of(crate), [it.name for it in bodies])).encode()).hexdigest()
        self.path = f"{ROOM}/{crate}-{names}"

    @contextmanager
    def in_turn(self) -> Iterator[None]:
        """Waits while another run tries the same bodies."""
        os.makedirs(ROOM, exist_ok=True)
        with open(f"{self.path}.lock", "w", encoding="utf-8") as lock:
            fcntl.flock(lock, fcntl.LOCK_EX)
            yield

    def stands(self) -> bool:
        """Whether an earlier run set it."""
        return os.path.exists(self.path)

    def set(self) -> None:
        """All of them were refused."""
        with open(self.path, "w", encoding="utf-8"):
            pass

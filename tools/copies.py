"""The copies of a crate in which wrong bodies are tried: one of the whole crate, and one that has only the bodies that a check looks at."""

import os
import shutil
import subprocess

import kit
from bodies import WrongBody
from functions import sources
from hollow import hollow
from twins import with_twins


class Crate:
    """A crate of which bodies are tried, one check after the other: a copy of its sources, and the work over which checks of it go."""

    def __init__(self, name: str, room: str):
        self.name, self.folder, self.kept = name, f"{room}/{name}", f"{room}/{name}/kept"
        self.checks, self.seconds = 0, 0.0
        copy_crate(f"{kit.TOP}/crates/{name}", self.folder)

    def begin(self) -> None:
        """Has the next check begin with what earlier checks of the crate kept."""
        kit.begin(self.name, self.kept)

    def check(self, bodies: list[WrongBody], functions: set[str]) -> str:
        """Returns what a check says of these functions with all of these bodies made."""
        texts = sources(self.folder, {file for it in bodies for file in it.files})
        made = dict(texts)
        for body in bodies:
            made = body.made_in(made)
        try:
            write(self.folder, made)
            self.begin()
            return self.run(kit.check_words(self.name, self.kept, sorted(functions)))
        finally:
            write(self.folder, texts)

    def run(self, words: list[str]) -> str:
        """Runs a check, and counts the seconds that processors worked at it."""
        with subprocess.Popen(
            words, cwd=self.folder, stdin=subprocess.DEVNULL, stdout=subprocess.PIPE, stderr=subprocess.STDOUT
        ) as ran:
            said = ran.stdout.read() if ran.stdout else b""
            _, status, used = os.wait4(ran.pid, 0)
            ran.returncode = os.waitstatus_to_exitcode(status)
        self.checks, self.seconds = self.checks + 1, self.seconds + used.ru_utime + used.ru_stime
        return said.decode(errors="replace")


class Hollow(Crate):
    """The crate without the bodies that a check neither names nor turns, so that the check proves no function that they call; and with a twin of a
    function for each further body of it."""

    def __init__(self, name: str, room: str, bodies: list[WrongBody]):
        super().__init__(name, room)
        self.whole = f"{room}/with-twins/{name}"
        copy_crate(self.folder, self.whole)
        self.bodies = with_twins(self.whole, bodies)

    def check(self, bodies: list[WrongBody], functions: set[str]) -> str:
        """Takes away, anew for each check, all bodies but those of its functions, and returns what the check says of these."""
        copy_crate(self.whole, self.folder)
        hollow(self.name, self.folder, functions.union(*(it.functions() for it in bodies)))
        return super().check(bodies, functions)

    def begin(self) -> None:
        """Nothing that is kept of the whole crate serves it."""


def copy_crate(folder: str, to: str) -> None:
    """Copies what a check reads of a crate, in place of what stands there of it."""
    for part in kit.PARTS:
        shutil.rmtree(f"{to}/{part}", ignore_errors=True)
        if os.path.isdir(f"{folder}/{part}"):
            shutil.copytree(f"{folder}/{part}", f"{to}/{part}")


def write(folder: str, texts: dict[str, str]) -> None:
    """Writes the texts of files of a crate."""
    for file, text in texts.items():
        with open(f"{folder}/{file}", "w", encoding="utf-8") as it:
            it.write(text)

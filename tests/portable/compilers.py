"""The compilers by which C is tried here, and what runs a program of each."""

import shutil
from dataclasses import dataclass

STRICT = ("-std=c11", "-Wall", "-Wextra")
SANITIZED = ("-O1", "-g", "-fsanitize=address,undefined", "-fno-sanitize-recover=all")


@dataclass(frozen=True)
class Compiler:
    """A compiler with its words, and what runs its programs, the first that is here of several; nothing if they run by themselves."""

    name: str
    words: tuple[str, ...]
    runners: tuple[str, ...] = ()

    def runner(self) -> list[str]:
        """Returns what stands before the name of a program."""
        return [next(it for it in self.runners if shutil.which(it))] if self.runners else []

    def can_run(self) -> bool:
        """Whether its programs can be run here."""
        return not self.runners or any(shutil.which(it) for it in self.runners)


COMPILERS = (
    Compiler("gcc", ("gcc", *STRICT, "-O2")),
    Compiler("gcc with sanitizers", ("gcc", *STRICT, *SANITIZED)),
    Compiler("gcc byte by byte", ("gcc", *STRICT, "-O1", "-DNISSY_BYTEWISE=1")),
    Compiler("gcc with high addresses", ("gcc", *STRICT, "-O1", "-DNISSY_HIGH=1")),
    Compiler("clang", ("clang", *STRICT, "-O2")),
    Compiler("tcc", ("tcc", "-std=c11")),
    Compiler("s390x", ("s390x-linux-gnu-gcc", *STRICT, "-O1", "-static"), ("qemu-s390x", "qemu-s390x-static")),
    Compiler("i686", ("i686-linux-gnu-gcc", *STRICT, "-O1", "-static")),
)

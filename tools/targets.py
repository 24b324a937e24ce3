"""The systems that program and library are built for, and how each is linked there."""

import os
import shutil
import subprocess
import sys
from dataclasses import dataclass

import kit

# the C that a library needs beside what the kit compiles, and that a program needs
OF_LIBRARY, OF_PROGRAM = ("memory",), ("memory", "words")


@dataclass(frozen=True)
class Target:
    """A system: the kit's name for it, its C compiler, what the names of its binutils begin with, the linker's words for a library, and the folder
    of the C that stands for the kit's, if the kit has none."""

    name: str
    compiler: str
    prefix: str
    words: tuple[str, ...] = ()
    c_folder: str = ""

    def missing(self) -> list[str]:
        """Returns the tools for it that aren't here."""
        return [
            tool
            for tool in (self.compiler, *(self.prefix + name for name in ("ld", "objcopy", "ar")))
            if not shutil.which(tool)
        ]

    def c_part(self, names: tuple[str, ...], room: str) -> list[str]:
        """Returns what to link with: the kit's archives, or objects, which are compiled into a folder."""
        if not self.c_folder:
            return [f"{kit.kit()}/c/{'liblibc_c.a' if name == 'memory' else 'libos_c.a'}" for name in names]
        strict = ["-std=c11", "-O2", "-fPIC", "-Wall", "-Wextra", "-Wpedantic", "-Werror"]
        for name in names:
            run(self.compiler, *strict, "-c", f"{kit.TOP}/{self.c_folder}/{name}.c", "-o", f"{room}/{name}.o")
        return [f"{room}/{name}.o" for name in names]


# The kit's compiler builds for x86-64-v2, which is a mark in the library by which the system refuses to load it on a processor that lacks it.
X86_64 = Target("x86_64-unknown-linux-gnu", "cc", "", words=("-z", "x86-64-v2"))
AARCH64 = Target(
    "aarch64-unknown-linux-gnu", "aarch64-linux-gnu-gcc", "aarch64-linux-gnu-", c_folder="packaging/aarch64"
)
TARGETS = {"x86_64": X86_64, "aarch64": AARCH64}


def run(*words: str) -> None:
    """Runs a command, and ends this one if it fails."""
    if subprocess.run(words, check=False).returncode:
        sys.exit(f"{sys.argv[0]}: {words[0]} failed")

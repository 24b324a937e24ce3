#!/usr/bin/env python3
"""Runs the examples of pages as a reader would, with PROGRAM as `nissy`, and compares what they print with the page:

    tests/documents/recipes.py PROGRAM PAGE..

A block ```sh is run, and where the next block is ```text, that is what it prints (else nothing). In a block ```console each line that begins
with `$ ` is run, and the lines after it are what it prints. The blocks of a page run one after another in one shell, so that variables and
files stay; the whole page is run by each of sh, bash and zsh that is there. A block ```bash, ```zsh or ```fish runs only by that shell.
They find the repository's folder `examples` beside them.
A block of a kind of SCRIPTS is a script or a program of its own, which is run in an empty folder, if the module, as a package for npm, or the
library that it asks is built. A block that takes a tool of TOOLS, or the library, is skipped if that isn't here, and named. So are
the examples of a manual page.
"""
import difflib
import os
import re
import shutil
import subprocess
import sys
import tempfile
from dataclasses import dataclass, field
from pathlib import Path

TOP = Path(__file__).resolve().parents[2]
sys.path.insert(0, str(TOP / "tests"))

from tally import Tally

# the shells by which a block of a kind is run
SHELLS = {"sh": ("sh", "bash", "zsh"), "bash": ("bash",), "zsh": ("zsh",), "fish": ("fish",)}
# the words that run a block that is a script of its own, or that make the program `made` of it, the name of its file, and what it asks for of
# the folder build. Node 20 hangs now and then at the end of a script, while it compiles beside it
SCRIPTS = {
    "js": ("node --no-concurrent-recompilation example.mjs", "nissy.wasm"),
    "python": ("python3 example.py", "libnissy.so"),
    "c": ("cc -std=c99 -Wall -Werror -o made example.c -lnissy", "libnissy.so"),
    "cpp": ("c++ -std=c++17 -Wall -Werror -o made example.cpp -lnissy", "libnissy.so"),
    "rust": ("rustc --edition 2021 -D warnings -o made example.rs", "libnissy.so"),
    "go": ("go build -o made example.go", "libnissy.so"),
}
# tools that a system may lack, as a block takes them: at the beginning of a line; and what takes the library
TOOLS = re.compile(r"^(?:import )?(cc|c\+\+|dask|parallel|python3)(?=[ .])", re.MULTILINE)
OF_LIBRARY = re.compile(r"-lnissy|^import nissy|^python3 (examples/|-m nissy)", re.MULTILINE)
ESCAPES = ((r"\(aq", "'"), (r"\(dq", '"'), (r"\-", "-"), (r"\e", "\\"))
SECONDS = 300
NOT_REACHED = "nothing: the shell ended before it\n"


@dataclass
class Example:
    """A command of a page, what the page says that it prints, and what it printed by each shell where that differs."""

    kind: str
    line: int
    command: str = ""
    wanted: str = ""
    wrong: dict[str, str] = field(default_factory=dict)

    def needs(self) -> list[str]:
        """Returns the tools, and the files of the repository, without which it can't run."""
        words, asked = SCRIPTS.get(self.kind, (self.kind, ""))
        built = ["libnissy.so"] if OF_LIBRARY.search(self.command) and not asked else []
        return [words.split()[0], *TOOLS.findall(self.command), *(f"build/{file}" for file in (asked, *built) if file)]


def from_roff(text: str) -> str:
    """The examples of a manual page as blocks of a page, on the same lines."""
    lines, inside = [], False
    for line in text.splitlines():
        if line in (".EX", ".EE"):
            inside = line == ".EX"
            line = "```console" if inside else "```"
        elif inside:
            for escape, letter in ESCAPES:
                line = line.replace(escape, letter)
        else:
            line = ""
        lines.append(line)
    return "\n".join(lines)


def examples_of(text: str) -> list[Example]:
    """Returns the examples of a page."""
    found: list[Example] = []
    # the kind of the block, and the example whose output a block of text may be
    inside, last = "", None
    for number, line in enumerate(text.splitlines(), 1):
        if line.startswith("```"):
            kind = (line[3:].split() or ["other"])[0] if not inside else ""
            if kind in SHELLS or kind in SCRIPTS:
                last = Example(kind, number)
                found.append(last)
            elif inside in ("text", "console"):
                last = None
            inside = kind
        elif inside == "console" and line.startswith("$ "):
            last = Example("sh", number, command=line[2:] + "\n")
            found.append(last)
        elif (inside in SHELLS or inside in SCRIPTS) and last:
            last.command += line + "\n"
        elif inside in ("text", "console") and last:
            last.wanted += line + "\n"
    return found


def run_by(shell: str, examples: list[Example], environment: dict[str, str]) -> None:
    """Runs examples by one shell, in one go, and notes what each printed where that isn't what the page says."""
    with tempfile.TemporaryDirectory() as room:
        home = Path(room, "home")
        home.mkdir()
        os.symlink(TOP / "examples", home / "examples")
        begin, end = ("begin", "end") if shell == "fish" else ("{", "}")
        script = Path(room, "script")
        places = [Path(room, str(at)) for at in range(len(examples))]
        for place in places:
            place.write_text(NOT_REACHED)
        script.write_text(
            "".join(f"{begin}\n{it.command}\n{end} > {place} 2>&1\n" for it, place in zip(examples, places))
        )
        try:
            stray = subprocess.run(
                [shell, script],
                cwd=home,
                env=environment | {"HOME": str(home)},
                check=False,
                stdin=subprocess.DEVNULL,
                stdout=subprocess.PIPE,
                stderr=subprocess.STDOUT,
                timeout=SECONDS,
            ).stdout
        except subprocess.TimeoutExpired as late:
            stray = late.stdout or b""
        sys.stdout.write(stray.decode(errors="replace"))
        for it, place in zip(examples, places):
            got = place.read_text(errors="replace")
            if got != it.wanted:
                it.wrong[shell] = got


def lay_package(room: Path) -> None:
    """Lays the package for npm into a folder, as it would be installed there."""
    package = room / "node_modules/nissy"
    shutil.copytree(TOP / "build/web/module", package)
    shutil.copy(TOP / "build/nissy.wasm", package)


def run_alone(it: Example, environment: dict[str, str]) -> None:
    """Runs an example that is a script or a program of its own, in an empty folder, in which the package for npm is installed."""
    words = SCRIPTS[it.kind][0].split()
    with tempfile.TemporaryDirectory() as room:
        if it.kind == "js":
            lay_package(Path(room))
        next(Path(room, word) for word in words if word.startswith("example.")).write_text(it.command)
        got = b""
        for command in [words, ["./made"]] if "made" in words else [words]:
            ran = subprocess.run(
                command,
                cwd=room,
                env=environment | {"GOCACHE": f"{room}/cache"},
                stdout=subprocess.PIPE,
                stderr=subprocess.STDOUT,
                check=False,
                timeout=SECONDS,
            )
            got += ran.stdout
            if ran.returncode != 0:
                break
        if got.decode(errors="replace") != it.wanted:
            it.wrong[words[0]] = got.decode(errors="replace")


def show(it: Example) -> None:
    """Shows what an example printed by the first shell that differs, beside the page."""
    print("    " + it.command.rstrip("\n").replace("\n", "\n    "))
    for line in difflib.ndiff(it.wanted.splitlines(), next(iter(it.wrong.values())).splitlines()):
        if line[0] in "-+":
            print({"-": "<", "+": ">"}[line[0]] + line[1:])


def is_here(tool: str) -> bool:
    """Returns whether there is a tool, or a file of the repository."""
    return (TOP / tool).exists() if "/" in tool else shutil.which(tool) is not None


def runnable(name: str, examples: list[Example]) -> list[Example]:
    """Returns the examples of a page whose shell and tool are here, and names the others."""
    here = []
    for it in examples:
        missing = next((tool for tool in it.needs() if not is_here(tool)), None)
        if missing:
            print(f"skipped: {name}:{it.line}, no {missing} here")
        else:
            here.append(it)
    return here


def try_page(tally: Tally, page: Path, environment: dict[str, str]) -> None:
    """Runs the examples of one page."""
    name = str(page.relative_to(TOP)) if page.is_relative_to(TOP) else str(page)
    text = page.read_text(encoding="utf-8")
    examples = examples_of(from_roff(text) if page.suffix == ".1" else text)
    tally.holds(f"{name} has an example", examples)
    examples = runnable(name, examples)
    for kind, shells in SHELLS.items():
        of_kind = [it for it in examples if it.kind == kind]
        for shell in shells if of_kind else ():
            if shutil.which(shell):
                run_by(shell, of_kind, environment)
            else:
                print(f"skipped: {name} by {shell}, which isn't here")
    for it in examples:
        if it.kind in SCRIPTS:
            run_alone(it, environment)
    for it in examples:
        tally.holds(
            f"{name}:{it.line}: in {' '.join(it.wrong)} it prints this ('<' the page, '>' the program)", not it.wrong
        )
        if it.wrong:
            show(it)


def main() -> None:
    """Runs the pages that are named."""
    if len(sys.argv) < 3:
        sys.exit(__doc__)
    tally = Tally()
    with tempfile.TemporaryDirectory() as room:
        os.symlink(Path(sys.argv[1]).resolve(), f"{room}/nissy")
        environment = os.environ | {"PATH": f"{room}:{os.environ['PATH']}"}
        for page in sys.argv[2:]:
            try_page(tally, Path(page).resolve(), environment)
    tally.end()


if __name__ == "__main__":
    main()

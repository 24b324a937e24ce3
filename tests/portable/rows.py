#!/usr/bin/env python3
"""Tries the translator of the engine's module to C (tools/wasm_program.py) by small modules: each instruction that it takes, over edges and drawn
numbers, and drawn functions of many instructions. What C says is held against what node's engine says, by each compiler that is here.

    tests/portable/rows.py [SEED [COUNT]]

COUNT functions are drawn. It needs wat2wasm, node and gcc.
"""
import shutil
import signal
import subprocess
import sys
import tempfile
from pathlib import Path

HERE = Path(__file__).resolve().parent
sys.path.insert(0, str(HERE.parent))

from compilers import COMPILERS, Compiler
from drawing import drawn
from instructions import Tried, all_tried
from tally import Tally, side_by_side
from translated import Row, by_c, by_node, make_modules, rows_of, translate, write_driver

TOOLS = HERE.parent.parent / "tools"
# calls that a module's engine refuses, of each kind
TRAPS = ("i32_div_s", "i64_div_u", "i32_rem_u", "i64_rem_s", "never")


def compiled(compiler: Compiler, room: Path) -> str:
    """Compiles the program, and returns what the compiler says against it."""
    words = [
        *compiler.words,
        "-Wno-unused-function",
        "-Wno-unused-label",
        f"-I{room}",
        str(room / "driver.c"),
        "-o",
        str(room / compiler.name),
    ]
    ran = subprocess.run(words, stdout=subprocess.PIPE, stderr=subprocess.STDOUT, text=True, check=False)
    return ran.stdout if ran.returncode else ""


def first_differing(functions: list[Tried], rows: list[Row], got: list[str], wanted: list[str]) -> str:
    """Returns the first call of which C says something else, or nothing."""
    if len(got) != len(wanted):
        return f"{len(got)} answers for {len(wanted)}"
    for (at, a, b), one, other in zip(rows, got, wanted):
        if one != other:
            return f"{functions[at].name} {a:#x} {b:#x}: {one} for {other}"
    return ""


def try_by(compiler: Compiler, room: Path, functions: list[Tried], rows: list[Row], wanted: list[str]) -> str:
    """Returns what is wrong by one compiler, or nothing."""
    why = compiled(compiler, room)
    if why:
        return why[:400]
    status, got = by_c([*compiler.runner(), str(room / compiler.name)], rows)
    return first_differing(functions, rows, got, wanted) or (f"status {status}" if status else "")


def try_traps(tally: Tally, room: Path, functions: list[Tried], trapped: list[Row]) -> None:
    """What a module's engine refuses ends the program in C."""
    for name in TRAPS:
        rows = [row for row in trapped if functions[row[0]].name == name]
        tally.holds(f"{name} has calls that are refused", rows)
        statuses = {by_c([str(room / "gcc")], [row])[0] for row in rows[:3]}
        tally.equal(f"how C ends {name} where it is refused", statuses, {-signal.SIGABRT})


def main() -> None:
    """Translates, and tries by each compiler."""
    seed, count = (int(word) for word in [*sys.argv[1:], *("1", "150")[len(sys.argv) - 1 :]])
    tally = Tally()
    with tempfile.TemporaryDirectory() as folder:
        room = Path(folder)
        functions = all_tried() + drawn(seed, count)
        modules = make_modules(functions, room)
        ran = translate(modules, TOOLS, room / "functions.c")
        tally.holds(f"the modules are translated: {ran.stdout}", ran.returncode == 0)
        write_driver(functions, room)
        rows = rows_of(functions, seed, 20)
        said = by_node(functions, rows, modules[0])
        both = [(row, it) for row, it in zip(rows, said) if it != "trap"]
        calls, wanted = [row for row, _ in both], [it for _, it in both]
        tally.holds("node says something of each call", len(said) == len(rows) and len(calls) > 0.9 * len(rows))
        here = [it for it in COMPILERS if shutil.which(it.words[0]) and it.can_run()]
        for name in sorted({it.name for it in COMPILERS} - {it.name for it in here}):
            print(f"skipped: the small modules by {name}, which isn't here")
        for compiler, wrong in zip(
            here, side_by_side(tally, 4, lambda it: try_by(it, room, functions, calls, wanted), here)
        ):
            tally.holds(f"{compiler.name}, {len(calls)} calls of {len(functions)} functions: {wrong}", not wrong)
        try_traps(tally, room, functions, [row for row, it in zip(rows, said) if it == "trap"])
    tally.end()


if __name__ == "__main__":
    main()

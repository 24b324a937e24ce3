#!/usr/bin/env python3
"""Tries wrong translators: each turns one meaning in a copy of tools/ and portable/, and the small modules of rows.py must see it.

It needs wat2wasm, node and gcc; by tcc, where it is, it takes half as long.
"""
import shutil
import subprocess
import sys
import tempfile
from pathlib import Path

HERE = Path(__file__).resolve().parent
sys.path.insert(0, str(HERE.parent))

from compilers import SANITIZED
from instructions import Tried, all_tried
from tally import Tally, side_by_side
from translated import Row, by_c, by_node, make_modules, rows_of, translate, write_driver

TOP = HERE.parent.parent
VALUES, FUNCTIONS, PROGRAM = "tools/wasm_values.py", "tools/wasm_functions.py", "tools/wasm_program.py"
NUMBERS, MEMORY = "portable/numbers.h", "portable/memory.h"
# what each turns, and the text that becomes another
WRONG = {
    "a load drops the sign": (
        VALUES,
        "    if is_signed:\n        text =",
        "    if is_signed and size > 4:\n        text =",
    ),
    "a shift drops the sign": (VALUES, 'text = f"{sign}{by})" if how == "s"', 'text = f"{sign}{by})" if how == "x"'),
    "a shift isn't cut to its width": (VALUES, 'f"({other.text} & {BITS[kind] - 1})" if', "other.text if"),
    "a shift by a literal isn't either": (
        VALUES,
        "str(other.number % BITS[kind])",
        "str(min(other.number, BITS[kind] - 1))",
    ),
    "a choice is turned": (VALUES, "? {one.text} : {other.text})", "? {other.text} : {one.text})"),
    "a comparison drops the sign": (VALUES, 'cast = f"({SIGNED[kind]})" if how == "s" else ""', 'cast = ""'),
    "a number is extended without its sign": (VALUES, "(uint64_t)(int64_t)(int32_t){one.text}", "(uint64_t){one.text}"),
    "low bits are extended without their sign": (
        VALUES,
        "({SIGNED[kind]})(int{bits}_t){one.text}",
        "(uint{bits}_t){one.text}",
    ),
    "a difference is turned": (
        VALUES,
        "{one.text} {SIGNS.get(word, '')} {other.text}\"",
        "{other.text} {SIGNS.get(word, '')} {one.text}\"",
    ),
    "a condition is not turned": (VALUES, 'f"!({one.condition})" if', "one.condition if"),
    "an offset is left out": (FUNCTIONS, '{base.text} + {literal(offset, I64)}"', '{base.text}"'),
    "a local changes before it is read": (FUNCTIONS, "            self.keep(lambda kept: index in kept.locals)\n", ""),
    "memory changes before a store reads it": (
        FUNCTIONS,
        "        self.keep_loads()\n        self.say(stored(",
        "        self.say(stored(",
    ),
    "memory changes before a copy reads it": (
        FUNCTIONS,
        "        self.keep_loads()\n        self.say(f\"{'copy'",
        "        self.say(f\"{'copy'",
    ),
    "memory changes before a call reads it": (
        FUNCTIONS,
        "        self.keep_all()\n        words = ",
        "        words = ",
    ),
    "a local changes in a block before it is read": (
        FUNCTIONS,
        "        self.keep_all()\n        number, result",
        "        number, result",
    ),
    "a branch goes one block too far": (
        FUNCTIONS,
        "label = self.labels[-1 - depth]\n",
        "label = self.labels[max(-2 - depth, -len(self.labels))]\n",
    ),
    "a loop is left where it should begin again": (
        FUNCTIONS,
        "if it.code == code.LOOP:\n            self.say(",
        "if False:\n            self.say(",
    ),
    "a table's last label is its first": (FUNCTIONS, "*depths, other = it.numbers", "other, *depths = it.numbers"),
    "a result isn't handed out": (
        FUNCTIONS,
        "if not self.is_dead and label.result:",
        "if self.is_dead and label.result:",
    ),
    "the stack isn't moved": (FUNCTIONS, 'self.say(f"sp = {value.text};")', "pass"),
    "an address among the constants is off by one": (
        PROGRAM,
        'return f"POINTER({at - self.begin})"',
        'return f"POINTER({at - self.begin + 1})"',
    ),
    "the address of a constant is off by one": (
        PROGRAM,
        'return f"CONSTANT({address - self.begin}u)"',
        'return f"CONSTANT({address - self.begin + 1}u)"',
    ),
    "a rotation goes one way": (NUMBERS, "return x >> by | x << (-by & 31)", "return x >> by | x << (by & 31)"),
    "a remainder by -1 is 1": (NUMBERS, "(int64_t)y == -1 ? 0", "(int64_t)y == -1 ? 1"),
    "no bit is counted as one less": (NUMBERS, "__builtin_ctzll(x) : 64", "__builtin_ctzll(x) : 63"),
    "a copy overlaps itself": (
        MEMORY,
        "memmove(at_own(to), behind(from), (size_t)size)",
        "for (uint64_t i = 0; i < size; i += 1) at_own(to)[i] = behind(from)[i]",
    ),
    "a fill is of one byte": (MEMORY, "(int)(byte & 255), (size_t)size", "(int)(byte & 255), 1"),
}
# seen by the sanitizer alone, since a processor cuts a shift to its width by itself
BY_SANITIZER = {"a shift isn't cut to its width"}
# a frame that is too small is seen by no answer, but by what it says
SIZES = "the stack is too small"
WRONG[SIZES] = (FUNCTIONS, "self.frame = max(self.frame, made.below or 0)", "self.frame = 0")


def copied(room: Path) -> Path:
    """Returns a copy of the translator in a folder."""
    for folder in ("tools", "portable"):
        shutil.copytree(TOP / folder, room / folder, ignore=shutil.ignore_patterns("__pycache__"))
    return room


def is_seen(what: str, room: Path, modules: list[Path], calls: list[Row], wanted: list[str]) -> str:
    """Returns nothing if the wrong translator is seen, else why not."""
    name, old, new = WRONG[what]
    text = (room / name).read_text(encoding="utf-8")
    if text.count(old) < 1:
        return f"its text isn't in {name} any more"
    (room / name).write_text(text.replace(old, new), encoding="utf-8")
    if translate(modules, room / "tools", room / "functions.c").returncode:
        return ""
    if what == SIZES:
        return (
            ""
            if "STACK_OF_framed 48" not in (room / "functions.c").read_text(encoding="utf-8")
            else "its stack is as large"
        )
    compiler = (
        ["gcc", "-std=c11", "-w", *SANITIZED]
        if what in BY_SANITIZER or not shutil.which("tcc")
        else ["tcc", "-std=c11", "-w"]
    )
    if what.startswith("no bit"):
        compiler = ["gcc", "-std=c11", "-w", "-O1"]
    words = [*compiler, f"-I{room}", str(room.parent / "driver.c"), "-o", str(room / "driver")]
    if subprocess.run(words, stdout=subprocess.DEVNULL, stderr=subprocess.DEVNULL, check=False).returncode:
        return ""
    try:
        return (
            "" if by_c(["timeout", "20", str(room / "driver")], calls) != (0, wanted) else "every answer is as it was"
        )
    except UnicodeDecodeError:
        return ""


def tried(what: str, folder: Path, modules: list[Path], calls: list[Row], wanted: list[str]) -> str:
    """The same in a folder of its own."""
    with tempfile.TemporaryDirectory(dir=folder) as room:
        return is_seen(what, copied(Path(room)), modules, calls, wanted)


def main() -> None:
    """Tries each."""
    tally, functions = Tally(), list[Tried](all_tried())
    with tempfile.TemporaryDirectory() as folder:
        room = Path(folder)
        modules = make_modules(functions, room)
        write_driver(functions, room)
        rows = rows_of(functions, 1, 5)
        said = by_node(functions, rows, modules[0])
        calls = [row for row, it in zip(rows, said) if it != "trap"]
        wanted = [it for it in said if it != "trap"]
        right = translate(modules, TOP / "tools", room / "right.c")
        tally.holds(
            "the right translator's stack",
            "STACK_OF_framed 64" in (room / "right.c").read_text(encoding="utf-8") and not right.returncode,
        )
        for what, why in zip(
            WRONG, side_by_side(tally, 4, lambda it: tried(it, room, modules, calls, wanted), list(WRONG))
        ):
            tally.holds(f"a wrong translator is seen, by which {what}: {why}", not why)
    tally.end()


if __name__ == "__main__":
    main()

#!/usr/bin/env python3
"""What the translator doesn't take it refuses by name: what the kit's modules don't have, two modules that aren't one, code whose use of the stack isn't
known, and calls of a header that the module hasn't. It needs wat2wasm.
"""
import subprocess
import sys
import tempfile
from pathlib import Path

HERE = Path(__file__).resolve().parent
sys.path.insert(0, str(HERE.parent))
sys.path.insert(0, str(HERE.parent.parent / "tools"))

from tally import Tally

from c_calls import calls
from wasm_module import Module, Refused
from wasm_program import Program

MEMORY = "(memory i64 1) (global (mut i64) (i64.const @BEGIN))"
# what is refused, and the module in which it stands
REFUSED = {
    "many memories": MEMORY + "(memory i64 1)",
    "a memory with addresses of 32 bits": "(memory 1)",
    "an import: env.print": '(import "env" "print" (func)) ' + MEMORY,
    "a start function": MEMORY + "(func $f) (start $f)",
    "a function on other than whole numbers": MEMORY + '(func (export "f") (param f64))',
    "a function with many results": MEMORY + '(func (export "f") (result i32 i32) (i32.const 1) (i32.const 2))',
    "data without a place of its own": MEMORY + '(data "abc")',
    "a first global that is no stack pointer": "(memory i64 1) (global i64 (i64.const 7))",
    "constants that aren't moved as the stack is": "(memory i64 1) (global (mut i64) (i64.const 7))",
    "f: a local that is no whole number": MEMORY + '(func $f (export "f") (local f32))',
    "f: a number with a fraction: the instruction 0x44": MEMORY + '(func $f (export "f") (drop (f64.const 1)))',
    "f: a number with a fraction: the instruction 0x2b": MEMORY
    + '(func $f (export "f") (drop (f64.load (i64.const 0))))',
    "f: a vector: the instruction 0xfd": MEMORY + '(func $f (export "f") (drop (v128.const i64x2 1 2)))',
    "f: memory that threads share: the instruction 0xfe": MEMORY
    + '(func $f (export "f") (drop (i32.atomic.load (i64.const 0))))',
    "f: a memory that grows: the instruction 0x40": MEMORY
    + '(func $f (export "f") (drop (memory.grow (i64.const 1))))',
    "f: the size of a memory of its own: the instruction 0x3f": MEMORY + '(func $f (export "f") (drop (memory.size)))',
    "f: a call by a table: the instruction 0x11": MEMORY
    + '(table 1 funcref) (func $f (export "f") (call_indirect (i32.const 0)))',
    "f: a call in the place of the caller: the instruction 0x12": MEMORY + '(func $f (export "f") (return_call $f))',
    "f: a table: the instruction 0x25": MEMORY
    + '(table 1 funcref) (func $f (export "f") (drop (table.get 0 (i32.const 0))))',
    "f: constants that are copied or dropped: the instruction 0xfc09": MEMORY
    + '(data (i64.const @BEGIN) "a") (func $f (export "f") (data.drop 0))',
    "f: an exception: the instruction 0x8": MEMORY + '(tag) (func $f (export "f") (throw 0))',
    "f: state that stays between calls: global 1": MEMORY
    + '(global (mut i32) (i32.const 0)) (func $f (export "f") (global.set 1 (i32.const 1)))',
    "f: a constant that changes": MEMORY
    + '(data (i64.const @BEGIN) "abcd") (func $f (export "f") (i32.store (i64.const @BEGIN) (i32.const 1)))',
    "f: a number that isn't moved as the constants are": MEMORY
    + '(data (i64.const @BEGIN) "a") (func $f (export "f") (drop (i64.const @OTHER)))',
    "f: an address of 32 bits": MEMORY
    + '(data (i64.const @BEGIN) "a") (func $f (export "f") (drop (i32.const @BEGIN)))',
    "f: two modules that differ in more than the addresses of constants": MEMORY + '(func $f (export "f") @FLIP)',
    "constants that aren't moved as they should be": MEMORY + '(data (i64.const @BEGIN) "@LETTER")',
    "f: a stack pointer that is moved to a place that isn't known": MEMORY
    + '(func $f (export "f") (param i64) (global.set 0 (local.get 0)))',
    "f: a stack pointer that is read when it was moved": MEMORY
    + '(func $f (export "f") (global.set 0 (i64.sub (global.get 0) (i64.const 16)))'
    " (drop (global.get 0)))",
    "functions that call themselves, no one knows how deep: f": MEMORY + '(func $f (export "f") (call $f))',
}
FLAGS = [
    "--enable-memory64",
    "--enable-multi-memory",
    "--enable-threads",
    "--enable-tail-call",
    "--enable-exceptions",
    "--debug-names",
]
HEADER = "typedef struct answer {\n    uint8_t status;\n    uint64_t length; /* a comment */\n} answer;\nanswer nissy_one(const uint8_t *line, size_t length);\n"


def module(text: str, begin: int, room: Path) -> bytes:
    """Returns the module of a text with its constants at a place."""
    turned = {
        "@BEGIN": str(begin),
        "@OTHER": str(2 * begin),
        "@FLIP": "(drop (i32.const 1))" if begin == 16 else "(nop)",
    }
    turned["@LETTER"] = "a" if begin == 16 else "b"
    for old, new in turned.items():
        text = text.replace(old, new)
    (room / "it.wat").write_text(f"(module {text})")
    subprocess.run(["wat2wasm", *FLAGS, room / "it.wat", "-o", room / "it.wasm"], check=True)
    return (room / "it.wasm").read_bytes()


def why_refused(one: bytes, other: bytes) -> str:
    """Returns why two modules are refused, or nothing."""
    try:
        Program(Module(one), Module(other), {}).text()
    except Refused as refused:
        return str(refused)
    return ""


def why_uncalled(header: str, room: Path, params: str) -> str:
    """Returns why the calls of a header over a module with one function are refused, or nothing."""
    it = Module(module(MEMORY + f'(func (export "nissy_one") {params})', 16, room))
    try:
        calls(header, "", {name: it.type_of(index) for name, index in it.exports.items()})
    except Refused as refused:
        return str(refused)
    return ""


def refuses_modules(tally: Tally, room: Path) -> None:
    """Modules that aren't translated, also each that was cut."""
    for wanted, text in REFUSED.items():
        tally.equal("why a module is refused", why_refused(module(text, 16, room), module(text, 64, room)), wanted)
    whole = module(MEMORY + '(func $f (export "f") (param i32) (drop (i32.add (local.get 0) (i32.const 9))))', 16, room)
    tally.equal("why the same one twice is", why_refused(whole, whole), "constants that aren't moved as the stack is")
    # 8 bytes say that it is a module, and a section that is whole may be the last one
    cut = {why_refused(whole[:length], whole) for length in range(len(whole))} - {""}
    known = {
        "a module that is cut off",
        "a file that is no WebAssembly module",
        "a first global that is no stack pointer",
        "constants that aren't moved as the stack is",
    }
    tally.equal("why one that was cut is", cut - known, set())
    tally.holds("one that was cut is refused as such", "a module that is cut off" in cut)


def refuses_calls(tally: Tally, room: Path) -> None:
    """Calls that header and module don't have alike, or that aren't of the form of the others."""
    right = "(param i64 i64 i64)"
    tally.equal("a call that both have", why_uncalled(HEADER, room, right), "")
    unlike = "nissy_one has not the same parameters in the header and in the module"
    tally.equal("one with other parameters", why_uncalled(HEADER, room, "(param i64 i64)"), unlike)
    more = HEADER + "uint8_t nissy_two(void);\n"
    lacking = "calls of the header that the module hasn't: nissy_two"
    tally.equal("one that the module hasn't", why_uncalled(more, room, right), lacking)
    pointer = HEADER + "const char *nissy_text(void);\n"
    why = "calls that aren't declared in one form with the others: nissy_text"
    tally.equal("one that returns a pointer", why_uncalled(pointer, room, right), why)
    two = HEADER.replace("uint8_t status;", "uint8_t status, fault;")
    why = "a field of another form: uint8_t status, fault;"
    tally.equal("two fields in one", why_uncalled(two, room, right), why)
    hand = HEADER.replace("const uint8_t *line", "struct other *line")
    why = "nissy_one takes struct other *line: such a call is written by hand, in portable/calls.c"
    tally.equal("one that takes something else", why_uncalled(hand, room, right), why)


def main() -> None:
    """Tries each."""
    tally = Tally()
    with tempfile.TemporaryDirectory() as folder:
        refuses_modules(tally, Path(folder))
        refuses_calls(tally, Path(folder))
    tally.end()


if __name__ == "__main__":
    main()

"""Small modules that are translated to C, compiled, and run beside node's engine on the same numbers."""

import json
import random
import struct
import subprocess
import sys
from pathlib import Path

from instructions import Tried

# where the constants stand in two modules, and the address among them
BEGINS = (65536, 131072)
POINTER_AT = 16
STACK_BYTES = 4096
LEVELS = {"deep": 16}
EDGES = (
    0,
    1,
    3,
    31,
    33,
    63,
    255,
    0x80000000,
    0xFFFFFFFF,
    0x123456789ABCDEF0,
    0x8000000000000000,
    0xFFFFFFFFFFFFFFFF,
    0xDEADBEEFCAFEBABE,
)
# Translates by the tools of a folder, so that a wrong copy of them can be tried.
TRANSLATE = """
import sys
sys.path.insert(0, sys.argv[1])
sys.dont_write_bytecode = True
from pathlib import Path
from wasm_module import Module
from wasm_program import Program
levels = {level.split("=")[0]: int(level.split("=")[1]) for level in sys.argv[5:]}
Path(sys.argv[4]).write_text(Program(*(Module(Path(it).read_bytes()) for it in sys.argv[2:4]), levels).text())
"""
DRIVER_IN_C = """#include <stddef.h>
#include <stdint.h>
#include <stdio.h>
#include <stdlib.h>
#include <string.h>
#include "functions.c"

static _Alignas(16) unsigned char memory[64];
static _Alignas(16) unsigned char stack[STACK_BYTES];

int main(void) {
    unsigned which;
    unsigned long long a, b;
    uint64_t sp = (uint64_t)(uintptr_t)stack + sizeof stack, at = (uint64_t)(uintptr_t)(memory + 16);
    (void)at;
    while (scanf("%u %llx %llx", &which, &a, &b) == 3) {
        uint64_t r = 0;
        for (int i = 0; i < 64; i += 1) memory[i] = (unsigned char)(i * 37 + 129);
        switch (which) {
CASES
        }
        printf("%llx", (unsigned long long)r);
        for (int i = 0; i < 64; i += 1) printf("%02x", memory[i]);
        printf("\\n");
    }
    return 0;
}
"""
DRIVER_IN_NODE = """
const [functions, rows] = JSON.parse(fs.readFileSync(0, "utf8"));
const { exports } = new WebAssembly.Instance(new WebAssembly.Module(fs.readFileSync(process.argv[1])));
const memory = new Uint8Array(exports.memory.buffer, 200000, 64);
const given = (kind, text) => (kind === "i32" ? Number(BigInt.asIntN(32, BigInt(text))) : BigInt(text));
const said = [];
for (const [which, a, b] of rows) {
  const { name, params, onMemory } = functions[which];
  for (let i = 0; i < 64; i++) memory[i] = i * 37 + 129;
  const words = onMemory ? [200016n, given(params[1], a)] : [a, b].slice(0, params.length).map((text, at) => given(params[at], text));
  try {
    const made = exports[name](...words);
    said.push((typeof made === "number" ? made >>> 0 : BigInt.asUintN(64, made)).toString(16) + Buffer.from(memory).toString("hex"));
  } catch (error) {
    if (!(error instanceof WebAssembly.RuntimeError)) throw error;
    said.push("trap");
  }
}
console.log(said.join("\\n"));
"""

Row = tuple[int, int, int]


def node_words() -> list[str]:
    """Returns the words that call node with memories of 64-bit addresses, which an older one has to be asked for."""
    asks = "new WebAssembly.Module(Uint8Array.from([0, 97, 115, 109, 1, 0, 0, 0, 5, 3, 1, 4, 1]))"
    has = subprocess.run(["node", "-e", asks], stderr=subprocess.DEVNULL, check=False).returncode == 0
    return ["node"] if has else ["node", "--experimental-wasm-memory64"]


def module_text(functions: list[Tried], begin: int) -> str:
    """Returns a module with its constants at a place, as wat2wasm reads it."""
    data = bytes(range(100, 100 + POINTER_AT)) + struct.pack("<Q", begin + 5) + b"\x80\xff\x7f"
    text = (
        "\n".join(it.text() for it in functions)
        .replace("@BEGIN", str(begin))
        .replace("@POINTER", str(begin + POINTER_AT))
    )
    told = "".join(f"\\{byte:02x}" for byte in data)
    return f'(module (memory (export "memory") i64 4) (global (mut i64) (i64.const {begin})) (data (i64.const {begin}) "{told}")\n{text})\n'


def make_modules(functions: list[Tried], room: Path) -> list[Path]:
    """Makes both modules in a folder, and returns where they are."""
    made = []
    for begin in BEGINS:
        (room / f"{begin}.wat").write_text(module_text(functions, begin))
        made.append(room / f"{begin}.wasm")
        subprocess.run(
            ["wat2wasm", "--enable-memory64", "--debug-names", room / f"{begin}.wat", "-o", made[-1]], check=True
        )
    return made


def translate(modules: list[Path], tools: Path, made: Path) -> subprocess.CompletedProcess[str]:
    """Translates two modules by the tools of a folder."""
    words = [
        sys.executable,
        "-c",
        TRANSLATE,
        str(tools),
        *map(str, modules),
        str(made),
        *(f"{name}={level}" for name, level in LEVELS.items()),
    ]
    return subprocess.run(words, stdout=subprocess.PIPE, stderr=subprocess.STDOUT, text=True, check=False)


def call_in_c(it: Tried) -> str:
    """Returns the call of a function in C."""
    words = (
        ["sp", "at", "a"]
        if it.is_on_memory
        else ["sp", *("(uint32_t)" * (kind == "i32") + word for kind, word in zip(it.params, "ab"))]
    )
    return f"r = w_{it.name}({', '.join(words)});"


def write_driver(functions: list[Tried], room: Path) -> None:
    """Writes the program in C that makes the calls that it reads."""
    cases = "\n".join(f"        case {at}: {call_in_c(it)} break;" for at, it in enumerate(functions))
    (room / "driver.c").write_text(DRIVER_IN_C.replace("CASES", cases).replace("STACK_BYTES", str(STACK_BYTES)))


def rows_of(functions: list[Tried], seed: int, count: int) -> list[Row]:
    """Returns calls: of each function on the edges, and on so many drawn numbers."""
    draw = random.Random(seed)
    rows = []
    for at, it in enumerate(functions):
        others = EDGES if len(it.params) == 2 and not it.is_on_memory else (0,)
        rows += [(at, a, b) for a in EDGES for b in others]
        rows += [
            (at, draw.getrandbits(64) >> draw.randrange(64), draw.getrandbits(64) >> draw.randrange(64))
            for _ in range(count)
        ]
    return rows


def by_node(functions: list[Tried], rows: list[Row], module: Path) -> list[str]:
    """Returns what node's engine says of each call."""
    told = [{"name": it.name, "params": it.params, "onMemory": it.is_on_memory} for it in functions]
    given = json.dumps([told, [[at, str(a), str(b)] for at, a, b in rows]])
    words = [*node_words(), "-e", DRIVER_IN_NODE, str(module)]
    return subprocess.run(words, input=given, capture_output=True, text=True, check=True).stdout.splitlines()


def by_c(words: list[str], rows: list[Row]) -> tuple[int, list[str]]:
    """Returns how the program in C ended, and what it says of each call."""
    given = "".join(f"{at} {a:x} {b:x}\n" for at, a, b in rows)
    ran = subprocess.run(words, input=given, capture_output=True, text=True, check=False)
    return ran.returncode, ran.stdout.splitlines()

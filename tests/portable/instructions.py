"""Small functions of a WebAssembly module, by which the translator is tried: one or more for each instruction that it takes, and for each place in which
it may be wrong about order, branches or the stack. Each takes one number or two, or an address and a number."""

from dataclasses import dataclass

CALCULATIONS = "add sub mul div_s div_u rem_s rem_u and or xor shl shr_s shr_u rotl rotr".split()
COMPARISONS = "eq ne lt_s lt_u gt_s gt_u le_s le_u ge_s ge_u".split()
LOADS = {
    "i32": "load load8_s load8_u load16_s load16_u".split(),
    "i64": "load load8_s load8_u load16_s load16_u load32_s load32_u".split(),
}
STORES = {"i32": "store store8 store16".split(), "i64": "store store8 store16 store32".split()}
KINDS = ("i32", "i64")


@dataclass(frozen=True)
class Tried:
    """A function: its name, the kinds of what it takes and returns, its body, and whether the first thing that it takes is an address."""

    name: str
    params: tuple[str, ...]
    result: str
    body: str
    is_on_memory: bool = False

    def text(self) -> str:
        """Returns it as wat2wasm reads it."""
        return f'(func ${self.name} (export "{self.name}") (param {" ".join(self.params)}) (result {self.result}) {self.body})'


def on_numbers(name: str, body: str, kind: str = "i64", result: str = "i64", count: int = 2) -> Tried:
    """A function on numbers of one kind."""
    return Tried(name, (kind,) * count, result, body)


def on_memory(name: str, body: str, result: str = "i64") -> Tried:
    """A function on an address and a number."""
    return Tried(name, ("i64", "i64"), result, body, True)


def calculations(kind: str) -> list[Tried]:
    """Those of one kind that calculate and compare."""
    one, both = "(local.get 0)", "(local.get 0) (local.get 1)"
    found = [on_numbers(f"{kind}_{name}", f"({kind}.{name} {both})", kind, kind) for name in CALCULATIONS]
    found += [on_numbers(f"{kind}_{name}", f"({kind}.{name} {both})", kind, "i32") for name in COMPARISONS]
    found += [
        on_numbers(f"{kind}_{name}", f"({kind}.{name} {one})", kind, kind, 1) for name in ("clz", "ctz", "popcnt")
    ]
    found += [on_numbers(f"{kind}_eqz", f"({kind}.eqz {one})", kind, "i32", 1)]
    found += [on_numbers(f"{kind}_eqz_of_less", f"(i32.eqz ({kind}.lt_s {both}))", kind, "i32")]
    widths = (8, 16) if kind == "i32" else (8, 16, 32)
    found += [
        on_numbers(f"{kind}_extend{width}_s", f"({kind}.extend{width}_s {one})", kind, kind, 1) for width in widths
    ]
    for name in ("shl", "shr_s", "shr_u", "rotl"):
        found += [
            on_numbers(f"{kind}_{name}_{by}", f"({kind}.{name} {one} ({kind}.const {by}))", kind, kind, 1)
            for by in (1, 31, 33, 63)
        ]
    for name in ("div_u", "rem_u", "div_s", "rem_s"):
        found += [
            on_numbers(f"{kind}_{name}_by_{by % 4}", f"({kind}.{name} {one} ({kind}.const {by}))", kind, kind, 1)
            for by in (2, -1)
        ]
    return found + [on_numbers(f"{kind}_select", f"(select {both} ({kind}.lt_u {both}))", kind, kind)]


def accesses(kind: str) -> list[Tried]:
    """Those of one kind that read and write memory."""
    found = []
    for name in LOADS[kind]:
        found += [on_memory(f"{kind}_{name}_{at}", f"({kind}.{name} offset={at} (local.get 0))", kind) for at in (0, 3)]
    value = "(local.get 1)" if kind == "i64" else "(i32.wrap_i64 (local.get 1))"
    for name in STORES[kind]:
        found.append(
            on_memory(f"{kind}_{name}", f"({kind}.{name} offset=2 (local.get 0) {value}) (i64.load (local.get 0))")
        )
    return found


CONVERSIONS = [
    Tried("wrap", ("i64",), "i32", "(i32.wrap_i64 (local.get 0))"),
    Tried("extend_signed", ("i32",), "i64", "(i64.extend_i32_s (local.get 0))"),
    Tried("extend_unsigned", ("i32",), "i64", "(i64.extend_i32_u (local.get 0))"),
]
# what the stack of values and the order of statements show
ORDER = [
    on_numbers("swap", "(local.get 0)(local.set 0 (local.get 1))(local.set 1 (i64.const 5))(i64.sub (local.get 0))"),
    on_numbers(
        "tee", "(local.get 0)(local.tee 0 (i64.add (local.get 1) (i64.const 7)))(i64.mul)(i64.xor (local.get 0))"
    ),
    on_numbers("itself", "(local.set 0 (local.get 0))(nop)(drop (i64.const 1))(local.get 0)(i64.sub (local.get 1))"),
    on_memory(
        "before_store",
        "(i64.load (local.get 0)) (i64.store (local.get 0) (local.get 1)) (i64.sub (i64.load (local.get 0)))",
    ),
    on_memory(
        "before_call",
        "(i64.load (local.get 0)) (call $before_store (local.get 0) (local.get 1)) (i64.sub) (i64.add (i64.load (local.get 0)))",
    ),
    on_memory(
        "before_copy",
        "(i64.load (local.get 0)) (memory.copy (i64.add (local.get 0) (i64.const 3)) (local.get 0) (i64.and (local.get 1) (i64.const 7)))"
        " (i64.xor (i64.load offset=2 (local.get 0)))",
    ),
    on_memory(
        "before_fill",
        "(i64.load (local.get 0)) (memory.fill (i64.add (local.get 0) (i64.const 1)) (i32.wrap_i64 (local.get 1))"
        " (i64.and (local.get 1) (i64.const 7))) (i64.sub (i64.load (local.get 0)))",
    ),
    on_memory(
        "before_tee",
        "(i64.load (local.get 0)) (i64.load (local.tee 0 (i64.add (local.get 0) (i64.const 8)))) (i64.sub)"
        " (i64.mul (i64.load (local.get 0)))",
    ),
]
BLOCKS = [
    on_numbers(
        "loop",
        "(local i64) (block (loop (br_if 1 (i64.ge_u (local.get 2) (i64.and (local.get 1) (i64.const 15))))"
        " (local.set 0 (i64.add (i64.mul (local.get 0) (i64.const 31)) (local.get 2))) (local.set 2 (i64.add (local.get 2) (i64.const 1))) (br 0)))"
        " (local.get 0)",
    ),
    on_numbers(
        "table",
        "(block (block (block (block (br_table 0 2 1 0 2 3 1 (i32.wrap_i64 (i64.and (local.get 0) (i64.const 7)))))"
        " (return (i64.const 1))) (local.set 1 (i64.add (local.get 1) (i64.const 2)))) (local.set 1 (i64.mul (local.get 1) (i64.const 3)))) (local.get 1)",
    ),
    on_numbers(
        "valued",
        "(block (result i64) (br_if 0 (local.get 0) (i64.lt_s (local.get 0) (local.get 1))) (drop) (if (result i64)"
        " (i64.eq (local.get 0) (local.get 1)) (then (i64.const 9)) (else (i64.sub (local.get 0) (local.get 1)))))",
    ),
    on_numbers(
        "valued_table",
        "(block (result i64) (block (result i64) (br_table 0 1 0 (i64.add (local.get 0) (local.get 1))"
        " (i32.wrap_i64 (i64.and (local.get 0) (i64.const 3))))) (i64.xor (i64.const 77)))",
    ),
    on_numbers(
        "under_a_block",
        "(local.get 0) (block (local.set 0 (i64.const 4)) (br_if 0 (i64.eqz (local.get 1))) (local.set 0 (i64.const 6)))"
        " (i64.sub (local.get 0))",
    ),
    on_numbers(
        "valued_loop",
        "(local i64) (loop (result i64) (local.set 2 (i64.add (local.get 2) (i64.const 3))) (br_if 0 (i64.lt_u (local.get 2)"
        " (i64.and (local.get 0) (i64.const 31)))) (i64.add (local.get 2) (local.get 1)))",
    ),
    on_numbers("early", "(if (i64.gt_u (local.get 0) (local.get 1)) (then (return (local.get 1)))) (i64.const 77)"),
    on_numbers(
        "behind_the_end",
        "(block (br 0) (drop (i64.div_u (local.get 0) (i64.const 0))) (block (loop (br 0)))) (if (result i64)"
        " (i64.eqz (local.get 0)) (then (return (i64.const 3))) (else (local.get 1)))",
    ),
    on_numbers("never", "(if (i64.gt_u (local.get 0) (i64.const -2)) (then (unreachable))) (local.get 1)"),
]
# the stack, and constants with the address of one among them; two texts say where they are
FRAME = "(local i64) (global.set 0 (local.tee 2 (i64.sub (global.get 0) (i64.const 48))))"
LEFT = "(global.set 0 (i64.add (local.get 2) (i64.const 48)))"
STACK = [
    on_numbers(
        "below_the_stack",
        "(i64.store (i64.sub (global.get 0) (i64.const 16)) (local.get 0)) (i64.add (i64.load32_s (i64.sub (global.get 0)"
        " (i64.const 16))) (local.get 1))",
    ),
    on_numbers(
        "framed",
        f"{FRAME} (i64.store offset=8 (local.get 2) (local.get 0)) (i64.store offset=16 (local.get 2) (call $below_the_stack"
        f" (local.get 1) (local.get 0))) (i64.sub (i64.load offset=8 (local.get 2)) (i64.load offset=16 (local.get 2))) {LEFT}",
    ),
    on_numbers(
        "deep",
        f"{FRAME} (i64.store offset=8 (local.get 2) (local.get 1)) (if (i64.ne (i64.and (local.get 0) (i64.const 15)) (i64.const 0))"
        " (then (i64.store offset=8 (local.get 2) (i64.add (call $deep (i64.sub (i64.and (local.get 0) (i64.const 15)) (i64.const 1))"
        f" (i64.mul (local.get 1) (i64.const 3))) (i64.load offset=8 (local.get 2)))))) (i64.load offset=8 (local.get 2)) {LEFT}",
    ),
]
CONSTANTS = [
    on_numbers(
        "constant",
        "(i64.add (i64.load offset=@BEGIN (i64.and (local.get 1) (i64.const 7))) (i64.load (i64.const @BEGIN)))",
    ),
    on_numbers(
        "constant_by_pointer",
        "(i64.add (i64.load (i64.load (i64.const @POINTER))) (i64.load8_s offset=3 (i64.load offset=@POINTER (i64.const 0))))",
    ),
    on_numbers(
        "constant_of_two",
        "(i64.load8_u (select (i64.const @BEGIN) (i64.load (i64.const @POINTER)) (i64.lt_s (local.get 0) (local.get 1))))",
    ),
    on_memory(
        "constants_copied",
        "(memory.copy (local.get 0) (i64.const @BEGIN) (i64.and (local.get 1) (i64.const 15))) (i64.load (local.get 0))",
    ),
]


def all_tried() -> list[Tried]:
    """All of them."""
    return (
        [it for kind in KINDS for it in calculations(kind) + accesses(kind)]
        + CONVERSIONS
        + ORDER
        + BLOCKS
        + STACK
        + CONSTANTS
    )

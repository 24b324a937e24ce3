"""Draws functions of a WebAssembly module, each of many instructions, by which the translator is tried beside node. What
stands in braces is drawn by RULES, again and again. What a function does depends on no address: each is made of locals that
hold one, and of a few lowest bits of a number."""

import random
import re

from instructions import COMPARISONS, LOADS, STORES, Tried, on_memory

# locals: an address that stays, numbers of both kinds, counters of loops, and an address on the stack
LOCALS = "(local i64 i64 i32 i32 i32 i32 i32 i64)"
COUNTERS = ("6", "7", "8")
SIZE = "(i64.const 64)"
FUNCTION = (
    f"{LOCALS} (global.set 0 (local.tee 9 (i64.sub (global.get 0) {SIZE})))"
    f" (memory.fill (local.get 9) (i32.const 7) {SIZE}) {{statement}} {{more}} {{i64}}"
    f" (global.set 0 (i64.add (local.get 9) {SIZE}))"
)
LOOP = (
    "(local.set COUNTER (i32.const 0)) (loop {statement}"
    " (br_if 0 (i32.lt_u (local.tee COUNTER (i32.add (local.get COUNTER) (i32.const 1))) (i32.const {round}))))"
)
EDGES = (0, 1, -1, 2, 7, 31, 32, 63, 64, 127, 128, 255, 256, 4095, 4096, 32767, 65535, 2**31 - 1, -(2**31))
MOST_DEPTH = 4
# a value of the kind K, at any depth: a literal, or a local
VALUES = ["(K.const {K number})", "(local.get {K local})"]
# one that holds others: calculated, divided by a number above 0, chosen, kept in a local, of a block that may be left
# early, read from memory
WHOLE_VALUES = [
    "(K.{plain} {K} {K})",
    "(K.{plain} {K} {K})",
    "(K.{divide} {K} (K.or (K.and {K} (K.const 32767)) (K.const 1)))",
    "(K.{count} {K})",
    "(select {K} {K} {i32})",
    "(local.tee {K local} {K})",
    "(if (result K) {i32} (then {statement} {K}) (else {K}))",
    "(block (result K) (br_if 0 {K} {i32}) (drop) {statement} {K})",
    "(K.{K load} {place})",
    "(K.{K load} offset=@BEGIN (i64.and {i64} (i64.const 7)))",
]
# of one kind alone: compared, of another width, or of a call
OF_KIND = {
    "i32": [
        "(i32.{compare} {i32} {i32})",
        "(i64.{compare} {i64} {i64})",
        "(i32.eqz {i32})",
        "(i64.eqz {i64})",
        "(i32.wrap_i64 {i64})",
        "(i32.wrap_i64 {call})",
    ],
    "i64": ["(i64.extend_i32_s {i32})", "(i64.extend_i32_u {i32})", "(i64.extend32_s {i64})", "{call}"],
}
STATEMENTS = [
    "(local.set {i32 local} {i32})",
    "(local.set {i64 local} {i64})",
    "(i32.{i32 store} {place} {i32})",
    "(i64.{i64 store} {place} {i64})",
]
WHOLE_STATEMENTS = [
    "(if {i32} (then {statement}))",
    "(if {i32} (then {statement}) (else {statement}))",
    "{loop}",
    "(memory.fill {bytes} {i32} {few})",
    "(block (block {statement} (block (br_table {labels} {i32})) {statement}) {statement})",
    "(memory.copy {bytes} (i64.add (local.get {address}) (i64.const {offset})) {few})",
]
RULES = {
    # an address with an offset, within the memory or the stack; bytes of the memory, and how many
    "place": ["offset={offset} (i64.add (local.get {address}) (i64.and {i64} (i64.const 15)))"],
    "bytes": ["(i64.add (local.get 0) {few})"],
    "few": ["(i64.and {i64} (i64.const 15))"],
    "address": ["0", "9"],
    "offset": list("01234567"),
    "round": list("1234"),
    "i64 local": list("123"),
    "i32 local": list("45"),
    "labels": [" ".join(["{label}"] * count) for count in range(1, 6)],
    "label": list("012"),
    "compare": COMPARISONS,
    "plain": "add sub mul and or xor shl shr_s shr_u rotl rotr".split(),
    "divide": "div_s div_u rem_s rem_u".split(),
    "count": "clz ctz popcnt extend8_s extend16_s".split(),
    **{f"{kind} load": LOADS[kind] for kind in LOADS},
    **{f"{kind} store": STORES[kind] for kind in STORES},
}


class Drawing:
    """One function; it may call those that were drawn before it."""

    def __init__(self, draw: random.Random, callees: list[str]) -> None:
        self.draw, self.callees, self.loops = draw, callees, 0

    def filled(self, text: str, depth: int) -> str:
        """A text with what is drawn in the place of what stands in braces."""
        return re.sub("{([^{}]*)}", lambda it: self.drawn(it[1], depth), text)

    def drawn(self, name: str, depth: int) -> str:
        """What stands for a name."""
        if name.endswith(" number"):
            bits = int(name[1:3])
            is_edge = self.draw.random() < 0.6
            return str(self.draw.choice(EDGES) if is_edge else self.draw.getrandbits(bits) >> self.draw.randrange(bits))
        if name == "more":
            return " ".join(self.drawn("statement", depth) for _ in range(self.draw.randrange(1, 5)))
        if name == "loop":
            return self.loop(depth)
        rules = RULES.get(name, [])
        if name == "call":
            rules = [f"(call ${callee} (local.get {{address}}) {{i64}})" for callee in self.callees] or ["{i64}"]
        elif name == "statement":
            rules = STATEMENTS if depth >= MOST_DEPTH else 2 * STATEMENTS + WHOLE_STATEMENTS
        elif name in OF_KIND:
            rules = VALUES if depth >= MOST_DEPTH else VALUES + WHOLE_VALUES + OF_KIND[name]
            rules = [it.replace("K", name) for it in rules]
        return self.filled(self.draw.choice(rules), depth + 1)

    def loop(self, depth: int) -> str:
        """A few rounds, by a counter that no loop around it has."""
        if self.loops == len(COUNTERS):
            return self.filled("{statement}", MOST_DEPTH)
        self.loops += 1
        made = self.filled(LOOP.replace("COUNTER", COUNTERS[self.loops - 1]), depth)
        self.loops -= 1
        return made


def drawn(seed: int, count: int) -> list[Tried]:
    """Returns so many functions."""
    draw = random.Random(seed)
    found: list[Tried] = []
    for at in range(count):
        # only the last few are called, so that no chain of calls grows long
        callees = [it.name for it in found[-3:]] if at % 4 else []
        found.append(on_memory(f"drawn_{at}", Drawing(draw, callees).filled(FUNCTION, 0)))
    return found

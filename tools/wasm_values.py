"""Writes the values of a WebAssembly module's instructions as expressions in C. Their numbers have no sign, and are uint32_t or uint64_t; where an
instruction heeds a sign, the expression turns them into int32_t or int64_t and back."""

from dataclasses import dataclass, replace

from wasm_module import I32, I64

UNSIGNED = {I32: "uint32_t", I64: "uint64_t"}
SIGNED = {I32: "int32_t", I64: "int64_t"}
BITS = {I32: 32, I64: 64}
# in the place of a local's number: the stack pointer
STACK = -1
# the greatest number that is written with decimal digits
MOST_DECIMAL = 4095

CALCULATIONS = tuple("add sub mul div_s div_u rem_s rem_u and or xor shl shr_s shr_u rotl rotr".split())
COMPARISONS = ("eq", "ne", "lt_s", "lt_u", "gt_s", "gt_u", "le_s", "le_u", "ge_s", "ge_u")
COUNTS = ("clz", "ctz", "popcnt")
SHIFTS = ("shl", "shr_s", "shr_u")
SIGNS = {
    "add": "+",
    "sub": "-",
    "mul": "*",
    "and": "&",
    "or": "|",
    "xor": "^",
    "shl": "<<",
    "shr": ">>",
    "div": "/",
    "rem": "%",
}
SIGNS |= {"eq": "==", "ne": "!=", "lt": "<", "gt": ">", "le": "<=", "ge": ">="}
# the codes of the first of each, which the others follow
CALCULATION = {
    first + at: (name, kind) for first, kind in ((0x6A, I32), (0x7C, I64)) for at, name in enumerate(CALCULATIONS)
}
COMPARISON = {
    first + at: (name, kind) for first, kind in ((0x46, I32), (0x51, I64)) for at, name in enumerate(COMPARISONS)
}
COUNT = {first + at: (name, kind) for first, kind in ((0x67, I32), (0x79, I64)) for at, name in enumerate(COUNTS)}
IS_ZERO = {0x45: I32, 0x50: I64}
WRAP, EXTEND_SIGNED, EXTEND_UNSIGNED = 0xA7, 0xAC, 0xAD
# a number of which only the lowest bits count, with their sign: its kind and how many
EXTEND = {0xC0: (I32, 8), 0xC1: (I32, 16), 0xC2: (I64, 8), 0xC3: (I64, 16), 0xC4: (I64, 32)}
# kind, bytes, and whether their sign counts
LOAD = {
    0x28: (I32, 4, False),
    0x29: (I64, 8, False),
    0x2C: (I32, 1, True),
    0x2D: (I32, 1, False),
    0x2E: (I32, 2, True),
    0x2F: (I32, 2, False),
    0x30: (I64, 1, True),
    0x31: (I64, 1, False),
    0x32: (I64, 2, True),
    0x33: (I64, 2, False),
    0x34: (I64, 4, True),
    0x35: (I64, 4, False),
}
STORE = {0x36: (I32, 4), 0x37: (I64, 8), 0x3A: (I32, 1), 0x3B: (I32, 2), 0x3C: (I64, 1), 0x3D: (I64, 2), 0x3E: (I64, 4)}


@dataclass(frozen=True)
class Value:
    """An expression: its text and kind; the locals that it reads, and whether it reads memory, since a change of these changes it; its number if it
    is a literal; its text as a condition if it is one; and how many bytes below the stack pointer that the function was handed, if it is so.
    """

    text: str
    kind: int
    locals: frozenset[int] = frozenset()
    reads_memory: bool = False
    number: int | None = None
    condition: str | None = None
    below: int | None = None

    def test(self) -> str:
        """Returns the condition that it isn't 0."""
        return self.condition or f"{self.text} != 0"

    def is_plain(self) -> bool:
        """Whether nothing changes it."""
        return not self.locals and not self.reads_memory


def literal(number: int, kind: int) -> str:
    """Returns a number as it is written in C."""
    number &= (1 << BITS[kind]) - 1
    return (str(number) if number <= MOST_DECIMAL else hex(number)) + ("u" if kind == I32 else "ull")


def number_of(number: int, kind: int) -> Value:
    """Returns a number."""
    return Value(literal(number, kind), kind, number=number & (1 << BITS[kind]) - 1)


def made_of(text: str, kind: int, *values: Value) -> Value:
    """Returns an expression that others are parts of."""
    return Value(text, kind, frozenset().union(*(it.locals for it in values)), any(it.reads_memory for it in values))


def condition(text: str, *values: Value) -> Value:
    """Returns a condition, which is the number 1 or 0."""
    return replace(made_of(f"(uint32_t)({text})", I32, *values), condition=text)


def calculated(name: str, kind: int, one: Value, other: Value) -> Value:
    """Returns what is calculated of two numbers."""
    word, _, how = name.partition("_")
    plain, sign = (
        f"{one.text} {SIGNS.get(word, '')} {other.text}",
        f"({UNSIGNED[kind]})(({SIGNED[kind]}){one.text} {SIGNS.get(word, '')} ",
    )
    if name in SHIFTS:
        by = f"({other.text} & {BITS[kind] - 1})" if other.number is None else str(other.number % BITS[kind])
        text = f"{sign}{by})" if how == "s" else f"({one.text} {SIGNS[word]} {by})"
    elif word in SIGNS and (how == "" or (how == "u" and other.number)):
        text = f"({plain})"
    else:
        text = f"{name}{BITS[kind]}({one.text}, {other.text})"
    return replace(made_of(text, kind, one, other), below=below(name, one, other))


def below(name: str, one: Value, other: Value) -> int | None:
    """Returns how far below the stack pointer a sum or a difference is, if that is known."""
    if one.below is None or other.number is None or name not in ("add", "sub"):
        return None
    by = other.number - (1 << 64) if other.number >> 63 else other.number
    return one.below - by if name == "add" else one.below + by


def compared(name: str, kind: int, one: Value, other: Value) -> Value:
    """Returns whether two numbers stand in this order."""
    word, _, how = name.partition("_")
    cast = f"({SIGNED[kind]})" if how == "s" else ""
    return condition(f"{cast}{one.text} {SIGNS[word]} {cast}{other.text}", one, other)


def is_zero(one: Value) -> Value:
    """Returns whether a number is 0."""
    return condition(f"!({one.condition})" if one.condition else f"{one.text} == 0", one)


def converted(code: int, one: Value) -> Value:
    """Returns a number that is counted, or of another kind or sign."""
    if code in COUNT:
        name, kind = COUNT[code]
        return made_of(f"{name}{BITS[kind]}({one.text})", kind, one)
    if code == WRAP:
        return replace(
            made_of(f"(uint32_t){one.text}", I32, one), number=None if one.number is None else one.number & 0xFFFFFFFF
        )
    if code == EXTEND_UNSIGNED:
        return made_of(f"(uint64_t){one.text}", I64, one)
    if code == EXTEND_SIGNED:
        return made_of(f"(uint64_t)(int64_t)(int32_t){one.text}", I64, one)
    kind, bits = EXTEND[code]
    return made_of(f"({UNSIGNED[kind]})({SIGNED[kind]})(int{bits}_t){one.text}", kind, one)


CONVERSIONS = {*COUNT, *EXTEND, WRAP, EXTEND_SIGNED, EXTEND_UNSIGNED}


def chosen(test: Value, one: Value, other: Value) -> Value:
    """Returns one value or the other."""
    return made_of(f"({test.test()} ? {one.text} : {other.text})", one.kind, test, one, other)


def loaded(code: int, at: Value) -> Value:
    """Returns what stands at an address."""
    kind, size, is_signed = LOAD[code]
    text = f"load{size}({at.text})"
    if is_signed:
        text = f"({UNSIGNED[kind]})({SIGNED[kind]})(int{8 * size}_t){text}"
    elif kind == I64 and size < 8:
        text = f"(uint64_t){text}"
    return replace(made_of(text, kind, at), reads_memory=True)


def stored(code: int, at: Value, value: Value) -> str:
    """Returns the statement that writes a value to an address."""
    kind, size = STORE[code]
    text = f"(uint32_t){value.text}" if kind == I64 and size < 8 else value.text
    return f"store{size}({at.text}, {text});"

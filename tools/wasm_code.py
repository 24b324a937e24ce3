"""Reads the code of a function of a WebAssembly module as a list of instructions, beside that of the same module with its constants elsewhere:
the number of an instruction that differs there, by exactly as much as the constants are moved, is the address of a constant."""

from dataclasses import dataclass

from wasm_module import KINDS, Reader, Refused

UNREACHABLE, NOP, BLOCK, LOOP, IF, ELSE, END = 0x00, 0x01, 0x02, 0x03, 0x04, 0x05, 0x0B
BRANCH, BRANCH_IF, BRANCH_TABLE, RETURN, CALL = 0x0C, 0x0D, 0x0E, 0x0F, 0x10
DROP, SELECT = 0x1A, 0x1B
LOCAL_GET, LOCAL_SET, LOCAL_TEE, GLOBAL_GET, GLOBAL_SET = 0x20, 0x21, 0x22, 0x23, 0x24
I32_CONSTANT, I64_CONSTANT = 0x41, 0x42
# the instructions after this byte have a number of their own
BULK = 0xFC
COPY, FILL = 0xFC0A, 0xFC0B
NO_RESULT = 0x40
# a bit beside the alignment of an access says that a memory is named
NAMES_MEMORY = 0x40

BARE = {
    UNREACHABLE,
    NOP,
    ELSE,
    END,
    RETURN,
    DROP,
    SELECT,
    *range(0x45, 0x5B),
    *range(0x67, 0x8B),
    0xA7,
    0xAC,
    0xAD,
    *range(0xC0, 0xC5),
}
ONE_NUMBER = {BRANCH, BRANCH_IF, CALL, LOCAL_GET, LOCAL_SET, LOCAL_TEE, GLOBAL_GET, GLOBAL_SET}
OPENING = {BLOCK, LOOP, IF}
LOADS_AND_STORES = {0x28, 0x29, *range(0x2C, 0x38), *range(0x3A, 0x3F)}
# what others than the kit's compiler make use of
NAMES_OF_REFUSED = {
    **{code: "an exception" for code in (0x06, 0x07, 0x08, 0x09, 0x0A, 0x18, 0x19, 0x1F)},
    0x11: "a call by a table",
    **{code: "a call in the place of the caller" for code in (0x12, 0x13, 0x14, 0x15)},
    0x1C: "a choice between references",
    **{code: "a table" for code in (0x25, 0x26)},
    **{
        code: "a number with a fraction"
        for code in (0x2A, 0x2B, 0x38, 0x39, 0x43, 0x44, *range(0x5B, 0x67), *range(0x8B, 0xA7))
    },
    **{code: "a number with a fraction" for code in (*range(0xA8, 0xAC), *range(0xAE, 0xC0), *range(0xFC00, 0xFC08))},
    0x3F: "the size of a memory of its own",
    0x40: "a memory that grows",
    **{code: "a reference" for code in range(0xD0, 0xD7)},
    **{code: "constants that are copied or dropped" for code in (0xFC08, 0xFC09)},
    **{code: "a table" for code in range(0xFC0C, 0xFC12)},
    0xFD: "a vector",
    0xFE: "memory that threads share",
}


@dataclass(frozen=True)
class Instruction:
    """An instruction: its code, its numbers, and whether the last of these is the address of a constant."""

    code: int
    numbers: tuple[int, ...] = ()
    is_address: bool = False


@dataclass(frozen=True)
class Code:
    """The code of a function: the kinds of its locals after the parameters, and its instructions."""

    locals: tuple[int, ...]
    instructions: tuple[Instruction, ...]

    def calls(self) -> set[int]:
        """Returns the functions that it calls."""
        return {it.numbers[0] for it in self.instructions if it.code == CALL}

    def uses_stack(self) -> bool:
        """Whether it reads or moves the stack pointer."""
        return any(it.code in (GLOBAL_GET, GLOBAL_SET) for it in self.instructions)


class Beside:
    """One body that is read beside the other module's."""

    def __init__(self, one: Reader, other: Reader, moved: int) -> None:
        # readers of their own, since a body may be read again
        self.one, self.other = (Reader(it.data, it.at, it.end) for it in (one, other))
        self.moved = moved

    def is_at_end(self) -> bool:
        """Whether all is read."""
        return self.one.at == self.one.end

    def byte(self) -> int:
        """Returns a byte, the same in both."""
        return self.same(self.one.byte(), self.other.byte())

    def unsigned(self) -> int:
        """Returns a number, the same in both."""
        return self.same(self.one.unsigned(), self.other.unsigned())

    @staticmethod
    def same(one: int, other: int) -> int:
        """Returns what is the same in both."""
        if one != other:
            raise Refused("two modules that differ in more than the addresses of constants")
        return one

    def address_or_number(self, one: int, other: int) -> tuple[int, bool]:
        """Returns a number of the first module, and whether it is the address of a constant."""
        if other - one not in (0, self.moved):
            raise Refused("a number that isn't moved as the constants are")
        return one, one != other


def code_of(one: Reader, other: Reader, moved: int) -> Code:
    """Returns the code of a body, beside the same one of the module whose constants are moved by so much."""
    body = Beside(one, other, moved)
    kinds: list[int] = []
    for _ in range(body.unsigned()):
        count, kind = body.unsigned(), body.byte()
        if kind not in KINDS:
            raise Refused("a local that is no whole number")
        kinds += [kind] * count
    instructions = []
    while not body.is_at_end():
        instructions.append(instruction(body))
    return Code(tuple(kinds), tuple(instructions))


def instruction(body: Beside) -> Instruction:
    """Reads one instruction."""
    code = body.byte()
    if code == BULK:
        code = code << 8 | body.unsigned()
    if code in BARE:
        return Instruction(code)
    if code in ONE_NUMBER:
        return Instruction(code, (body.unsigned(),))
    if code in LOADS_AND_STORES:
        if body.unsigned() & NAMES_MEMORY:
            raise Refused("many memories")
        offset, is_address = body.address_or_number(body.one.unsigned(), body.other.unsigned())
        return Instruction(code, (offset,), is_address)
    if code in (I32_CONSTANT, I64_CONSTANT):
        number, is_address = body.address_or_number(body.one.signed(), body.other.signed())
        if is_address and code == I32_CONSTANT:
            raise Refused("an address of 32 bits")
        return Instruction(code, (number,), is_address)
    if code in OPENING:
        return Instruction(code, (block_kind(body),))
    if code == BRANCH_TABLE:
        return Instruction(code, tuple(body.unsigned() for _ in range(body.unsigned() + 1)))
    if code in (COPY, FILL):
        for _ in range(2 if code == COPY else 1):
            if body.byte() != 0:
                raise Refused("many memories")
        return Instruction(code)
    raise Refused(f"{NAMES_OF_REFUSED.get(code, 'what no module of the kit has')}: the instruction {code:#x}")


def block_kind(body: Beside) -> int:
    """Returns the kind of a block's result, or NO_RESULT."""
    kind = body.byte()
    if kind != NO_RESULT and kind not in KINDS:
        raise Refused("a block of other than one whole number")
    return kind

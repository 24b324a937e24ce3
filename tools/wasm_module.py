"""Reads a WebAssembly module as the kit's linker writes it: what its sections say. It refuses what no such module has, by name."""

from collections.abc import Callable
from dataclasses import dataclass

I32, I64 = 0x7F, 0x7E
KINDS = (I32, I64)
MAGIC = b"\0asm\1\0\0\0"
CONSTANT_OF = {0x41: I32, 0x42: I64}
END = 0x0B
FUNCTION_TYPE = 0x60
# the kinds of what is imported or exported
FUNCTION = 0
# the part of a custom section `name` with the names of functions
NAMES_OF_FUNCTIONS = 1
# what the flags of a memory say
ADDRESSES_OF_64_BITS = 4


class Refused(Exception):
    """What a module has that can't be written in C by these tools."""


class Reader:
    """Bytes that are read from the front, up to an end."""

    def __init__(self, data: bytes, at: int = 0, end: int | None = None) -> None:
        self.data, self.at, self.end = data, at, len(data) if end is None else end
        if self.end > len(data):
            raise Refused("a module that is cut off")

    def byte(self) -> int:
        """Returns the next byte."""
        return self.bytes(1)[0]

    def bytes(self, count: int) -> bytes:
        """Returns so many bytes."""
        self.at += count
        if self.at > self.end:
            raise Refused("a module that is cut off")
        return self.data[self.at - count : self.at]

    def part(self) -> "Reader":
        """Returns a reader of the bytes that a length stands before, and goes on after them."""
        size = self.unsigned()
        begin = self.at
        self.at += size
        return Reader(self.data, begin, begin + size)

    def unsigned(self) -> int:
        """Returns a number of seven bits a byte."""
        return self.sevens()[0]

    def signed(self) -> int:
        """Returns such a number, of which the highest bit is the sign."""
        number, bits = self.sevens()
        return number - (1 << bits) if number >> (bits - 1) else number

    def sevens(self) -> tuple[int, int]:
        """Returns such a number and how many bits are written."""
        number, bits = 0, 0
        while True:
            byte = self.byte()
            number |= (byte & 0x7F) << bits
            bits += 7
            if byte < 0x80:
                return number, bits

    def name(self) -> str:
        """Returns a text."""
        return self.bytes(self.unsigned()).decode()


@dataclass(frozen=True)
class FunctionType:
    """What a function takes and returns."""

    params: tuple[int, ...]
    result: int | None


@dataclass(frozen=True)
class Global:
    """A global variable, or a constant."""

    kind: int
    is_mutable: bool
    value: int


@dataclass(frozen=True)
class Segment:
    """Bytes of the memory as the module begins."""

    at: int
    data: bytes


class Module:
    """What the sections of a module say."""

    def __init__(self, data: bytes) -> None:
        if data[: len(MAGIC)] != MAGIC:
            raise Refused("a file that is no WebAssembly module")
        self.types: list[FunctionType] = []
        self.functions: list[int] = []
        self.globals: list[Global] = []
        self.exports: dict[str, int] = {}
        self.bodies: list[Reader] = []
        self.segments: list[Segment] = []
        self.names: dict[int, str] = {}
        reader = Reader(data, len(MAGIC))
        while reader.at < reader.end:
            self.section(reader.byte(), reader.part())

    def section(self, number: int, part: Reader) -> None:
        """Reads one section. Those of tables, elements and counts say nothing here: no function is called by a table."""
        readers: dict[int, Callable[[Reader], None]] = {
            0: self.read_custom,
            1: self.read_types,
            2: self.refuse_imports,
            3: self.read_functions,
            5: self.check_memory,
            6: self.read_globals,
            7: self.read_exports,
            8: self.refuse_start,
            10: self.read_bodies,
            11: self.read_segments,
        }
        if number in readers:
            readers[number](part)

    def read_types(self, part: Reader) -> None:
        """The types of functions."""
        for _ in range(part.unsigned()):
            if part.byte() != FUNCTION_TYPE:
                raise Refused("a type that is no function's")
            params, results = (tuple(part.byte() for _ in range(part.unsigned())) for _ in range(2))
            if not set(params + results) <= set(KINDS):
                raise Refused("a function on other than whole numbers")
            if len(results) > 1:
                raise Refused("a function with many results")
            self.types.append(FunctionType(params, results[0] if results else None))

    @staticmethod
    def refuse_imports(part: Reader) -> None:
        """Nobody is there to be asked."""
        if part.unsigned():
            raise Refused(f"an import: {part.name()}.{part.name()}")

    def read_functions(self, part: Reader) -> None:
        """The type of each function."""
        self.functions = [part.unsigned() for _ in range(part.unsigned())]

    @staticmethod
    def check_memory(part: Reader) -> None:
        """Addresses have 64 bits, as those of a process may."""
        if part.unsigned() != 1:
            raise Refused("many memories")
        if not part.byte() & ADDRESSES_OF_64_BITS:
            raise Refused("a memory with addresses of 32 bits")

    def read_globals(self, part: Reader) -> None:
        """The globals, with what each begins with."""
        for _ in range(part.unsigned()):
            kind, is_mutable = part.byte(), part.byte() != 0
            self.globals.append(Global(kind, is_mutable, self.constant(part)))

    def read_exports(self, part: Reader) -> None:
        """The functions that others may call."""
        for _ in range(part.unsigned()):
            name, kind, index = part.name(), part.byte(), part.unsigned()
            if kind == FUNCTION:
                self.exports[name] = index

    @staticmethod
    def refuse_start(_part: Reader) -> None:
        """Nothing runs before a call."""
        raise Refused("a start function")

    def read_bodies(self, part: Reader) -> None:
        """The code of each function."""
        self.bodies = [part.part() for _ in range(part.unsigned())]

    def read_segments(self, part: Reader) -> None:
        """The constants."""
        for _ in range(part.unsigned()):
            if part.unsigned() != 0:
                raise Refused("data without a place of its own")
            at = self.constant(part)
            self.segments.append(Segment(at, part.bytes(part.unsigned())))

    def read_custom(self, part: Reader) -> None:
        """The names of functions, if they are there."""
        if part.name() != "name":
            return
        while part.at < part.end:
            kind, names = part.byte(), part.part()
            if kind == NAMES_OF_FUNCTIONS:
                self.names = {names.unsigned(): names.name() for _ in range(names.unsigned())}

    @staticmethod
    def constant(part: Reader) -> int:
        """Returns a number that stands as an expression."""
        if part.byte() not in CONSTANT_OF:
            raise Refused("a first value that is no number")
        value = part.signed()
        if part.byte() != END:
            raise Refused("a first value that is no number")
        return value

    def type_of(self, index: int) -> FunctionType:
        """Returns the type of a function."""
        return self.types[self.functions[index]]

    def title(self, index: int) -> str:
        """Returns what a function is called."""
        return self.names.get(index, f"function {index}")

    def constants_begin(self) -> int:
        """Returns the first address of a constant."""
        return min((segment.at for segment in self.segments), default=0)

    def constants(self) -> bytes:
        """Returns the constants in one piece."""
        begin = self.constants_begin()
        data = bytearray(max((segment.at + len(segment.data) for segment in self.segments), default=begin) - begin)
        for segment in self.segments:
            data[segment.at - begin : segment.at - begin + len(segment.data)] = segment.data
        return bytes(data)

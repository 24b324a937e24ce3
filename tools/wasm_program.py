"""Writes a WebAssembly module as functions in C over the caller's own memory: an address of the module is an address of the process.

The module is the same one, linked twice, with its constants at two places (`Program`). Two kinds of addresses are the module's own. Its stack is
handed to each function: an exported one, `w_NAME` in C, takes the end of as many bytes as `STACK_OF_NAME` says. Its constants are an array in C, and a
number that the second module has greater by as much as the constants are moved is the address of one.

It refuses, with a name, what the kit's modules don't have (`wasm_module`, `wasm_code`), and code whose use of the stack isn't known."""

import re
from pathlib import Path

from wasm_code import Code, code_of
from wasm_functions import Function
from wasm_module import FunctionType, Module, Refused

PORTABLE = Path(__file__).resolve().parent.parent / "portable"
# The kit has each export make its call between two of a guard, by which an instance has one call at a time. Here each call has a stack of its
# own, which is all that an instance has, so what the guard lets through is called: it has this before its name.
BEHIND_GUARD = "rattle::export "
ALIGNMENT = 16
WORD = 8


class Program:
    """The functions that a module's exports reach. `levels` says how deep those go that call themselves, each by the last part of its name."""

    def __init__(self, module: Module, other: Module, levels: dict[str, int]) -> None:
        self.module, self.levels = module, levels
        self.begin = module.constants_begin()
        self.other = other
        self.moved = self.moved_by()
        self.exports = self.exported()
        self.codes = self.reached()
        self.on_stack = self.those_on_stack()
        self.functions = {index: self.written(index) for index in sorted(self.codes)}

    def moved_by(self) -> int:
        """Returns by how much the constants are moved: by as much as the end of the stack, which the first global says."""
        one, other = self.module, self.other
        if not one.globals or not other.globals or not one.globals[0].is_mutable:
            raise Refused("a first global that is no stack pointer")
        moved = other.globals[0].value - one.globals[0].value
        if moved == 0 or (one.segments and other.constants_begin() - self.begin != moved):
            raise Refused("constants that aren't moved as the stack is")
        if (one.types, one.functions, one.exports) != (other.types, other.functions, other.exports):
            raise Refused("two modules that differ in more than the addresses of constants")
        return moved

    def exported(self) -> dict[int, str]:
        """Returns the functions that C calls, with their names."""
        behind = {
            index: name.removeprefix(BEHIND_GUARD)
            for index, name in self.module.names.items()
            if name.startswith(BEHIND_GUARD)
        }
        if behind and set(behind.values()) != set(self.module.exports):
            raise Refused("an export without a function behind its guard")
        return behind or {index: name for name, index in self.module.exports.items()}

    def reached(self) -> dict[int, Code]:
        """Returns the code of each function that an export reaches."""
        found: dict[int, Code] = {}
        rest = list(self.exports)
        while rest:
            index = rest.pop()
            if index not in found:
                found[index] = self.code(index)
                rest += found[index].calls()
        return found

    def code(self, index: int) -> Code:
        """Returns the code of one function."""
        try:
            return code_of(self.module.bodies[index], self.other.bodies[index], self.moved)
        except Refused as refused:
            raise Refused(f"{self.module.title(index)}: {refused}") from None

    def written(self, index: int) -> Function:
        """Returns one function as it is written."""
        try:
            return Function(self, index, self.codes[index])
        except Refused as refused:
            raise Refused(f"{self.module.title(index)}: {refused}") from None

    def those_on_stack(self) -> set[int]:
        """Returns the functions that are handed the stack pointer: the exports, those that use it, and their callers."""
        found = {index for index, code in self.codes.items() if index in self.exports or code.uses_stack()}
        before = 0
        while len(found) > before:
            before = len(found)
            found |= {index for index, code in self.codes.items() if code.calls() & found}
        return found

    # --- what a function is told of the others ---

    def type_of(self, index: int) -> FunctionType:
        """Returns the type of a function."""
        return self.module.type_of(index)

    def name(self, index: int) -> str:
        """Returns a function's name in C."""
        return f"w_{self.exports[index]}" if index in self.exports else f"f{index}"

    def needs_stack(self, index: int) -> bool:
        """Whether a function is handed the stack pointer."""
        return index in self.on_stack

    def constant(self, address: int) -> str:
        """Returns the address of a constant as it is written in C."""
        return f"CONSTANT({address - self.begin}u)"

    # --- the stack ---

    def below(self, index: int) -> set[int]:
        """Returns the functions that a function reaches."""
        found: set[int] = set()
        rest = list(self.codes[index].calls())
        while rest:
            callee = rest.pop()
            if callee not in found:
                found.add(callee)
                rest += self.codes[callee].calls()
        return found

    def depths(self) -> dict[str, int]:
        """Returns how many bytes of the stack each export takes with those below it."""
        below = {index: self.below(index) for index in self.codes}
        known: dict[int, int] = {}
        # those that reach fewer come first, and of as many those that reach themselves: so what a function calls is known before it, but for those
        # that call one another
        for index in sorted(self.codes, key=lambda it: (len(below[it]), it not in below[it])):
            circle = {it for it in below[index] if index in below[it]} or {index}
            most = max(
                (known[it] for member in circle for it in self.codes[member].calls() if it not in circle), default=0
            )
            known[index] = most + sum(self.functions[it].frame for it in circle) * (
                self.level(circle) if index in below[index] else 1
            )
        return {name: known[index] for index, name in self.exports.items()}

    def level(self, circle: set[int]) -> int:
        """Returns how deep functions go that call one another."""
        names = {re.sub(r"::<.*", "", self.module.title(index)).split("::")[-1] for index in circle}
        unknown = names - set(self.levels)
        if unknown:
            raise Refused(f"functions that call themselves, no one knows how deep: {', '.join(sorted(unknown))}")
        return max(self.levels[name] for name in names)

    # --- the text ---

    def constants(self) -> str:
        """Returns the array of the constants. The address of one among them is written as such."""
        data, moved = self.module.constants(), self.other.constants()
        if len(data) != len(moved):
            raise Refused("two modules that differ in more than the addresses of constants")
        data, moved = (it + bytes(-len(it) % WORD) for it in (data, moved))
        words = [
            self.word(data[at : at + WORD], moved[at : at + WORD], len(data)) for at in range(0, len(data), WORD)
        ] or ["{{0}}"]
        lines = [f"  {', '.join(words[at : at + 4])}," for at in range(0, len(words), 4)]
        return "\n".join([f"static _Alignas(16) const union word constants[{len(words)}] = {{", *lines, "};", ""])

    def word(self, one: bytes, other: bytes, size: int) -> str:
        """Returns eight bytes of the constants."""
        if one == other:
            return "{{" + ",".join(str(byte) for byte in one) + "}}"
        at, moved = (int.from_bytes(it, "little") for it in (one, other))
        if moved - at != self.moved or not self.begin <= at <= self.begin + size:
            raise Refused("constants that aren't moved as they should be")
        return f"POINTER({at - self.begin})"

    def text(self, calls: str = "") -> str:
        """Returns the functions, with the memory and the numbers that they and the calls after them are made of."""
        lines = [f"{function.head()};" for function in self.functions.values()] + [""]
        for index, function in self.functions.items():
            name = self.module.names.get(index, "")
            lines += [f"/* {name} */"] if name and "*/" not in name else []
            lines += function.text()
        sizes = [
            f"#define STACK_OF_{name} {max(ALIGNMENT, size + -size % ALIGNMENT)}"
            for name, size in sorted(self.depths().items())
        ]
        functions = "\n".join(lines + sizes) + "\n"
        memory, numbers = (
            with_used((PORTABLE / name).read_text(encoding="utf-8"), functions + calls)
            for name in ("memory.h", "numbers.h")
        )
        addresses = (PORTABLE / "addresses.h").read_text(encoding="utf-8")
        return "\n".join([addresses, self.constants(), memory, numbers, functions, calls])


def with_used(helpers: str, text: str) -> str:
    """Returns the paragraphs of a header but those with a function that a text doesn't call."""
    kept = []
    for paragraph in re.split(r"\n\n", helpers):
        defined = re.findall(r"^static inline \w+ \*?(\w+)\(", paragraph, re.MULTILINE)
        if not defined or any(re.search(rf"\b{name}\(", text) for name in defined):
            kept.append(paragraph)
    return "\n\n".join(kept)

"""Writes the calls of a C header over the functions of a WebAssembly module of the same names, as tools/wasm_program.py makes them: each call has a
stack of its own, hands its parameters over in their order, and reads the struct that it returns from where the module wrote it.

The header declares what both are: so a call that the module has too needs no line of its own. Those that differ there are written by hand."""

import re
from dataclasses import dataclass

from wasm_module import I32, I64, FunctionType, Refused
from wasm_program import ALIGNMENT

# the bytes of a field as the module has it, and what it is there
SIZES = {"bool": 1, "uint8_t": 1, "uint16_t": 2, "uint32_t": 4, "uint64_t": 8, "size_t": 8}
STRUCT = re.compile(r"typedef struct (\w+) \{(.*?)\} \1;", re.DOTALL)
FIELD = re.compile(r"(\w+) (\w+)(?:\[(\d+)\])?;")
DECLARED = re.compile(r"^(\w+) (nissy_\w+)\(([^)]*)\);", re.MULTILINE)
DEFINED = re.compile(r"^\w[\w ]* \*?(nissy_\w+)\(", re.MULTILINE)
WIDTHS = {1: I32, 2: I32, 4: I32, 8: I64}


@dataclass(frozen=True)
class Field:
    """A field of a struct: its type, its name, how many there are if it is an array, and where it stands in the module's."""

    kind: str
    name: str
    count: int | None
    at: int


class Header:
    """The structs and the calls of a header."""

    def __init__(self, text: str) -> None:
        text = re.sub(r"/\*.*?\*/", "", text, flags=re.DOTALL)
        self.structs: dict[str, list[Field]] = {}
        for name, body in STRUCT.findall(text):
            if "*" not in body:
                self.structs[name] = self.fields(body)
        self.calls = {
            name: (result, [" ".join(it.split()) for it in words.split(",")])
            for result, name, words in DECLARED.findall(text)
        }
        unread = set(re.findall(r"\b(nissy_\w+)\(", text)) - set(self.calls)
        if unread:
            raise Refused(f"calls that aren't declared in one form with the others: {', '.join(sorted(unread))}")

    def fields(self, body: str) -> list[Field]:
        """Returns the fields of a struct, each at the next place that its size divides, as both the module and C on 64 bits have them."""
        unread = FIELD.sub("", body).strip()
        if unread:
            raise Refused(f"a field of another form: {unread}")
        found: list[Field] = []
        at = 0
        for kind, name, count in FIELD.findall(body):
            at += -at % self.alignment(kind)
            found.append(Field(kind, name, int(count) if count else None, at))
            at += self.size(kind) * int(count or 1)
        return found

    def alignment(self, kind: str) -> int:
        """Returns what divides the place of a field of this type."""
        if kind in self.structs:
            return max(self.alignment(field.kind) for field in self.structs[kind])
        if kind not in SIZES:
            raise Refused(f"a field of the type {kind}")
        return SIZES[kind]

    def size(self, kind: str) -> int:
        """Returns the bytes of a type."""
        if kind not in self.structs:
            return SIZES[kind]
        end = max(field.at + self.size(field.kind) * (field.count or 1) for field in self.structs[kind])
        return end + -end % self.alignment(kind)

    # --- what is returned ---

    def read(self, kind: str, at: str) -> str:
        """Returns the expression for a number at an address."""
        if kind in self.structs:
            return f"{kind}_at({at})"
        size = self.size(kind)
        if kind == "bool":
            return f"load1({at}) != 0"
        return f"load{size}({at})" if kind in ("uint32_t", "uint64_t") else f"({kind})load{size}({at})"

    def reader(self, name: str) -> list[str]:
        """Returns the function that reads a struct where the module wrote it."""
        lines = [f"static {name} {name}_at(uint64_t at) {{", f"    {name} said;"]
        for field in self.structs[name]:
            for index in range(field.count or 1):
                place = field.at + index * self.size(field.kind)
                to = field.name if field.count is None else f"{field.name}[{index}]"
                lines.append(f"    said.{to} = {self.read(field.kind, f'at + {place}' if place else 'at')};")
        return [*lines, "    return said;", "}", ""]

    def readers(self, names: list[str]) -> list[str]:
        """Returns such functions for these structs and those within them, each once."""
        wanted = list(names)
        for name in wanted:
            wanted += [field.kind for field in self.structs[name] if field.kind in self.structs]
        return [line for name in self.structs if name in wanted for line in self.reader(name)]

    # --- calls ---

    def handed(self, name: str, word: str) -> tuple[int, str]:
        """Returns how the module takes a parameter: its kind, and the expression for it."""
        if word == "const nissy_tables *tables":
            return I64, "held_of(tables)"
        of = re.fullmatch(r"(?:const )?(\w+) \*(\w+)", word)
        if of and (of[1] == "uint8_t" or word in self.filled(name)):
            return I64, f"address({of[2]})"
        kind, _, parameter = word.partition(" ")
        if kind not in SIZES:
            raise Refused(f"{name} takes {word}: such a call is written by hand, in portable/calls.c")
        return WIDTHS[SIZES[kind]], parameter

    def filled(self, name: str) -> dict[str, tuple[str, str]]:
        """Returns the parameters of a call that are arrays of structs, each with its type and name: the call fills as many as the field `lines` of what it
        returns says."""
        result, words = self.calls[name]
        if not any(field.name == "lines" for field in self.structs.get(result, [])):
            return {}
        of = {word: re.fullmatch(r"(\w+) \*(\w+)", word) for word in words}
        return {word: (it[1], it[2]) for word, it in of.items() if it and it[1] in self.structs}

    def read_again(self, kind: str, name: str) -> list[str]:
        """Returns the statements that give an array that the module filled the form that it has in C."""
        same = (
            f'    _Static_assert(sizeof({kind}) == {self.size(kind)}, "{kind} has the size that it has in the engine");'
        )
        return [
            same,
            f"    for (uint64_t at = 0; at < said.lines; at += 1) {name}[at] = {kind}_at(address({name} + at));",
        ]

    def call(self, name: str, of: FunctionType) -> list[str]:
        """Returns a call over the module's function, which has this type."""
        result, words = self.calls[name]
        is_struct = result in self.structs
        handed = [self.handed(name, word) for word in words if word != "void"]
        params = tuple([I64] * is_struct + [kind for kind, _ in handed])
        if of != FunctionType(params, None if is_struct else WIDTHS[SIZES[result]]):
            raise Refused(f"{name} has not the same parameters in the header and in the module")
        taken = ["STACK_END"] + ["address(answer)"] * is_struct + [text for _, text in handed]
        lines = [f"{result} {name}({', '.join(words)}) {{", f"    STACK(STACK_OF_{name});"]
        said = f"w_{name}({', '.join(taken)})"
        if not is_struct:
            return [*lines, f"    return ({result}){said};", "}", ""]
        lines.append(f"    _Alignas({ALIGNMENT}) unsigned char answer[{self.size(result)}];")
        again = [line for kind, parameter in self.filled(name).values() for line in self.read_again(kind, parameter)]
        if not again:
            return [*lines, f"    {said};", f"    return {result}_at(address(answer));", "}", ""]
        return [
            *lines,
            f"    {said};",
            f"    {result} said = {result}_at(address(answer));",
            *again,
            "    return said;",
            "}",
            "",
        ]


def calls(header: str, by_hand: str, types: dict[str, FunctionType]) -> str:
    """Returns the calls of a header over the functions of a module, with those that are written by hand; these may call the functions that read structs,
    which come first."""
    of, defined = Header(header), set(DEFINED.findall(by_hand))
    made = [name for name in of.calls if name not in defined]
    missing = [name for name in made if name not in types]
    if missing:
        raise Refused(f"calls of the header that the module hasn't: {', '.join(missing)}")
    returned = [of.calls[name][0] for name in made] + [name for name in of.structs if f"{name}_at(" in by_hand]
    returned += [kind for name in made for kind, _ in of.filled(name).values()]
    readers = of.readers([name for name in returned if name in of.structs])
    return (
        "\n".join(
            [
                "/* --- answers, where the engine wrote them --- */",
                "",
                *readers,
                by_hand,
                *(line for name in made for line in of.call(name, types[name])),
            ]
        ).rstrip("\n")
        + "\n"
    )

"""Writes the functions of a WebAssembly module in C. A local is `l` with its number, a value that must stay as it is `t`, the result of a block `r`,
the end of a block or the beginning of a loop a label `L`; the stack pointer, which a function is handed if it or a callee needs one, is `sp`."""

import re
from collections.abc import Callable
from dataclasses import dataclass
from typing import Protocol

import wasm_code as code
from wasm_code import Code, Instruction
from wasm_module import I32, I64, FunctionType, Refused
from wasm_values import CALCULATION, COMPARISON, CONVERSIONS, IS_ZERO, LOAD, STACK, STORE, UNSIGNED, Value
from wasm_values import calculated, chosen, compared, converted, is_zero, literal, loaded, made_of, number_of, stored

LABEL = re.compile(r" *(L\d+):;")


class Program(Protocol):
    """What a function is told of the others."""

    def type_of(self, index: int) -> FunctionType:
        """Returns the type of a function."""

    def name(self, index: int) -> str:
        """Returns a function's name in C."""

    def needs_stack(self, index: int) -> bool:
        """Whether a function is handed the stack pointer."""

    def constant(self, address: int) -> str:
        """Returns the address of a constant as it is written in C."""


@dataclass
class Label:
    """A block that may be left, or a loop that may be begun again; `height` values stand below it."""

    kind: int
    number: int
    result: int | None
    height: int


class Function:
    """One function. `frame` is how many bytes of the stack it takes."""

    def __init__(self, program: Program, index: int, body: Code) -> None:
        self.program, self.index, self.body = program, index, body
        self.type = program.type_of(index)
        self.kinds = self.type.params + body.locals
        self.lines: list[str] = []
        self.stack: list[Value] = []
        self.labels = [Label(code.BLOCK, 0, None, 0)]
        self.used: set[int] = set()
        self.jumps: set[str] = set()
        # how far below the stack pointer that came a local is, and whether the pointer was moved
        self.below: dict[int, int] = {}
        self.frame, self.numbers, self.is_moved = 0, 0, False
        # whether what follows can't be reached, and how many blocks opened there
        self.is_dead, self.dead_blocks = False, 0
        for instruction in body.instructions:
            self.write(instruction)

    def head(self) -> str:
        """Returns the function's first line, without a brace or a semicolon."""
        words = ["uint64_t sp"] if self.program.needs_stack(self.index) else []
        words += [f"{UNSIGNED[kind]} l{at}" for at, kind in enumerate(self.type.params)]
        result = "void" if self.type.result is None else UNSIGNED[self.type.result]
        return f"static {result} {self.program.name(self.index)}({', '.join(words) or 'void'})"

    def text(self) -> list[str]:
        """Returns the lines of the whole function."""
        count = len(self.type.params)
        lines = [f"{self.head()} {{"]
        lines += [f"  {UNSIGNED[self.kinds[at]]} l{at} = 0;" for at in sorted(self.used) if at >= count]
        lines += [f"  (void)l{at};" for at in range(count) if at not in self.used]
        if self.program.needs_stack(self.index) and not any(re.search(r"\bsp\b", line) for line in self.lines):
            lines.append("  (void)sp;")
        return (
            lines
            + [line for line in self.lines if not (label := LABEL.fullmatch(line)) or label[1] in self.jumps]
            + ["}", ""]
        )

    # --- lines and values ---

    def say(self, text: str, levels_out: int = 0) -> None:
        """Writes a line."""
        self.lines.append("  " * (len(self.labels) - levels_out) + text)

    def new(self) -> int:
        """Returns a number that no other name here has."""
        self.numbers += 1
        return self.numbers

    def push(self, value: Value) -> None:
        """Puts a value on the stack of values."""
        self.stack.append(value)

    def pop(self) -> Value:
        """Takes the last value from it."""
        if len(self.stack) <= self.labels[-1].height:
            raise Refused("a value that is taken and isn't there")
        return self.stack.pop()

    def keep(self, changes: Callable[[Value], bool]) -> None:
        """Gives a name to each value that what comes now changes. One that nothing changes keeps its text: a name given within a block would be
        unknown after it."""
        for at, value in enumerate(self.stack):
            if not value.is_plain() and changes(value):
                name = f"t{self.new()}"
                self.say(f"const {UNSIGNED[value.kind]} {name} = {value.text};")
                self.stack[at] = Value(name, value.kind)

    def keep_all(self) -> None:
        """Gives a name to each value that anything changes."""
        self.keep(lambda value: True)

    def keep_loads(self) -> None:
        """Gives a name to each value that reads memory, before memory changes."""
        self.keep(lambda value: value.reads_memory)

    # --- instructions ---

    def write(self, it: Instruction) -> None:
        """Writes one instruction."""
        if not self.labels:
            raise Refused("instructions after the end")
        if self.is_dead and not self.ends_dead(it):
            return
        if it.code in WRITERS:
            WRITERS[it.code](self, it)
        elif it.code in CALCULATION or it.code in COMPARISON:
            other, one = self.pop(), self.pop()
            made = (
                calculated(*CALCULATION[it.code], one, other)
                if it.code in CALCULATION
                else compared(*COMPARISON[it.code], one, other)
            )
            # one that calls no other writes below the stack pointer without moving it
            self.frame = max(self.frame, made.below or 0)
            self.push(made)
        elif it.code in CONVERSIONS:
            self.push(converted(it.code, self.pop()))
        elif it.code in IS_ZERO:
            self.push(is_zero(self.pop()))
        elif it.code in LOAD:
            self.push(loaded(it.code, self.address(it)))
        elif it.code in STORE:
            self.store(it)

    def ends_dead(self, it: Instruction) -> bool:
        """Goes over what can't be reached, and returns whether an instruction ends that."""
        if it.code in code.OPENING:
            self.dead_blocks += 1
        elif self.dead_blocks:
            self.dead_blocks -= it.code == code.END
        else:
            return it.code in (code.ELSE, code.END)
        return False

    def constant(self, it: Instruction) -> None:
        """A number, or the address of a constant."""
        if it.is_address:
            self.push(Value(self.program.constant(it.numbers[0]), I64))
        else:
            self.push(number_of(it.numbers[0], I64 if it.code == code.I64_CONSTANT else I32))

    def address(self, it: Instruction) -> Value:
        """Takes an address, and returns it with the offset of an instruction."""
        base, offset = self.pop(), it.numbers[0]
        if it.is_address:
            if base.number is not None:
                return Value(self.program.constant(offset + base.number), I64)
            return made_of(f"{base.text} + {self.program.constant(offset)}", I64, base)
        if base.number is not None:
            return number_of(base.number + offset, I64)
        return made_of(f"{base.text} + {literal(offset, I64)}", I64, base) if offset else base

    def store(self, it: Instruction) -> None:
        """A value that is written to an address."""
        value, at = self.pop(), self.address(it)
        if at.number is not None or at.text.startswith("CONSTANT("):
            raise Refused("a constant that changes")
        self.keep_loads()
        self.say(stored(it.code, at, value))

    def copy(self, it: Instruction) -> None:
        """Bytes that are copied, or set to one value."""
        size, other, to = self.pop(), self.pop(), self.pop()
        self.keep_loads()
        self.say(f"{'copy' if it.code == code.COPY else 'fill'}({to.text}, {other.text}, {size.text});")

    def choose(self, _: Instruction) -> None:
        """One of two values."""
        test, other, one = self.pop(), self.pop(), self.pop()
        self.push(chosen(test, one, other))

    def get_local(self, it: Instruction) -> None:
        """The value of a local."""
        index = it.numbers[0]
        self.used.add(index)
        self.push(Value(f"l{index}", self.kinds[index], frozenset([index]), below=self.below.get(index)))

    def set_local(self, it: Instruction) -> None:
        """A local that changes."""
        index, value = it.numbers[0], self.pop()
        self.used.add(index)
        self.below.pop(index, None)
        if value.below is not None:
            self.below[index] = value.below
        if value.text != f"l{index}":
            self.keep(lambda kept: index in kept.locals)
            self.say(f"l{index} = {value.text};")

    def tee_local(self, it: Instruction) -> None:
        """A local that changes, and its new value."""
        self.set_local(it)
        self.get_local(it)

    def get_stack(self, it: Instruction) -> None:
        """The stack pointer, which is read before it is moved."""
        self.check_global(it)
        if self.is_moved:
            raise Refused("a stack pointer that is read when it was moved")
        self.push(Value("sp", I64, frozenset([STACK]), below=0))

    def set_stack(self, it: Instruction) -> None:
        """The stack pointer is moved, to a place that is known from where it was."""
        self.check_global(it)
        value = self.pop()
        if value.below is None or value.below < 0:
            raise Refused("a stack pointer that is moved to a place that isn't known")
        self.is_moved = True
        self.keep(lambda kept: STACK in kept.locals)
        self.say(f"sp = {value.text};")

    @staticmethod
    def check_global(it: Instruction) -> None:
        """The kit's linker has the stack pointer first; another global is state that stays between calls."""
        if it.numbers[0] != 0:
            raise Refused(f"state that stays between calls: global {it.numbers[0]}")

    def call(self, it: Instruction) -> None:
        """A call of another function."""
        callee = it.numbers[0]
        of = self.program.type_of(callee)
        taken = [self.pop().text for _ in of.params][::-1]
        self.keep_all()
        words = (["sp"] if self.program.needs_stack(callee) else []) + taken
        said = f"{self.program.name(callee)}({', '.join(words)});"
        if of.result is None:
            self.say(said)
        else:
            made = f"t{self.new()}"
            self.say(f"const {UNSIGNED[of.result]} {made} = {said}")
            self.push(Value(made, of.result))

    # --- blocks ---

    def open(self, it: Instruction) -> None:
        """A block, a loop or a condition begins."""
        test = f"if ({self.pop().test()}) " if it.code == code.IF else ""
        self.keep_all()
        number, result = self.new(), None if it.numbers[0] == code.NO_RESULT else it.numbers[0]
        if result:
            self.say(f"{UNSIGNED[result]} r{number};")
        if it.code == code.LOOP:
            self.say(f"L{number}:;")
        self.say(test + "{")
        self.labels.append(Label(it.code, number, result, len(self.stack)))

    def turn(self, _: Instruction) -> None:
        """The other side of a condition begins."""
        self.hand_out()
        self.say("} else {", 1)

    def close(self, _: Instruction) -> None:
        """A block ends, or the function."""
        if len(self.labels) == 1:
            if not self.is_dead:
                self.leave_function()
            self.labels.pop()
            return
        self.hand_out()
        label = self.labels.pop()
        self.say("}")
        if label.kind != code.LOOP:
            self.say(f"L{label.number}:;")
        if label.result:
            self.push(Value(f"r{label.number}", label.result))

    def hand_out(self) -> None:
        """Gives a block that is at its end its result, and drops what it leaves."""
        label = self.labels[-1]
        if not self.is_dead and label.result:
            self.say(f"r{label.number} = {self.stack[-1].text};")
        del self.stack[label.height :]
        self.is_dead = False

    def leaving(self, depth: int) -> str:
        """Returns the statements that go to a label."""
        label = self.labels[-1 - depth]
        if len(self.labels) == 1 + depth:
            return self.returning()
        self.jumps.add(f"L{label.number}")
        kept = f"r{label.number} = {self.stack[-1].text}; " if label.kind != code.LOOP and label.result else ""
        return f"{kept}goto L{label.number};"

    def returning(self) -> str:
        """Returns the statement that ends the function."""
        return "return;" if self.type.result is None else f"return {self.stack[-1].text};"

    def leave_function(self, _: Instruction | None = None) -> None:
        """The function ends with what it returns."""
        self.say(self.returning())
        self.is_dead = True

    def branch(self, it: Instruction) -> None:
        """The code goes on at a label."""
        self.say(self.leaving(it.numbers[0]))
        self.is_dead = True

    def branch_if(self, it: Instruction) -> None:
        """The code goes on at a label if a condition holds."""
        test = self.pop().test()
        said = self.leaving(it.numbers[0])
        self.say(f"if ({test}) " + (f"{{ {said} }}" if said.count(";") > 1 else said))

    def branch_by_table(self, it: Instruction) -> None:
        """The code goes on at the label of a number, or at the last one."""
        test = self.pop().text
        *depths, other = it.numbers
        self.say(f"switch ({test}) {{")
        for at, depth in enumerate(depths):
            if depth != other:
                self.say(f"case {at}u: {self.leaving(depth)}")
        self.say(f"default: {self.leaving(other)}")
        self.say("}")
        self.is_dead = True

    def never(self, _: Instruction) -> None:
        """What the proofs exclude."""
        self.say("impossible();")
        self.say("return;" if self.type.result is None else "return 0;")
        self.is_dead = True

    def drop(self, _: Instruction) -> None:
        """A value that nobody takes. The name that a call's result has is said to be so, or a compiler would warn."""
        value = self.pop()
        if value.text.startswith("t") and value.text[1:].isdigit():
            self.say(f"(void){value.text};")

    def do_nothing(self, _: Instruction) -> None:
        """An instruction without an effect."""


WRITERS: dict[int, Callable[[Function, Instruction], None]] = {
    code.UNREACHABLE: Function.never,
    code.NOP: Function.do_nothing,
    code.BLOCK: Function.open,
    code.LOOP: Function.open,
    code.IF: Function.open,
    code.ELSE: Function.turn,
    code.END: Function.close,
    code.BRANCH: Function.branch,
    code.BRANCH_IF: Function.branch_if,
    code.BRANCH_TABLE: Function.branch_by_table,
    code.RETURN: Function.leave_function,
    code.CALL: Function.call,
    code.DROP: Function.drop,
    code.SELECT: Function.choose,
    code.LOCAL_GET: Function.get_local,
    code.LOCAL_SET: Function.set_local,
    code.LOCAL_TEE: Function.tee_local,
    code.GLOBAL_GET: Function.get_stack,
    code.GLOBAL_SET: Function.set_stack,
    code.I32_CONSTANT: Function.constant,
    code.I64_CONSTANT: Function.constant,
    code.COPY: Function.copy,
    code.FILL: Function.copy,
}

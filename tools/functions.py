"""Finds the functions in the sources of a crate, and the names by which a check knows them."""

import os
import re
from dataclasses import dataclass

HEAD = re.compile(r'( *)(?:pub(?:\([a-z]+\))? )?(?:const )?(?:unsafe )?(?:extern "C" )?fn (\w+)')


@dataclass(frozen=True)
class Span:
    """The lines of a function: those of its head and contract, and from `body` those of its body."""

    first: int
    body: int
    last: int


def function_at(lines: list[str], at: int) -> Span | None:
    """Returns the innermost function that has the line, by the indentation that the formatter gives."""
    for first in range(at, -1, -1):
        head = HEAD.match(lines[first])
        if not head:
            continue
        indent = head[1]
        last = next(
            (k for k in range(first, len(lines)) if lines[k].startswith((f"{indent}}}", f"{indent}{{}}"))), first
        )
        if lines[first].endswith(("}", ";")):
            last = first
        if last < at:
            return None
        opens = re.compile(rf"{indent}(\{{|\S.*\{{|\S.*\}})$")
        body = next(k for k in range(first, last + 1) if opens.match(lines[k]))
        return Span(first, body, last)
    return None


@dataclass(frozen=True)
class Function:
    """A function with a body: its name, where it stands, and the lines of its attributes and head."""

    name: str
    span: Span
    head: str


def after_list(text: str) -> str:
    """Returns what stands after the list in angle brackets with which a text begins, if it does."""
    depth = 0
    for at, sign in enumerate(text):
        depth += (sign == "<") - (sign == ">")
        if depth == 0:
            return text[at + 1 :] if at else text
    return text


def owner_named(header: str) -> tuple[str, str]:
    """Returns the type that an `impl` is of, and what a check calls the owner of its methods: type and trait, as `StopFromDeviceFault`, or the
    type with what it is made for, as `LineCommand+Step` in `impl LineCommand<Step>`."""
    head = header.removeprefix("unsafe ").removeprefix("impl")
    trait, _, of = after_list(head).rpartition(" for ")
    name: str = re.findall(r"^\s*(?:\w+::)*(\w+)", of)[0]
    made_for = re.findall(r"^\s*\w+<(\w+)>", head) if not trait else []
    own = re.findall(r"(?:^<|,)\s*(\w+)", head[: len(head) - len(after_list(head))])
    words = [it for it in re.findall(r"\w+", trait.split("::")[-1]) if it not in own]
    return name, name + "".join([*(f"+{it}" for it in made_for), *words])


def module_of(file: str) -> tuple[str, ...]:
    """Returns the module that a file of src/ is."""
    parts = tuple(file.removeprefix("src/").removesuffix(".rt").split("/"))
    return parts if parts not in (("lib",), ("main",)) else ()


def modules_of_types(texts: dict[str, str]) -> dict[str, tuple[str, ...]]:
    """Returns for each type of a crate the module that has it, by which a check names its methods, wherever they stand."""
    types = re.compile(r"^(?:pub(?:\([a-z]+\))? )?(?:struct|enum) (\w+)", re.MULTILINE)
    return {name: module_of(file) for file, text in texts.items() for name in types.findall(text)}


def functions_of(crate: str, file: str, lines: list[str], modules: dict[str, tuple[str, ...]]) -> list[Function]:
    """Returns the functions of a file that have a body of lines, but those of traits and macros."""
    found, module, owner = [], module_of(file), ""
    for at, line in enumerate(lines):
        if re.match(r"(?:unsafe )?impl\b", line):
            of, owner = owner_named(line)
            module = modules.get(of, module_of(file))
        elif re.match(r"(?:pub(?:\([a-z]+\))? )?(?:trait\b|macro_rules!)", line):
            # a trait's own methods are promises, and a macro's are no functions
            owner = "?"
        elif line.startswith("}"):
            module, owner = module_of(file), ""
        head = HEAD.match(line)
        if not head or owner == "?" or len(head[1]) > 4:
            continue
        span = function_at(lines, at)
        if span and (span.last > span.body or lines[span.body] == f"{head[1]}{{}}"):
            first = next(k for k in range(at - 1, -2, -1) if k < 0 or not lines[k].lstrip().startswith("#["))
            path = [crate, *module, *([owner] if head[1] else []), head[2]]
            found.append(Function("::".join(path), span, "\n".join(lines[first + 1 : at + 1])))
    return found


def texts_of(folder: str) -> dict[str, str]:
    """Returns the texts of all files of a crate's code."""
    files = {f"{at}/{name}" for at, _, names in os.walk(f"{folder}/src") for name in names}
    return sources(folder, {os.path.relpath(file, folder) for file in files})


def functions_in(crate: str, folder: str) -> dict[str, list[Function]]:
    """Returns the functions of each file of a crate's code in a folder."""
    texts = texts_of(folder)
    modules = modules_of_types(texts)
    return {file: functions_of(crate, file, text.split("\n"), modules) for file, text in texts.items()}


def names_of(crate: str, folder: str) -> set[str]:
    """Returns the names by which a check knows the functions of a crate."""
    return {it.name for found in functions_in(crate, folder).values() for it in found}


def sources(folder: str, files: set[str]) -> dict[str, str]:
    """Returns the texts of files of a crate in a folder, those that are there."""
    paths = {file: f"{folder}/{file}" for file in sorted(files)}
    return {file: open(path, encoding="utf-8").read() for file, path in paths.items() if os.path.isfile(path)}

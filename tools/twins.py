"""Gives a wrong body a function of its own, if another one of its check turns the same function: a twin of that, with the same contract, body and
proofs under another name. So one check tries both."""

import os
import re
import shutil
from dataclasses import replace

from bodies import Change, WrongBody
from functions import Span, function_at, sources

# what can't stand twice under two names: a method of a trait, and a cycle of calls, whose functions have one proof
OF_A_TRAIT = re.compile(r"(?:unsafe )?impl\b.* for ")
IN_A_CYCLE = re.compile(r"#\[cycle\b")


def with_twins(folder: str, bodies: list[WrongBody]) -> list[WrongBody]:
    """Writes the twins that bodies need into a copy of their crate, and returns the bodies as they are made there."""
    made: list[WrongBody] = []
    taken: dict[str, int] = {}
    for body in bodies:
        touched = body.touched()
        if touched and not body.error:
            taken[body.refused] = taken.get(body.refused, 0) + 1
        count = taken.get(body.refused, 0)
        twin = of_twin(folder, body, count) if touched and not body.error and count > 1 else None
        made.append(twin or in_copy(folder, body))
    return made


def placed(body: WrongBody) -> list[tuple[Change, Span | None]]:
    """Returns the changes of a body, each after the one before, with the function in which it is, if it is in one."""
    texts, found = sources(body.folder, body.files), []
    for change in body.changes:
        lines = texts[change.file].split("\n")
        found.append((change, function_at(lines, change.first_line(lines))))
        texts[change.file] = change.made_in(texts[change.file])
    return found


def in_copy(folder: str, body: WrongBody) -> WrongBody:
    """Returns a body as it is made in a copy of its crate: each change in its function, whatever else has such lines."""
    ends = {file: text.count("\n") + 1 for file, text in sources(body.folder, body.files).items()}
    changes = [
        replace(it, among=range(span.first, span.last + 1) if span else range(ends[it.file]))
        for it, span in placed(body)
    ]
    return replace(body, folder=folder, changes=changes)


def of_twin(folder: str, body: WrongBody, number: int) -> WrongBody | None:
    """Writes a twin of the function that a body turns into a copy of its crate, and returns the body as it is made in the twin, or nothing if the
    function can have none."""
    (file, span), *others = {(it.file, span) for it, span in placed(body) if span}
    own = sources(body.folder, {file})[file].split("\n")
    text, header = own[start_of(own, span) : span.last + 1], header_above(own, span)
    if others or len(body.functions()) != 2 or IN_A_CYCLE.search("\n".join(text)) or OF_A_TRAIT.match(" ".join(header)):
        return None
    *path, name = body.refused.split("::")
    twin = f"{name}_twin{number}"
    text[span.first - start_of(own, span)] = re.sub(rf"\bfn {name}\b", f"fn {twin}", own[span.first])
    before = sources(folder, {file})[file].rstrip("\n")
    added = ["", *header, *text, "}"] if header else ["", *text]
    with open(f"{folder}/{file}", "w", encoding="utf-8") as it:
        it.write("\n".join([before, *added, ""]))
    copy_proofs(folder, path[1:], name, twin)
    first = before.count("\n") + 1
    among = range(first, first + len(added))
    changes = [
        replace(it, among=among) if of else copied
        for (it, of), copied in zip(placed(body), in_copy(folder, body).changes)
    ]
    return replace(body, folder=folder, refused="::".join([*path, twin]), changes=changes)


def start_of(lines: list[str], span: Span) -> int:
    """Returns where a function begins with its attributes, below what is written of it."""
    first = span.first
    while (
        first
        and lines[first - 1].strip()
        and not re.match(r"\s*//", lines[first - 1])
        and not lines[first - 1].endswith(("{", "}"))
    ):
        first -= 1
    return first


def header_above(lines: list[str], span: Span) -> list[str]:
    """Returns the lines with which the `impl` of a method begins, and what it brings for clauses."""
    if not lines[span.first].startswith(" "):
        return []
    first = max(at for at in range(span.first) if re.match(r"(?:unsafe )?impl\b", lines[at]))
    last = next(at for at in range(first, span.first) if lines[at].endswith("{"))
    return [
        *lines[first : last + 1],
        *(line for line in lines[last + 1 : span.first] if line.startswith("    ghost use ")),
    ]


def copy_proofs(folder: str, path: list[str], name: str, twin: str) -> None:
    """Copies for a twin what is written of a function's proof."""
    own, copy = ("/".join([folder, "proofs", *path, it]) for it in (name, twin))
    if not os.path.isdir(own):
        return
    shutil.copytree(own, copy)
    of_own = re.compile(r"(\.%s)\b" % re.escape(".".join(["proofs", *path, name])))
    for file, text in sources(copy, set(os.listdir(copy))).items():
        with open(f"{copy}/{file}", "w", encoding="utf-8") as it:
            it.write(of_own.sub("." + ".".join(["proofs", *path, twin]), text))

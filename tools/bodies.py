"""Reads the wrong bodies of tests/wrong-bodies, and makes them in the text of a crate."""

import os
import re
from dataclasses import dataclass, field

from functions import Span, function_at, sources
from kit import TOP

FOLDER = f"{TOP}/tests/wrong-bodies"
# how a body begins, and a line of it that is no description
NAMED = re.compile(r"(gate|further): (\w+)")
OF_A_BODY = re.compile(r"(gate|further|refused|compiler|file):|[-+]")


class BadBody(Exception):
    """What is wrong with a wrong body, in a line."""


@dataclass
class Change:
    """Lines of a file, without the spaces before them, and what stands in their place; perhaps among which of its lines they stand."""

    file: str
    old: list[str] = field(default_factory=list)
    new: list[str] = field(default_factory=list)
    among: range | None = None

    def first_line(self, lines: list[str]) -> int:
        """Returns where its old lines begin, if they stand exactly once."""
        bare = [line.strip() for line in lines]
        found = [at for at in self.among or range(len(bare)) if bare[at : at + len(self.old)] == self.old]
        if len(found) != 1:
            raise BadBody(f"this stands {len(found)} times in {self.file}, and not once: {' '.join(self.old)}")
        return found[0]

    def made_in(self, text: str) -> str:
        """Returns the text with this change made. No line of it moves: new lines beyond the old ones stand after the last of these."""
        lines = text.split("\n")
        first, count = self.first_line(lines), len(self.old)
        new = [*self.new[: count - 1], " ".join(self.new[count - 1 :])]
        for at, line in enumerate([*new, *[""] * (count - len(new))], first):
            indent = lines[at][: len(lines[at]) - len(lines[at].lstrip())]
            lines[at] = indent + line if line else ""
        return "\n".join(lines)

    def place(self, text: str) -> int:
        """Returns where the text first differs by this change."""
        return len(os.path.commonprefix([text, self.made_in(text)]))


@dataclass
class WrongBody:
    """A wrong body, with one line on what it does wrong, the function that must be refused, by which error if it doesn't compile, and the
    changes that make it in the crate of a folder."""

    crate: str
    name: str
    is_of_gate: bool
    folder: str
    says: str = ""
    refused: str = ""
    error: str = ""
    changes: list[Change] = field(default_factory=list)

    @property
    def files(self) -> set[str]:
        return {it.file for it in self.changes}

    def made_in(self, texts: dict[str, str]) -> dict[str, str]:
        """Returns the texts of files with this body made, each change after the one before."""
        made = dict(texts)
        for change in self.changes:
            if change.file not in made:
                raise BadBody(f"the crate has no {change.file}")
            made[change.file] = change.made_in(made[change.file])
        return made

    def turned(self) -> list[tuple[str, Span | None, bool]]:
        """Returns for each change that is no import its file, the function in which it is, and whether that is its body."""
        made, found = sources(self.folder, self.files), []
        for change in self.changes:
            text = made[change.file]
            place = change.place(text)
            at, lines = text.count("\n", 0, place), text.split("\n")
            span = function_at(lines, at)
            is_body = span is not None and (at > span.body or at == span.body and text[:place].rstrip().endswith("{"))
            if is_body or not lines[at].startswith("use "):
                found.append((change.file, span, is_body))
            made[change.file] = change.made_in(text)
        return found

    def functions(self) -> set[str]:
        """Returns the function that it names, and by the file and line of its head each one that it turns."""
        return {self.refused, *(f"{file}:{span.first}" for file, span, _ in self.turned() if span)}

    def touched(self) -> set[str] | None:
        """Returns its functions, or nothing if it turns more than their bodies, as a constant, a type or a contract, which others can see."""
        return self.functions() if all(is_body for _, _, is_body in self.turned()) else None


def read(path: str) -> list[WrongBody]:
    """Reads the wrong bodies of a source file, such as those of crates/CRATE/src/x.rt from CRATE/x.txt."""
    crate, _, stem = os.path.relpath(path, FOLDER).removesuffix(".txt").partition("/")
    with open(path, encoding="utf-8") as it:
        lines = it.read().split("\n")
    heads = [at for at, line in enumerate(lines) if NAMED.fullmatch(line)]
    strangers = [line for line in lines[: heads[0] if heads else None] if line]
    if strangers:
        raise BadBody(f"a line 'gate: NAME' or 'further: NAME' is to stand before this one: {strangers[0]}")
    return [read_body(crate, f"src/{stem}.rt", lines[at:end]) for at, end in zip(heads, [*heads[1:], None])]


def read_body(crate: str, file: str, lines: list[str]) -> WrongBody:
    """Reads a wrong body from the lines: 'gate: NAME' or 'further: NAME', what it does wrong, 'refused: FUNCTION', and the lines of the file,
    after '- ', with those in their place, after '+ '. A line 'compiler: ERROR' says that it doesn't compile, a line 'file: PATH' names another
    file of the crate for what is below it."""
    kind, _, name = lines[0].partition(": ")
    body, parted = WrongBody(crate, name, kind == "gate", f"{TOP}/crates/{crate}"), True
    if len(lines) > 1 and lines[1].strip() and not OF_A_BODY.match(lines[1]):
        body.says = lines[1].strip()
    else:
        raise BadBody(f"{name}: no line says what it does wrong")
    for line in lines[2:]:
        sign, text = line[:1], line[1:].strip()
        if line.startswith("refused: ") and not body.refused:
            body.refused = line.removeprefix("refused: ")
        elif line.startswith("compiler: ") and body.refused and not body.error:
            body.error = line.removeprefix("compiler: ")
        elif line.startswith("file: ") and body.refused:
            file, parted = line.removeprefix("file: "), True
        elif sign == "-" and body.refused:
            # old lines after new ones, or after an empty line, are another change
            if parted or body.changes[-1].new:
                body.changes.append(Change(file))
            body.changes[-1].old.append(text)
            parted = False
        elif sign == "+" and not parted:
            if "//" in text:
                raise BadBody(f"{name}: a comment hides what follows it, since new lines may be joined: {line}")
            body.changes[-1].new.append(text)
        elif not line:
            parted = True
        else:
            raise BadBody(f"{name}: this line doesn't belong where it stands: {line}")
    if not body.refused or not body.changes or any(it.old == it.new for it in body.changes):
        raise BadBody(f"{name}: it needs a line 'refused: FUNCTION', and then lines after '- ' with others after '+ '")
    return body


def files_of(crate: str) -> list[str]:
    """Returns the files with wrong bodies of a crate."""
    return sorted(f"{at}/{name}" for at, _, names in os.walk(f"{FOLDER}/{crate}") for name in names)

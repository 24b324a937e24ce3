"""Takes bodies away from a copy of a crate, so that a check of some functions proves nothing else: callers see only a contract."""

import os
import re
import shutil

from functions import Span, functions_in, texts_of

# what a function keeps that can't do without its body: a value that a type needs, a cycle of calls, what is known by its symbol
NEEDS_ITS_BODY = re.compile(r"#\[(?:cycle|unsafe)\b|\b(?:const|unsafe|extern) ")
PROOF = """use Rattle.{path}.Statement.{{statement}}
use Rattle.{crate}.proofs.Unproved.{{unproved}}

pub {name}_spec : {{M : Type 1}} → statement M
{name}_spec = unproved
"""
# one hole stands for all of them, since a check works out and prints the goal of each hole
UNPROVED = """pub unproved : {A : Type 2} → A
unproved = ?
"""


def without_body(lines: list[str], span: Span) -> None:
    """Takes a function's body away. No line moves."""
    if span.last == span.body:
        lines[span.body] = lines[span.body].replace("{}", "{ unreachable!() }")
    else:
        lines[span.body + 1 : span.last] = ["unreachable!()", *[""] * (span.last - span.body - 2)]


def hollow(crate: str, folder: str, kept: set[str]) -> None:
    """Takes the bodies of a crate's functions away, and leaves a hole for each proof of them, but those that are kept: a function by its name or,
    as `src/lib.rt:7`, by the line of its head, counted from 0."""
    add_the_hole(folder)
    functions = functions_in(crate, folder)
    for file, text in texts_of(folder).items():
        lines = text.split("\n")
        for function in functions[file]:
            is_kept = function.name in kept or f"{file}:{function.span.first}" in kept
            if not is_kept and not NEEDS_ITS_BODY.search(function.head):
                without_body(lines, function.span)
                leave_a_hole(folder, function.name.split("::"))
        with open(f"{folder}/{file}", "w", encoding="utf-8") as it:
            it.write("\n".join(lines))


def add_the_hole(folder: str) -> None:
    """Adds the hole that stands for each proof which is taken away."""
    os.makedirs(f"{folder}/proofs", exist_ok=True)
    with open(f"{folder}/proofs/Unproved.antt", "w", encoding="utf-8") as it:
        it.write(UNPROVED)
    with open(f"{folder}/proofs/Lib.antt", "a", encoding="utf-8") as it:
        it.write("mod Unproved\n")


def leave_a_hole(folder: str, path: list[str]) -> None:
    """Leaves the hole in the place of a function's proof, or of its cycle's, if it calls itself."""
    crate, *owner, name = path
    of_owner = "/".join([folder, "proofs", *owner])
    for proof in (name, f"+{name}"):
        shutil.rmtree(f"{of_owner}/{proof}", ignore_errors=True)
    os.makedirs(f"{of_owner}/{name}")
    with open(f"{of_owner}/{name}/Proof.antt", "w", encoding="utf-8") as it:
        it.write(PROOF.format(crate=crate, path=".".join([crate, "proofs", *owner, name]), name=name))

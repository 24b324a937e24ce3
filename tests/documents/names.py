#!/usr/bin/env python3
"""Counts the public names of the library in C++, Python and JavaScript, which are no more than a user can survey.

    tests/documents/names.py [list]

What counts, each name once:
- C++: what the headers declare in the namespace nissy; no members, nothing of `detail` and `continuing`.
- Python: what `from nissy import *` brings, and the types for mypy.
- JavaScript: each value and type that the package exports, in node or a browser, and each call of `Nissy`.

With the word `list` it prints them. The last line is `N passed, M failed`.
"""
import re
import sys
from pathlib import Path

TOP = Path(__file__).resolve().parents[2]
sys.path.insert(0, str(TOP / "tests"))

from tally import Tally

MOST = {"C++": 60, "Python": 65, "JavaScript": 70}
TYPE = r"(?:class|struct|enum class|using) (\w+)"
VALUE = r"(?=[a-z])(?:inline |constexpr )*[\w:<>, &*]+?[ &*](\w+)(?:\(| =)"
EXPORTED = r"export (?:type )?\{([^}]*)\}"
DECLARED = r"^export (?:async |declare )?(?:const|class|function\*?|interface|type) (\w+)"


def read(path: str) -> str:
    """The text of a file of the repository."""
    return (TOP / path).read_text("utf-8")


def of_header(text: str) -> set[str]:
    """What a header in C++ declares in the namespace: what begins there at a line's begin, with or without a template before it."""
    text = re.sub(
        r"^namespace (?:detail|continuing) \{$.*?^\} // namespace (?:detail|continuing)$", "", text, flags=re.S | re.M
    )
    names = set()
    # one header has nothing but `nissy::detail`
    public = "".join(re.findall(r"^namespace nissy \{$(.*?)^\} // namespace nissy$", text, re.S | re.M))
    for line in re.sub(r"^template <.*?>\s+(?=\w)", "", public, flags=re.M).split("\n"):
        found = re.match(TYPE, line) or re.match(VALUE, line)
        # a member that is defined later has its class before it
        if found and f"::{found[1]}(" not in line:
            names.add(found[1])
    return names


def of_module(text: str) -> set[str]:
    """What a script of the module exports."""
    listed = [name for names in re.findall(EXPORTED, text) for name in names.split(",") if name.strip()]
    return {re.split(r"\s+as\s+", name.strip())[-1] for name in listed} | set(re.findall(DECLARED, text, re.M))


def names() -> dict[str, set[str]]:
    """The public names of each language."""
    package = read("python/nissy/__init__.py")
    calls = re.search(r"^export interface Calls<.*?^\}", read("web/module/calls/calls.ts"), re.S | re.M)
    assert calls is not None
    return {
        "C++": set().union(*(of_header(path.read_text("utf-8")) for path in (TOP / "include").glob("*.hpp"))),
        "Python": set(re.findall(r'"(\w+)"', package[package.index("__all__ = [") : package.index("\n]\n")]))
        | set(re.findall(r"\b(\w+) as \1\b", package)),
        "JavaScript": set().union(
            *(of_module(read(f"web/module/{name}.ts")) for name in ("nissy", "browser", "node")),
            re.findall(r"^  (\w+)[<(]", calls[0], re.M),
        ),
    }


def main() -> None:
    """Counts them."""
    tally = Tally()
    for language, public in names().items():
        if sys.argv[1:] == ["list"]:
            print(f"{language}, {len(public)}:", *sorted(public))
        # some that each has, so that none is counted by a text that isn't read any more
        known = {
            "C++": {"solve", "tables", "answer", "AXES", "best_found", "check_all"},
            "Python": {"Fault", "best", "NET", "Step", "solve"},
            "JavaScript": {"Nissy", "NissyPool", "loadNissy", "Facts", "AXES", "solve", "bestAll", "NissyFault"},
        }[language]
        tally.equal(f"public names of {language} that everyone knows", known & public, known)
        tally.holds(
            f"at most {MOST[language]} public names in {language}, and there are {len(public)}",
            len(public) <= MOST[language],
        )
    tally.end()


if __name__ == "__main__":
    main()

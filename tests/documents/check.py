#!/usr/bin/env python3
"""Holds the pages against the repository. With the word `map` it prints what the maps of docs/ARCHITECTURE.md lack, and what is gone, and then
the files of the crates that are named, each with its first line:

    tests/documents/check.py [map [CRATE..]]
"""
import re
import shutil
import subprocess
import sys
from collections.abc import Callable
from functools import partial
from pathlib import Path

TOP = Path(__file__).resolve().parents[2]
sys.path.insert(0, str(TOP / "tests"))

from repository import Code
from markdown import NAME, Page, items, rows
from prose import below, names_of_files, prose
from tally import Tally

PAGES = ("*.md", "docs/*.md", "bench/*.md", "web/*/*.md", "python/*.md", "portable/*.md")
# most lines that README may have, and most columns that any page and the package in Python may
MOST_LINES = 100
MOST_COLUMNS = 120
# pages of which each name of code in backquotes must be there, and pages of which each path must
WITH_NAMES = ("README.md", "docs/ARCHITECTURE.md", "docs/PROMISES.md", "docs/DECISIONS.md")
WITH_PATHS = ("CONTRIBUTING.md", *WITH_NAMES, "bench/README.md", "web/module/README.md")
CODE_NAME = r"`([A-Za-z_0-9:]+|[a-z_]*/?(src|specs|proofs)/[A-Za-z_/]+\.(rt|antt))`"
PATH = re.compile(r"\b(?:crates|tests|tools|docs|bench|completions|include|python|portable|web)/[A-Za-z0-9_./-]+")
# pages of which a crate declares each name of code, lemmas too: in backquotes on the first, in examples too on the second
PROOF, CHANGE = "docs/PROOF.md", "docs/FIRST-CHANGE.md"
DECLARED_NAME = r"`[A-Za-z_][\w:-]*`"
NAME_IN_EXAMPLE = re.compile(r"\b(?!niss_)[a-z]+(?:_[a-z]+)+\b|\bin-[A-Z]\w+|\b[A-Z][a-z]+[A-Z]\w+|\b[A-Z]\w+(?=::)")
# files that are named and aren't there, and why
NOT_THERE = {
    "tests/wrong-bodies/niss_moves/turn.edit": "tests/bodies.sh makes it",
    "tests/wrong-bodies/niss_moves/gone.txt": "tests/bodies.sh makes it",
    "tests/wrong-bodies/other": "tests/bodies.sh makes it",
    "docs/elsewhere": "tests/install.sh makes it",
    "proofs/path/Limit/new/Answers.antt": "a check with open goals writes it",
    "moves.c": "it is a program of the reader's",
    "self.rt": "it is the runtime of an example",
}
# names that the change of docs/FIRST-CHANGE.md adds
ADDED = ("line_command_normal_joins", "in-Normal")
# most lines of a file, and which have so few
MOST_LINES_OF_CODE = 400
OF_CODE = (".rt", ".antt", ".py", ".js", ".mjs", ".ts", ".c", ".cpp", ".h", ".hpp")
# a line of a script: steps of two blanks, one more before the star of a comment, and none at its end
OF_SCRIPT = re.compile(r"(?:(?:  )*(?: \*|\S)(?:.*\S)?)?")
LIST = r"`[^`]+`(?:(?:, | and )`[^`]+`)*"
# where the examples of crates' first pages stand as programs and tests
EXAMPLES = ("crates/eo_axes/src/main.rt", "crates/nissy/src/main.rt", "crates/niss_call_tests/src/examples.rt")
WITH_EXAMPLES = ("niss_moves", "niss_cube", "niss_search", "niss_shell")


def each(tally: Tally, page: str, kind: str, names: list[str], is_so: Callable[[str], bool]) -> None:
    """The page has names of this kind, and each is so."""
    tally.holds(f"{page} names {kind}", names)
    for name in names:
        tally.holds(f"{page}: {name} is {kind}", is_so(name))


def links_and_tables(tally: Tally, pages: list[Page]) -> None:
    """Tables are whole, and links lead to a file and a heading."""
    for page in pages:
        for row in page.torn_tables() or [""]:
            tally.holds(f"{page.name}: its table is whole: {row[:80]}", not row)
        for link in page.links():
            tally.holds(f"{page.name}: the link to {link} leads somewhere", page.leads_somewhere(link))


def columns(tally: Tally, pages: list[Page]) -> None:
    """No page has a longer line than one sees at once."""
    for page in pages:
        tally.equal(f"{page.name}: its lines of more than {MOST_COLUMNS} columns", page.longer_lines(MOST_COLUMNS), [])


def fences(tally: Tally, pages: list[Page]) -> None:
    """A fence names its language, and a file at most: a package's reader sees it as it is."""
    for page in pages:
        longer = [
            line
            for line in page.lines
            if line.startswith("```") and not re.fullmatch(r"```(\w+( [\w.-]+\.m?js)?)?", line)
        ]
        tally.equal(f"{page.name}: its fences that say more", longer, [])


def readme(tally: Tally, page: Page) -> None:
    """README has links, is short, and names the logic of the kit that is here, if one is."""
    tally.holds("README.md has links", page.links())
    tally.holds(f"README.md has at most {MOST_LINES} lines", len(page.lines) <= MOST_LINES)
    if shutil.which("rt"):
        kit = subprocess.run(["rt", "version"], capture_output=True, text=True, check=True).stdout
        logic = kit[kit.index("logic ") :].strip()
        tally.holds(f"README.md names the kit's {logic}", any(line.endswith(logic) for line in page.lines))


def names_of_code(tally: Tally, code: Code) -> None:
    """Each file and each name of code is one of the repository."""
    for name in WITH_NAMES:
        each(tally, name, "a file or a word of the repository", Page(TOP, name).quoted(CODE_NAME), code.has)
    for name in WITH_PATHS:
        paths = {it.rstrip(".") for it in PATH.findall(Page(TOP, name).text) if "NAME" not in it}
        each(
            tally,
            name,
            "a file or folder",
            sorted(paths),
            lambda path: (TOP / path).exists() or (TOP / re.sub(r"\.js$", ".ts", path)).exists() or code.has(path),
        )


def names_in_proofs(tally: Tally, code: Code) -> None:
    """The pages about proofs name lemmas, definitions and functions that are there."""
    in_example = set(NAME_IN_EXAMPLE.findall(Page(TOP, CHANGE).text)) - set(ADDED)
    for page, named in ((PROOF, Page(TOP, PROOF).quoted(DECLARED_NAME)), (CHANGE, sorted(in_example))):
        each(tally, page, "declared in a crate", named, code.declared.__contains__)


def gone(code: Code, path: str, text: str) -> set[str]:
    """What a file names that isn't there: paths from the top anywhere in it, other files in what people read of it."""
    read = text if path == CHANGE else prose(path, text)
    tops = {folder for folder in code.folders if "/" not in folder}
    found = {it for it in below(text, tops) if not {it, re.sub(r"\.js$", ".ts", it)} & {*code.files, *code.folders}}
    return found | {it for it in names_of_files(read) if not code.is_there(it, path)}


def files_that_are_named(tally: Tally, code: Code) -> None:
    """Each file that another one names is there, but those of which is said why not."""
    unneeded = set(NOT_THERE)
    for path, text in code.files.items():
        named = gone(code, path, text) if "\0" not in text else set()
        tally.equal(f"files that {path} names and that aren't there", sorted(named - set(NOT_THERE)), [])
        if TOP / path != Path(__file__).resolve():
            unneeded -= named
    tally.equal("files that none names any more, though a reason is given", sorted(unneeded), [])


def lengths(tally: Tally, code: Code) -> None:
    """No file of code is too long to be read at once, nor a line of a script or of the package in Python; a script steps in by two blanks."""
    counted = {
        path: text.splitlines() for path, text in code.files.items() if path.endswith(OF_CODE) or text[:2] == "#!"
    }
    tally.holds("there is code", counted)
    for path, lines in counted.items():
        tally.holds(f"{path} has at most {MOST_LINES_OF_CODE} lines: {len(lines)}", len(lines) <= MOST_LINES_OF_CODE)
    narrow = [path for path in counted if path.startswith("python/nissy/") or re.match(r"web/.*\.ts$", path)]
    tally.holds(
        "the package in Python and the scripts have files", {path.split("/")[0] for path in narrow} == {"python", "web"}
    )
    for path in narrow:
        longer = [number for number, line in enumerate(counted[path], 1) if len(line) > MOST_COLUMNS]
        tally.equal(f"{path}: its lines of more than {MOST_COLUMNS} columns", longer, [])
        if path.endswith(".ts"):
            torn = [number for number, line in enumerate(counted[path], 1) if not OF_SCRIPT.fullmatch(line)]
            tally.equal(f"{path}: its lines that begin or end otherwise", torn, [])


def map_of_crates(code: Code) -> list[str]:
    """Returns what the map of the crates and their folders don't have in common."""
    on_map = {
        name
        for row in rows(Page(TOP, "docs/ARCHITECTURE.md").section("Where things are"))
        for name in NAME.findall(row[0])
    }
    there = set(code.libraries())
    return [f"gone: crates/{it}" for it in sorted(on_map - there)] + [
        f"missing: crates/{it}" for it in sorted(there - on_map)
    ]


def head_of(text: str) -> str:
    """What the first line of a file says that it is for, or nothing."""
    said = re.match(r"(?://!|--|//|/\*\*) (\S.*)", text)
    return said[1] if said else ""


def map_of_files(code: Code, part: str) -> list[str]:
    """Returns the files of a crate's code and definitions, or of a folder of scripts, each with what its first line says that it is for."""
    own = re.compile(rf"crates/{part}/(?:src/(?!lib\.rt).*\.rt|specs/(?!Lib\.antt).*\.antt)|{part}/(?!.*\.d\.ts).*\.ts")
    return [f"{path}: {head_of(text)}" for path, text in code.files.items() if own.fullmatch(path)]


def heads_of_files(tally: Tally, code: Code) -> None:
    """The first line of each file of a crate says what it is for, as docs/ARCHITECTURE.md has it."""
    for crate in code.libraries():
        tally.holds(f"{crate} has files", lines := map_of_files(code, crate))
        for line in lines:
            tally.holds(f"the first line of {line.split(':')[0]} says what it is for", not line.endswith(": "))


def map_of_scripts(section: str, top: str) -> list[str]:
    """Returns what a table of folders with scripts and the folders don't have in common."""
    on_map = {name for row in rows(Page(TOP, "docs/ARCHITECTURE.md").section(section)) for name in NAME.findall(row[0])}
    there = {
        str(path.parent.relative_to(TOP / top.split("/")[0]))
        for path in (TOP / top).rglob("*.ts")
        if ".d." not in path.name
    }
    return [f"gone: web/{it}" for it in sorted(on_map - there)] + [
        f"missing: web/{it}" for it in sorted(there - on_map)
    ]


def names_of_scripts(tally: Tally) -> None:
    """No two scripts for the page and the module have one name, so that it says which is meant."""
    names = [script.name for script in scripts()]
    tally.equal("names that several scripts have", sorted({name for name in names if names.count(name) > 1}), [])


def says_its_task(script: Path) -> bool:
    """Whether the first line of a script, but the one that names its interpreter, is a comment."""
    lines = [line for line in script.read_text(encoding="utf-8").splitlines() if not line.startswith("#!")]
    return re.match(r"// \S|/\*\* \S", lines[0]) is not None


def scripts() -> list[Path]:
    """Returns the scripts for the page and the module."""
    return sorted(path for kind in ("*.ts", "*.cjs") for path in (TOP / "web").rglob(kind))


def heads_of_scripts(tally: Tally) -> None:
    """The first line of each script for the page and the module says its task, as docs/ARCHITECTURE.md has it."""
    tally.holds("there are scripts", len(scripts()) > 60)
    for script in scripts():
        tally.holds(f"the first line of {script.relative_to(TOP)} says its task", says_its_task(script))


def types_in_comments(tally: Tally) -> None:
    """No type stands in a comment of a script, since tsc reads none there: it may be wrong."""
    for script in scripts():
        comments = re.findall(r"/\*[\s\S]*?\*/", script.read_text(encoding="utf-8"))
        tally.equal(
            f"types in comments of {script.relative_to(TOP)}",
            [it for it in comments if re.search(r"@\w+ \{|@(?:type|typedef|template)\b", it)],
            [],
        )


def clauses_of_functions(texts: list[str]) -> list[str]:
    """Returns what texts say as '`f` and `T::g`, clauses `c`, `d`' or 'clause `c` of `f`': each function with each of its clauses."""
    found = []
    for part in (part for text in texts for part in re.split("[;()]", text)):
        part = re.sub(r"`==` of `\w+`", "`eq`", " ".join(part.split()))
        claims = [(of[2], of[1]) for of in re.finditer(rf"clauses? ({LIST}) of ({LIST})", part)]
        claims = claims or [(of[1], of[2]) for of in re.finditer(rf"({LIST}),? clauses? ({LIST})", part)]
        for functions, clauses in claims:
            found += [f"{f.split('::')[-1]} {c}" for f in NAME.findall(functions) for c in NAME.findall(clauses)]
    return sorted(set(found))


def promises(tally: Tally, code: Code) -> None:
    """What docs/PROMISES.md names after the word of what it is, clauses of functions there and in README, the list of wrong programs. Each promise
    says what carries it."""
    page = Page(TOP, "docs/PROMISES.md")
    for kind in ("clause", "law", "record", "field"):
        named = page.quoted(rf"\b{kind}s? (`[a-z_A-Z]+`(, | and )?)+")
        each(tally, page.name, f"a {kind}", named, partial(code.declares, kind))
    promised = [it for head in page.headings() if head.startswith("`niss_") for it in items(page.section(head))]
    tally.holds(f"{page.name} has promises", promised)
    for it in promised:
        tally.holds(f"{page.name}: after → stands what carries it: {it[:60]}", re.search(r" → \S", it))
    carried = [it.split("→")[-1] for it in items(page.lines)]
    for name, texts in ((page.name, carried), ("README.md", [Page(TOP, "README.md").text])):
        each(tally, name, "a clause of its function", clauses_of_functions(texts), code.clauses.__contains__)
    wrong = items(page.section("Wrong programs, and what refuses them"))
    tally.holds(f"{page.name} names wrong programs", wrong)
    for it in wrong:
        tally.holds(f"{page.name}: an item of wrong programs names bodies: {it[:60]}", NAME.search(it))
    named = sorted({name for it in wrong for name in NAME.findall(it)})
    each(tally, page.name, "a wrong body", named, code.wrong_bodies.__contains__)


def wrong_bodies(tally: Tally, code: Code) -> None:
    """Each function that a crate exports has a wrong body, as CONTRIBUTING.md says."""
    for crate in code.libraries():
        tally.holds(f"{crate} exports functions", exported := code.exported(crate))
        tally.equal(f"functions of {crate} without a wrong body", sorted(exported - code.turned(crate)), [])


def statement(line: str) -> str:
    """A line of code without its comment and indentation."""
    return re.sub(r"//.*", "", line).strip()


def example_lines(page: str) -> list[str]:
    """Returns the lines of the examples at the top of a crate's first page."""
    found, inside = [], ""
    for line in (TOP / page).read_text().splitlines():
        if not line.startswith("//!"):
            break
        line = re.sub(r"^//! ?", "", line)
        if line.startswith("```"):
            inside = "" if inside else line
        elif inside == "```" and not line.startswith("use ") and statement(line):
            found.append(statement(line))
    return found


def examples(tally: Tally) -> None:
    """Each line of an example on a crate's first page is one of a program or a test that is proved."""
    lines = {statement(line) for path in EXAMPLES for line in (TOP / path).read_text().splitlines()}
    for crate in WITH_EXAMPLES:
        page = f"crates/{crate}/src/lib.rt"
        each(tally, page, "a line of a program", example_lines(page), lines.__contains__)


def main() -> None:
    """All checks, or only the maps."""
    code = Code(TOP)
    unlike = (
        map_of_crates(code)
        + map_of_scripts("The module in JavaScript", "web/module")
        + map_of_scripts("The page", "web/page")
    )
    if sys.argv[1:2] == ["map"]:
        print(
            "".join(
                f"{line}\n" for line in unlike + [line for name in sys.argv[2:] for line in map_of_files(code, name)]
            ),
            end="",
        )
        sys.exit(1 if unlike else 0)
    tally = Tally()
    pages = [Page(TOP, str(path.relative_to(TOP))) for pattern in PAGES for path in sorted(TOP.glob(pattern))]
    links_and_tables(tally, pages)
    columns(tally, pages)
    fences(tally, pages)
    readme(tally, Page(TOP, "README.md"))
    names_of_code(tally, code)
    names_in_proofs(tally, code)
    files_that_are_named(tally, code)
    lengths(tally, code)
    for what in unlike or [""]:
        tally.holds(f"docs/ARCHITECTURE.md maps each file: {what}", not what)
    heads_of_files(tally, code)
    heads_of_scripts(tally)
    names_of_scripts(tally)
    types_in_comments(tally)
    promises(tally, code)
    wrong_bodies(tally, code)
    examples(tally)
    tally.end()


if __name__ == "__main__":
    main()

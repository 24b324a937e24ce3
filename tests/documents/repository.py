"""What stands in the repository, for the pages that name it: its words and files, the functions of the crates with their clauses."""
import posixpath
import re
import sys
from functools import cached_property
from pathlib import Path

sys.path.insert(0, str(Path(__file__).resolve().parents[2] / "tools"))

from bodies import NAMED, read
from functions import HEAD

# where a word that a page gives may stand
FOLDERS = ("crates", "tests", "tools", "include", "python", "portable", "web")
# folders that tools make, and that of git
MADE = {".git", "build", "out", "__pycache__"}
# what a line of code or of a proof declares or takes from elsewhere
OF_CODE = re.compile(r"\b(?:fn|struct|enum|trait|type|const|ensures) (\w+)")
OF_PROOF = re.compile(r"^ *(?:(?:abbrev|unfoldable|pub|record) )*([^\s:(){}]+) (?=[:({])", re.MULTILINE)
TAKEN = re.compile(r"^(?:pub )?use [^{};]*\{([^}]*)\}", re.MULTILINE)
CLAUSE = re.compile(r" *ensures ([a-z_]+) \{")
# an open function, of a file or of a type
OPEN = re.compile(r" *pub (?:const )?(?:extern \"C\" )?fn (\w+)")
# how a law, a record and so on are declared
DECLARED = {"clause": r"ensures ({}) \{{", "law": r"pub fn ({})\(\)", "record": r"record ({}) ", "field": r"pub ({}) :"}


class Code:
    """The repository's files, each read once."""

    def __init__(self, top: Path) -> None:
        self.top = top

    @cached_property
    def files(self) -> dict[str, str]:
        """The text of each file, by its path."""
        paths = {path.relative_to(self.top): path for path in sorted(self.top.rglob("*")) if path.is_file()}
        return {str(it): path.read_text("utf-8", "replace") for it, path in paths.items() if not MADE & set(it.parts)}

    @cached_property
    def folders(self) -> set[str]:
        """The folders in which files stand."""
        return {str(folder) for path in self.files for folder in Path(path).parents if str(folder) != "."}

    @cached_property
    def texts(self) -> dict[str, str]:
        """The text of each file below the folders of code, and of Makefile, by its path."""
        return {path: text for path, text in self.files.items() if path.split("/")[0] in (*FOLDERS, "Makefile")}

    @cached_property
    def words(self) -> set[str]:
        """Each word of a text or of a path."""
        return {word for path, text in self.texts.items() for word in re.findall(r"[A-Za-z_0-9]+", f"{path}\n{text}")}

    @cached_property
    def proved(self) -> str:
        """The code and the definitions of the crates below the program, in one text."""
        return "\n".join(text for path, text in self.texts.items() if re.match(r"crates/niss_.*\.(rt|antt)$", path))

    @cached_property
    def clauses(self) -> set[str]:
        """The clauses of functions, each as the function's name and its own."""
        found, function = set(), ""
        for path, text in self.texts.items():
            for line in text.splitlines() if re.match(r"crates/niss_[^/]*/src/.*\.rt$", path) else ():
                if head := HEAD.match(line):
                    function = head[2]
                elif clause := CLAUSE.match(line):
                    found.add(f"{function} {clause[1]}")
        return found

    def declares(self, kind: str, name: str) -> bool:
        """Whether a clause, a law, a record or a field has this name."""
        return bool(re.search(DECLARED[kind].format(re.escape(name)), self.proved))

    def has(self, name: str) -> bool:
        """Whether a name is a word of the repository; one with a slash a file of it, or of a crate as src/x.rt."""
        if "/" not in name:
            return name in self.words
        return (
            (self.top / name).exists()
            or (self.top / "crates" / name).exists()
            or any(self.top.glob(f"crates/*/{name}"))
        )

    @cached_property
    def declared(self) -> set[str]:
        """The names of the crates, of their files, and of what these declare or take from others by name."""
        found = set()
        for path, text in self.texts.items():
            if not re.match(r"crates/.*\.(rt|antt)$", path):
                continue
            declaration = OF_CODE if path.endswith(".rt") else OF_PROOF
            found |= {path.split("/")[1], Path(path).stem, *declaration.findall(text)}
            found |= {name.strip() for names in TAKEN.findall(text) for name in names.split(",")}
        return found

    def is_there(self, name: str, by: str) -> bool:
        """Whether a file that another one names is there: from the top, beside it, by its last parts, or built."""
        beside = posixpath.normpath(posixpath.join(posixpath.dirname(by), name))
        path = posixpath.normpath(name)
        if f"build/{posixpath.basename(path)}" in self.texts["Makefile"]:
            return True
        # tsc makes a script of it
        if path.endswith(".js") and self.is_there(path[:-3] + ".ts", by):
            return True
        return path in self.files or beside in self.files or any(it.endswith(f"/{path}") for it in self.files)

    @cached_property
    def wrong_bodies(self) -> set[str]:
        """The names of the wrong bodies."""
        lines = (
            line
            for path, text in self.texts.items()
            if path.startswith("tests/wrong-bodies/")
            for line in text.splitlines()
        )
        return {named[2] for line in lines if (named := NAMED.fullmatch(line))}

    def exported(self, crate: str) -> set[str]:
        """Returns the functions that a crate exports, but its laws, each after the name of its type or of its file."""
        used = re.findall(
            r"^pub use (?!niss_)[\w:]+::(\w+|\{[^}]*\});", self.texts[f"crates/{crate}/src/lib.rt"], re.MULTILINE
        )
        names = {name for part in used for name in re.findall(r"\w+", part)}
        found = set()
        for path, text in self.texts.items():
            if not re.match(rf"crates/{crate}/src/(?!laws|lib).*\.rt$", path):
                continue
            owner, file = "", Path(path).stem
            for line in text.splitlines():
                if of := re.match(r"impl(?:<[^>]*>)? (\w+)", line):
                    owner = of[1]
                elif line == "}":
                    owner = ""
                elif (of := OPEN.match(line)) and (owner or of[1]) in names:
                    found.add(f"{owner or file}::{of[1]}")
        return found

    def turned(self, crate: str) -> set[str]:
        """Returns the functions of a crate that a wrong body turns, named in the same way."""
        folder = f"tests/wrong-bodies/{crate}/"
        bodies = [it for path in self.texts if path.startswith(folder) for it in read(str(self.top / path))]
        return {"::".join(it.refused.split("::")[-2:]) for it in bodies}

    def libraries(self) -> list[str]:
        """Returns the crates that have definitions."""
        return sorted(path.parent.name for path in self.top.glob("crates/*/specs"))

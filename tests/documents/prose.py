"""What people read in a file, a page without its examples or the comments of code, and the files that it names."""
import ast
import io
import re
import tokenize
from pathlib import Path

# endings of files that a text names without their folder; others, such as .txt and .json, are mostly files of a reader
BARE = r"\.(?:rt|antt|py|mjs|cjs|js|ts|c|cpp|h|hpp|sh|tsv|md|css|html|svg|wasm)\b"
# a name with its folders, if it has any, and what stands before it: what a shell or a pattern writes further is none
NAME_OF_FILE = re.compile(rf"(?<![\w./*<>$#-])(?:[\w.+-]+/)*[\w+-]+{BARE}(?![\w/*(-]|\.\w)")
# a path below a folder of the repository, and the first sign after it
BELOW = r"(?<![\w./*<>$#-])((?:{})/[\w.+/-]*[\w+])(\.?[*\[({{$<\\]?)"
# a folder or a file that stands for any: FOLDER/nissy.c, crates/NAME/src/x.rt
FOR_ANY = re.compile(r"(?:^|/)(?:[A-Z]+/|[A-Z]+$|[xX]\.)")
SLASHES = (".rt", ".js", ".mjs", ".cjs", ".ts", ".c", ".cpp", ".h", ".hpp", ".css")


def of_python(text: str) -> str:
    """The comments and docstrings of a script in Python."""
    alone = [node.value for node in ast.walk(ast.parse(text)) if isinstance(node, ast.Expr)]
    texts = [it.value for it in alone if isinstance(it, ast.Constant) and isinstance(it.value, str)]
    signs = tokenize.generate_tokens(io.StringIO(text).readline)
    return "\n".join([*texts, *(it.string for it in signs if it.type == tokenize.COMMENT)])


def of_page(text: str) -> str:
    """A page without its examples, whose files a reader makes: fences but those of `text`, and indented lines."""
    without = re.sub(r"^```(?!text$)\w[\s\S]*?^```$", "", text, flags=re.MULTILINE)
    return re.sub(r"^    .*$", "", without, flags=re.MULTILINE)


def prose(path: str, text: str) -> str:
    """What people read in the file of this path."""
    ending = Path(path).suffix
    if ending == ".py" or re.match(r"#!.*python3", text):
        return of_python(text)
    if ending == ".md":
        return of_page(text)
    if ending in SLASHES:
        return "\n".join(it[0] for it in re.finditer(r"(?<!\S)//.*|/\*[\s\S]*?\*/", text))
    if ending == ".antt":
        return "\n".join(re.findall(r"--.*", text))
    if ending in (".txt", ".svg", ".1"):
        return text
    return "\n".join(re.findall(r"(?:(?<=\s)|^)#(?: .*|$)", text, re.MULTILINE))


def below(text: str, folders: set[str]) -> set[str]:
    """The paths that begin with one of these folders, but those that stand for any or that a pattern goes on."""
    found = re.findall(BELOW.format("|".join(map(re.escape, sorted(folders)))), text)
    return {path for path, after in found if after in ("", ".") and not FOR_ANY.search(path)}


def names_of_files(text: str) -> set[str]:
    """The names with an ending of code or of a page, with folders or without, but those that stand for any."""
    return {name for name in NAME_OF_FILE.findall(text) if not FOR_ANY.search(name)}

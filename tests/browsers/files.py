#!/usr/bin/env python3
"""Looks at the joined page as text: its size, its policy, what it may ask for, its parts; and at what tools/page refuses.

    tests/browsers/files.py PAGE
"""
import base64
import gzip
import hashlib
import re
import shutil
import subprocess
import sys
import tempfile
from pathlib import Path

TOP = Path(__file__).resolve().parent.parent.parent
sys.path.insert(0, str(TOP / "tests"))

from tally import Tally

MOST_BYTES = 400_000
# what would make text into markup or into a program
MARKUP = r"(?:inner|outer|set)HTML|insertAdjacent|document\.write|ContextualFragment|DOMParser|\beval\b|new Function|srcdoc|import\("
# what would ask a network
ASKING = r"\bfetch\b|XMLHttpRequest|WebSocket|EventSource|sendBeacon|importScripts|RTCPeer|serviceWorker"
# a script of the page that is put in place of one, and what it would do
REFUSED = (
    ("main.js", 'import { part } from "./shared/element.js";\nconst part = 1;\n', "a name that is declared twice"),
    ("main.js", 'import * as element from "./shared/element.js";\n', "an import of another form"),
    ("main.js", "export default 1;\n", "an export of another form"),
    ("main.js", 'const text = "</script>";\n', "an end of its element"),
    ("main.js", 'const text = "<!--";\n', "a comment of the page"),
    ("main.js", "const text = `R\n  U`;\n", "a text of several lines"),
    ("style/style.css", "</style>", "an end of the style"),
    ("style/print.css", "</style>", "an end of the style in a part of it"),
    ("style/style.css", '@import url("./print.css");', "an import of another form in the style"),
    ("main.js", 'const text = "\U0001f9e9";\n', "a sign that an escape hasn't"),
    ("main.js", f"const text = '{'x' * MOST_BYTES}';\n", "a page that is too large"),
)


def element(page: str, pattern: str) -> str:
    """The text in the one element whose tag has this form."""
    found = re.findall(f"<{pattern}>(.*?)</(?:script|style)>", page, re.DOTALL)
    return found[0] if len(found) == 1 else ""


def packed(page: str, name: str) -> bytes:
    """What is packed in the element of a name."""
    return gzip.decompress(base64.b64decode(element(page, f'script type="text/plain" id="{name}"'), validate=True))


def hash_of(text: str) -> str:
    """What a policy calls this text."""
    return f"'sha256-{base64.b64encode(hashlib.sha256(text.encode()).digest()).decode()}'"


def is_closed(tally: Tally, page: str) -> None:
    """The policy allows the page's own script, style and worker, and nothing of a network."""
    [policy] = re.findall(r'http-equiv="Content-Security-Policy" content="([^"]*)"', page)
    rules = dict(rule.strip().split(" ", 1) for rule in policy.split(";"))
    wanted = {
        "default-src": "'none'",
        "script-src": hash_of(element(page, 'script type="module"')) + " 'wasm-unsafe-eval'",
        "worker-src": "blob:",
        "style-src": hash_of(element(page, "style")),
        "img-src": "data:",
        "base-uri": "'none'",
        "form-action": "'none'",
    }
    tally.equal("the policy", rules, wanted)
    tally.holds(
        "it stands before what it rules",
        page.index("Content-Security-Policy") < min(page.index("<style"), page.index("<link")),
    )
    links = re.findall(r'\b(?:src|href|action|data|poster)="([^"]*)"', page)
    # it is drawn first once its last part is read: a drawing before that takes as long as its script
    last = re.findall(r' id="([^"]+)"', page.split("<script")[0])[-1]
    others = [each for each in links if not each.startswith("data:image/svg+xml,")]
    tally.equal(
        "its links are data, but for one to its last part, and one to itself without a scramble",
        others,
        [f"#{last}", "#"],
    )
    tally.holds("it has data", len(links) > 1)
    tally.equal("its signs beyond ASCII", re.findall(r"[^\x00-\x7f]", page), [])
    tally.holds("no style asks for a file", not re.search(r"url\(|@import", element(page, "style")))
    tally.equal("inline handlers", re.findall(r"<[^>]* on[a-z]+=", page.split("<script")[0]), [])


def is_plain(tally: Tally, page: str) -> None:
    """The scripts make no markup and ask nothing."""
    for name, text in (
        ("the script", element(page, 'script type="module"')),
        ("the worker's script", packed(page, "worker-script").decode("ascii")),
    ):
        script = re.sub(r"/\*[\s\S]*?\*/|^\s*//.*$", "", text, flags=re.MULTILINE)
        tally.holds(f"{name} is there", len(script) > 1000)
        tally.equal(f"{name}: lines with an indent", re.findall(r"^ +\S*", script, re.MULTILINE), [])
        tally.equal(f"{name}: markup", re.findall(MARKUP, script), [])
        tally.equal(f"{name}: requests", re.findall(ASKING, script), [])
        tally.equal(
            f"{name}: imports that are left", re.findall(r"^\s*(?:import|export)\b.*", script, re.MULTILINE), []
        )


def is_whole(tally: Tally, page: str) -> None:
    """Every part that a script names is there once, each help has its button, each label its field, and each text its place."""
    ids = re.findall(r' id="([^"]+)"', page)
    tally.equal("ids that stand twice", sorted({name for name in ids if ids.count(name) > 1}), [])
    script = element(page, 'script type="module"')
    for name in sorted(set(re.findall(r'\bpart\("([^"]+)"\)', script))):
        tally.holds(f"the part {name} is there", name in ids)
    named = re.findall(r'<label for="([^"]+)"', page) + re.findall(r'aria-(?:describedby|labelledby)="([^"]+)"', page)
    for name in " ".join(named).split():
        tally.holds(f"{name}, which a label or a text names, is there", name in ids)
    # the one that a script opens has no button
    helps = sorted(set(re.findall(r'<div popover id="([^"]+)"', page)) - {"uncopied", "said"})
    tally.equal("each help has its button", sorted(re.findall(r'popovertarget="([^"]+)"', page)), helps)
    tally.equal("the module's first bytes", packed(page, "engine-module")[:4], b"\0asm")
    tally.equal("marks that are left", re.findall(r">@\w+@<|\"@\w+@\"", page), [])


def is_laid_out(tally: Tally) -> None:
    """All scripts have one layout: indents of two blanks, 120 columns, a comment that begins on its first line, and no blank at a line's end."""
    scripts = sorted(each for kind in ("*.ts", "*.cjs") for each in (TOP / "web").rglob(kind))
    tally.holds("there are scripts", len(scripts) > 60)
    for script in scripts:
        code = [line for line in script.read_text().splitlines() if not line.lstrip().startswith("*")]
        least = min((len(line) - len(line.lstrip()) for line in code if line.startswith(" ")), default=2)
        tally.equal(f"{script.relative_to(TOP)}: its indent", least, 2)
        odd = [
            line
            for line in script.read_text().splitlines()
            if len(line) > 120 or line != line.rstrip() or line.strip() == "/**" or "\t" in line
        ]
        tally.equal(f"{script.relative_to(TOP)}: lines of another layout", odd, [])


def refuses(tally: Tally) -> None:
    """The tool joins the parts of this folder, and refuses what it can't join."""
    for name, text, what in (("style/style.css", "", ""),) + REFUSED:
        with tempfile.TemporaryDirectory() as room:
            web, made = Path(room, "web/page"), Path(room, "page.html")
            shutil.copytree(TOP / "build/web", web.parent)
            Path(room, "module").write_bytes(b"\0asm")
            with (web / name).open("a") as file:
                file.write("\n" + text)
            done = subprocess.run(
                [TOP / "tools/page", web, Path(room, "module"), made], capture_output=True, check=False
            )
            is_made = done.returncode == 0 and made.exists()
            tally.equal(f"tools/page makes a page with {what or 'nothing added'}", is_made, not what)


def is_as_large_as_said(tally: Tally, page: bytes) -> None:
    """docs/PAGE.md says how large it is, in tens of KB."""
    said = re.findall(r"one file of some (\d+) KB \((\d+) by gzip\)", (TOP / "docs/PAGE.md").read_text())
    sizes = [f"{round(len(each) / 10_000) * 10}" for each in (page, gzip.compress(page))]
    tally.equal("what docs/PAGE.md says of its size", said, [tuple(sizes)])


def main() -> None:
    """All of these."""
    tally = Tally()
    text = Path(sys.argv[1]).read_text()
    tally.holds("the page isn't too large", len(text.encode()) <= MOST_BYTES)
    is_as_large_as_said(tally, text.encode())
    for part in (is_closed, is_plain, is_whole):
        part(tally, text)
    is_laid_out(tally)
    refuses(tally)
    tally.end()


if __name__ == "__main__":
    main()

"""What the Python tools of this folder share: the crates of the repository, and how the kit's checker is called on one of them."""

import atexit
import os
import shutil
import subprocess
import sys
import tempfile
import threading
from functools import lru_cache

TOP = os.path.dirname(os.path.dirname(os.path.abspath(__file__)))
# what a check reads of a crate
PARTS = ("src", "specs", "proofs")
# by crate whose turn it is to build what is below it, and the copy in which that is built
TURNS: dict[str, threading.Lock] = {}
TOPS: dict[str, str] = {}


def listing() -> list[str]:
    """Returns the lines of crates.txt, one a crate."""
    with open(f"{TOP}/crates.txt", encoding="utf-8") as lines:
        return [line for line in lines if line.strip()]


@lru_cache(None)
def crates() -> dict[str, list[str]]:
    """Returns the crates that crates.txt lists, each with the libraries that it names. A kind may stand after a name, as `staticlib`."""
    listed = [line.partition(":") for line in listing()]
    return {name.split()[0]: uses.split() for name, _, uses in listed}


@lru_cache(None)
def below(crate: str) -> list[str]:
    """Returns the repository's crates that a crate stands on, the lowest first."""
    return [
        name
        for name in crates()
        if any(name == use or name in below(use) for use in crates()[crate] if use in crates())
    ]


@lru_cache(None)
def kit() -> str:
    """Returns the folder of the kit, in which the page that `rt doc` names stands."""
    said = subprocess.run(["rt", "doc"], capture_output=True, text=True, check=True)
    return os.path.dirname(said.stdout.strip())


def built(crate: str, top: str) -> str:
    """Returns where a library is built below the top of a repository, or of a copy of it."""
    return f"{top}/crates/{crate}/out/rlib/{crate}.rlib"


def build_below(crate: str) -> str:
    """Proves and builds the libraries below a crate, once, and returns the top of a copy of the repository below which they are built, which may be
    the copy of another crate that has all of them."""
    with TURNS.setdefault(crate, threading.Lock()):
        if crate not in TOPS:
            others = [TOPS[it] for it in list(TOPS) if {*below(crate)} <= {*below(it)}]
            TOPS[crate] = others[0] if others else build(below(crate))
        return TOPS[crate]


def build(names: list[str]) -> str:
    """Proves and builds crates, each with those below it among them, by `rt ci` in a copy that lasts as long as this process, and returns the copy's
    top. `rt ci` keeps on this machine what passes, for the gate too, which takes no other proofs: so nothing is proved twice, and what earlier
    commands left in the checkout is neither taken nor touched."""
    copy = tempfile.mkdtemp(prefix="nissy-proved-")
    atexit.register(shutil.rmtree, copy, ignore_errors=True)
    for name in names:
        shutil.copytree(f"{TOP}/crates/{name}", f"{copy}/crates/{name}", ignore=shutil.ignore_patterns("out"))
    with open(f"{copy}/crates.txt", "w", encoding="utf-8") as it:
        it.writelines(line for line in listing() if line.partition(":")[0].split()[0] in names)
    shutil.copy(f"{TOP}/HANDLES", copy)
    # `rt ci` then takes it for the top of a repository, wherever it stands
    os.mkdir(f"{copy}/.git")
    if names:
        run_or_end(["rt", "ci"], copy, f"not all of these are proved: {' '.join(names)}")
    return copy


def run_or_end(words: list[str], folder: str, why: str) -> None:
    """Runs a command in a folder, and tells the error stream which crates it proved as soon as it says so. If it fails, this process shows all that
    it said, and ends."""
    said = []
    with subprocess.Popen(
        words, cwd=folder, stdin=subprocess.DEVNULL, stdout=subprocess.PIPE, stderr=subprocess.STDOUT, text=True
    ) as ran:
        for line in ran.stdout or ():
            said.append(line)
            if line.startswith("rt: ") and line.endswith(" proved\n"):
                print(line, end="", file=sys.stderr, flush=True)
    if ran.returncode:
        sys.exit(f"{''.join(said)}{why}")


def made_again(kind: str, why: str) -> None:
    """Says that something is tried once more, and counts it for the closing line of the tests, in the file that tests/shared names."""
    print(f"made again ({kind}): {why}", flush=True)
    if os.environ.get("NISSY_MADE_AGAIN"):
        with open(os.environ["NISSY_MADE_AGAIN"], "a", encoding="utf-8") as it:
            it.write(f"{kind}\n")


def begin(crate: str, kept: str) -> None:
    """Has a check of a crate that goes over a folder of kept work begin with what checks of the crate kept: the checker takes what is of the same
    text and of the same kit, and makes the rest."""
    if os.path.isdir(f"{TOP}/crates/{crate}/out/incremental"):
        shutil.copytree(f"{TOP}/crates/{crate}/out/incremental", kept, dirs_exist_ok=True)


def words_on(crate: str, top: str, folder_of_kit: str) -> list[str]:
    """Returns the words by which the kit's checker and its compiler find a crate's root and the libraries below it, as `build` built them."""
    of_kit = ["std", *[use for use in crates()[crate] if use not in crates()]]
    root = "src/main.rt" if os.path.isfile(f"{TOP}/crates/{crate}/src/main.rt") else "src/lib.rt"
    words = ["--crate-name", crate, root]
    for name in of_kit:
        words += ["--extern", f"{name}={folder_of_kit}/rlibs/{name}.rlib"]
    words += ["-L", f"dependency={folder_of_kit}/rlibs"]
    for name in below(crate):
        words += ["--extern", f"{name}={built(name, top)}"] if name in crates()[crate] else []
        words += ["-L", f"dependency={os.path.dirname(built(name, top))}"]
    words += [
        "--antt-project",
        f"{folder_of_kit}/rattle/logic/antt-project.json",
        "--logic-built",
        f"{folder_of_kit}/logic_built",
    ]
    return words + ["--links", f"{crate}="]


def check_words(crate: str, kept: str, functions: list[str]) -> list[str]:
    """Returns the words that check functions of a crate, to be run in a folder with its sources, over the work kept in another folder."""
    words = [
        f"{kit()}/bin/rattle",
        "check",
        *words_on(crate, build_below(crate), kit()),
        "--jobs",
        "1",
        "--incremental",
        kept,
        "--allow-holes",
    ]
    return words + [word for function in functions for word in ("--only", function)]


def build_archive(crate: str, archive: str, target: str) -> None:
    """Proves a crate that crates.txt lists as a static library, and compiles it for a target."""
    build_for(crate, archive, target, "--crate-type", "staticlib")


def build_for(crate: str, made: str, target: str, *kind: str) -> None:
    """Proves a crate for a target, and compiles it as an object, or as what else it is to be."""
    # RT_JOBS has `rt ci` make as many proofs at once, each by one job
    jobs = "1" if "RT_JOBS" in os.environ else "2"
    words = [
        f"{kit()}/bin/rattle",
        "build",
        *words_on(crate, build_below(crate), kit()),
        "--jobs",
        jobs,
        *kind,
        "--target",
        target,
    ]
    words += ["--toolchain", f"{kit()}/toolchain", "--backend", "llvm", "-o", made]
    with tempfile.TemporaryDirectory() as kept:
        words += ["--incremental", kept]
        ran = subprocess.run(
            words, cwd=f"{TOP}/crates/{crate}", stdout=subprocess.PIPE, stderr=subprocess.STDOUT, text=True, check=False
        )
    proved = [
        line for line in ran.stdout.splitlines() if line.startswith("logic=proved ") and f" target={target} " in line
    ]
    if ran.returncode or len(proved) != 1:
        sys.exit(f"{ran.stdout}{crate} is not proved")

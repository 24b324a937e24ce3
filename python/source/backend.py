"""Builds the package only by Python and a C compiler: pip needs nothing else for it, neither a network nor setuptools.

The compiler is the first of these that compiles engine/nissy.c: $CC, the one by which this Python was built, cc, gcc, clang, and on Windows cl.
It takes $CFLAGS too, and on macOS $ARCHFLAGS."""
import base64
import hashlib
import os
import re
import shlex
import shutil
import subprocess
import sys
import sysconfig
import tarfile
import tempfile
import time
import zipfile
from typing import Any, Dict, Iterator, List, Optional, Tuple

HERE = os.path.dirname(os.path.abspath(__file__))
WINDOWS, MACOS = sys.platform in ("win32", "cygwin"), sys.platform == "darwin"
# the earliest time that a wheel can hold
EARLIEST = 315532800
PARTS = ("PKG-INFO", "README.md", "pyproject.toml", "backend.py", "nissy", "engine")


def read(*path: str) -> bytes:
    """Returns the bytes of a file beside this one."""
    with open(os.path.join(HERE, *path), "rb") as file:
        return file.read()


def project() -> Dict[str, str]:
    """Returns what pyproject.toml says of the package. Python 3.7 reads no such file by itself."""
    return dict(re.findall(r'^([\w-]+) = "(.*)"$', read("pyproject.toml").decode(), re.MULTILINE))


def stem() -> str:
    """Returns name and version, as the names of packages begin."""
    return "{name}-{version}".format(**project())


def metadata() -> bytes:
    """Returns what a package says of itself: its fields, and README after an empty line."""
    said = project()
    classifiers = re.findall(r'^ {4}"(.*)",$', read("pyproject.toml").decode(), re.MULTILINE)
    fields = [
        ("Metadata-Version", "2.1"),
        ("Name", said["name"]),
        ("Version", said["version"]),
        ("Summary", said["description"]),
    ]
    fields += [("Classifier", it) for it in classifiers]
    fields += [("Requires-Python", said["requires-python"]), ("Description-Content-Type", "text/markdown")]
    return "".join(f"{name}: {text}\n" for name, text in fields).encode() + b"\n" + read("README.md")


# --- the library ---


def library_name() -> str:
    """Returns what nissy/_library.py looks for on this system."""
    return "nissy.dll" if WINDOWS else "libnissy.2.dylib" if MACOS else "libnissy.so.2"


def compilers() -> List[List[str]]:
    """Returns the compilers that are here, each as the words that call it."""
    own = None if WINDOWS else sysconfig.get_config_var("CC")
    named = [os.environ.get("CC"), own, "cc", "gcc", "clang", "cl" if WINDOWS else None]
    words = [shlex.split(it, posix=not WINDOWS) for it in named if it]
    return [it for it in words if shutil.which(it[0])]


def command(compiler: List[str], made: str) -> List[str]:
    """Returns the words by which a compiler makes the library."""
    source = os.path.join(HERE, "engine", "nissy.c")
    if os.path.basename(compiler[0]).lower() in ("cl", "cl.exe"):
        headers = read("engine", "nissy.h") + read("engine", "nissy_text.h")
        calls = re.findall(r"^\w+ (nissy_\w+)\(", headers.decode(), re.MULTILINE)
        return [
            *compiler,
            "/nologo",
            "/std:c11",
            "/O2",
            "/LD",
            "/Fe" + made,
            source,
            "/link",
            *("/EXPORT:" + it for it in calls),
        ]
    more = shlex.split(os.environ.get("CFLAGS", ""))
    if MACOS:
        more += [*shlex.split(os.environ.get("ARCHFLAGS", "")), "-dynamiclib"]
    else:
        more += ["-shared"] if WINDOWS else ["-shared", "-fPIC"]
    return [*compiler, "-std=c11", "-O2", *more, "-o", made, source]


def compile_library(made: str) -> None:
    """Compiles the engine by the first compiler that does it."""
    said = []
    with tempfile.TemporaryDirectory() as room:
        for compiler in compilers():
            words = command(compiler, made)
            # cl leaves files of its own where it runs
            ran = subprocess.run(words, stdout=subprocess.PIPE, stderr=subprocess.STDOUT, cwd=room, check=False)
            if ran.returncode == 0:
                return
            said.append(" ".join(words) + "\n" + ran.stdout.decode(errors="replace"))
    none = "there is no C compiler here: install one for C11, or name it by CC"
    raise SystemExit("nissy: " + ("no compiler here makes the library:\n" + "\n".join(said) if said else none))


# --- the packages ---


def files() -> Iterator[Tuple[str, bytes]]:
    """Yields the files of the package but the library, each with its path."""
    for name in sorted(os.listdir(os.path.join(HERE, "nissy"))):
        if name.endswith(".py") or name == "py.typed":
            yield "nissy/" + name, read("nissy", name)


def write_wheel(folder: str, tag: str, library: str) -> str:
    """Packs a wheel for a platform with the library that was compiled for it, and returns the wheel's name."""
    info, rows = stem() + ".dist-info", []
    with open(library, "rb") as file:
        parts = [*files(), ("nissy/" + os.path.basename(library), file.read()), (info + "/METADATA", metadata())]
    parts.append(
        (info + "/WHEEL", f"Wheel-Version: 1.0\nGenerator: nissy\nRoot-Is-Purelib: false\nTag: {tag}\n".encode())
    )
    for path, data in parts:
        digest = base64.urlsafe_b64encode(hashlib.sha256(data).digest()).rstrip(b"=").decode()
        rows.append(f"{path},sha256={digest},{len(data)}\n")
    parts.append((info + "/RECORD", "".join([*rows, info + "/RECORD,,\n"]).encode()))
    name = f"{stem()}-{tag}.whl"
    when = time.gmtime(max(EARLIEST, int(os.environ.get("SOURCE_DATE_EPOCH", EARLIEST))))[:6]
    with zipfile.ZipFile(os.path.join(folder, name), "w") as wheel:
        for path, data in parts:
            entry = zipfile.ZipInfo(path, when)
            entry.external_attr, entry.compress_type = 0o644 << 16, zipfile.ZIP_DEFLATED
            wheel.writestr(entry, data)
    return name


def build_wheel(
    wheel_directory: str, config_settings: Optional[Dict[str, Any]] = None, metadata_directory: Optional[str] = None
) -> str:
    """What pip calls: compiles the library, and packs it for this machine."""
    tag = "py3-none-" + re.sub(r"[-.]", "_", sysconfig.get_platform())
    with tempfile.TemporaryDirectory() as room:
        compile_library(os.path.join(room, library_name()))
        return write_wheel(wheel_directory, tag, os.path.join(room, library_name()))


def without_time(entry: tarfile.TarInfo) -> Optional[tarfile.TarInfo]:
    """Returns a file as it is packed, with nothing that depends on who packs it and when, or None for what Python keeps beside it."""
    if "__pycache__" in entry.name:
        return None
    entry.uid = entry.gid = 0
    entry.uname = entry.gname = ""
    entry.mode = 0o755 if entry.isdir() else 0o644
    entry.mtime = int(os.environ.get("SOURCE_DATE_EPOCH", EARLIEST))
    return entry


def build_sdist(sdist_directory: str, config_settings: Optional[Dict[str, Any]] = None) -> str:
    """Packs what this file stands in."""
    name = stem() + ".tar.gz"
    with tarfile.open(os.path.join(sdist_directory, name), "w:gz", format=tarfile.PAX_FORMAT) as packed:
        for part in PARTS:
            packed.add(os.path.join(HERE, part), f"{stem()}/{part}", filter=without_time)
    return name

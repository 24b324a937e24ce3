"""Brings the library into the package: the one that stands in it already, else the one that `make lib` of the repository built."""
from pathlib import Path
from typing import Tuple

from setuptools import Distribution, setup
from setuptools.command.build_py import build_py

try:
    from setuptools.command.bdist_wheel import bdist_wheel
except ImportError:
    # an older setuptools leaves wheels to the package of this name
    from wheel.bdist_wheel import bdist_wheel

HERE = Path(__file__).resolve().parent
LIBRARY = "libnissy.so.2"
# the processors, by the number that a library gives of its own at this place
MACHINES = {62: "x86_64", 183: "aarch64"}
MACHINE_AT = 18


def library() -> Path:
    """Returns where the library stands."""
    for place in (HERE / "nissy" / LIBRARY, HERE.parent / "build" / LIBRARY):
        if place.is_file():
            return place
    raise SystemExit(
        f"nissy: there is no {LIBRARY}: `make lib` of the repository builds it, or take a wheel that has it"
    )


def machine() -> str:
    """Returns which processor the library is for."""
    number = int.from_bytes(library().read_bytes()[MACHINE_AT : MACHINE_AT + 2], "little")
    if number not in MACHINES:
        raise SystemExit(f"nissy: {LIBRARY} is for no processor that has a wheel")
    return MACHINES[number]


class WithLibrary(build_py):
    """Builds the package with the library in it."""

    def run(self) -> None:
        """Copies the modules, and the library beside them."""
        super().run()
        self.copy_file(str(library()), str(Path(self.build_lib) / "nissy" / LIBRARY))


class OfOneProcessor(Distribution):
    """The package, which isn't only in Python: it stands with those of this processor."""

    def has_ext_modules(self) -> bool:
        """Whether something in it is for one kind of processor, as extension modules are: the library is."""
        return True


class ForLinux(bdist_wheel):
    """Packs a wheel for any Python 3 on Linux: the library is linked with the C library 2.14, on ARM 2.17, and needs no newer one."""

    def get_tag(self) -> Tuple[str, str, str]:
        """The platform has two names: a pip of before 20.3 knows only the second."""
        return "py3", "none", f"manylinux_2_17_{machine()}.manylinux2014_{machine()}"


setup(distclass=OfOneProcessor, cmdclass={"build_py": WithLibrary, "bdist_wheel": ForLinux})

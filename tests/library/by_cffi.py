#!/usr/bin/env python3
"""Reads declarations by cffi, and calls the library by them.

    tests/library/by_cffi.py DECLARATIONS LIBRARY

LIBRARY has the calls of nissy_forms.h, and is linked with that of the others.
"""
import sys
from pathlib import Path

sys.path.insert(0, str(Path(__file__).resolve().parents[1]))

import cffi
from tally import Tally


def main() -> None:
    """Texts, a struct and a search."""
    tally, ffi = Tally(), cffi.FFI()
    ffi.cdef(Path(sys.argv[1]).read_text(encoding="utf-8"))
    nissy, out = ffi.dlopen(sys.argv[2]), ffi.new("uint8_t[]", 2048)
    answer = nissy.nissy_invert(b"R U' F2", 7, out, len(out))
    tally.equal("an inverse", (answer.status, bytes(out[0 : answer.length])), (nissy.NISSY_DONE, b"F2 U R'"))
    seen = nissy.nissy_facts(b"R U2 R", 6)
    tally.equal(
        "a case",
        (seen.axes[nissy.NISSY_UD].bad_corners, seen.axes[nissy.NISSY_UD].misplaced_edges, seen.moves),
        (4, 2, 3),
    )
    tables = ffi.new("nissy_tables *")
    tally.equal("tables", nissy.nissy_build(tables, b"eofb", 4), nissy.NISSY_DONE)
    found = nissy.nissy_solve(tables, b"R U F", 5, 20, 0, 2**64 - 1, 2**64 - 1, out, len(out))
    tally.equal(
        "solutions",
        (found.solutions, found.more, found.nodes, bytes(out[0 : found.length])),
        (2, 0, 20, b"F (1)\nF' (1)\n"),
    )
    fault = nissy.nissy_count(tables, b"R q", 3, 20, 0, 1, 1)
    tally.equal("a fault", (fault.status, fault.fault, fault.column), (nissy.NISSY_FAULT, nissy.NISSY_NOT_A_MOVE, 3))
    places = ffi.new("uint64_t[]", 12)
    plain = nissy.nissy_plain(b"R, U", 4, out, len(out), places, len(places))
    tally.equal("a text", (bytes(out[0 : plain.length]), plain.left_out), (b"R  U", nissy.NISSY_COMMAS))
    doubts = nissy.NISSY_INSERTION, nissy.NISSY_A_PART, nissy.NISSY_WHICH_SCRAMBLE, nissy.NISSY_ANOTHER_ATTEMPT
    tally.equal("each doubt has its number", doubts, (8, 9, 10, 13))
    line = b"R M2' r"
    form = nissy.nissy_next_form_place(line, len(line), 0)
    tally.equal("a form", (form.column, form.last, form.forms), (3, 5, nissy.NISSY_SLICES | nissy.NISSY_HALF_PRIME))
    tally.equal("the next one", nissy.nissy_next_form_place(line, len(line), form.last).column, 7)
    tally.end()


if __name__ == "__main__":
    main()

#!/usr/bin/env bash
# Runs the examples of the pages as a reader would, with PROGRAM as `nissy`, and compares what they print with the page; draws the pictures anew:
#
#     tests/recipes.sh [PROGRAM [PAGE..]]
#
# The program is build/nissy if none is named, and the pages are README, COOKBOOK, MANUAL, MANY, PYTHON, C, the module's README and the manual
# page. If `make lib` built the library, the examples find it, its header and its module; else PYTHON and C are skipped, and so is the module's
# README if `make build/nissy.wasm` built none. `tests/documents/recipes.py` says how an example is written. If there is no python3 nothing is
# tried.
set -u
# shellcheck source=tests/shared
. "$(dirname "$0")/shared"
top=$(cd "$(dirname "$0")/.." && pwd)
program=$(program_of "$@")
if [ ! -x "$program" ]; then
    echo "usage: tests/recipes.sh [PROGRAM [PAGE..]]" >&2
    exit 2
fi
if missing python3; then skips_all "there is no python3 here, so no example is run"; fi
pages=("${@:2}")
if [ ${#pages[@]} -eq 0 ]; then
    pages=("$top/README.md" "$top/docs/COOKBOOK.md" "$top/docs/MANUAL.md" "$top/docs/MANY.md" "$top/docs/nissy.1")
    if [ ! -e "$top/build/nissy.wasm" ] || missing node || missing tsc; then skips "web/module/README.md, no module, no node or no tsc here"; else
        holds "tsc compiles the module's scripts" "$top/tools/web-scripts"
        pages+=("$top/web/module/README.md")
    fi
    if [ -e "$top/build/libnissy.so" ]; then pages+=("$top/docs/PYTHON.md" "$top/docs/C.md"); else skips "docs/PYTHON.md and docs/C.md, no library here"; fi
fi
export CPATH=$top/include LIBRARY_PATH=$top/build LD_LIBRARY_PATH=$top/build PYTHONPATH=$top/python
drawn() { mkdir "$room/words" && "$top/tools/pictures" "$program" "$room/words" && diff -r "$room/words" "$top/docs/words"; }
holds "the pictures of docs/WORDS.md are those that tools/pictures draws" drawn
add python3 "$top/tests/documents/recipes.py" "$program" "${pages[@]}"
ended

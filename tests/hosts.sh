#!/usr/bin/env bash
# Asks Python, C++ and JavaScript by drawn calls, over the library and the module that were built, beside PROGRAM and the independent models, C too
# by changed texts; and for the best ways on, which C's own calls and the model of tests/model/ways.cpp have the same:
#
#     tests/hosts.sh [PROGRAM [FOLDER]]
#
# The scripts of tests/hosts ask more by other numbers.
set -u
# shellcheck source=tests/shared
. "$(dirname "$0")/shared"
program=$(program_of "$@") || exit 2
cd "$(dirname "$0")/.." || exit 2
folder=$(realpath -m -- "${2:-build}")
export NISSY_LIBRARY=$folder/libnissy.so.2

if missing python3 || [ ! -e "$NISSY_LIBRARY" ]; then skips_all "there is no python3 here, or no library that make lib built"; fi
typed tests/hosts/*.py
# -O0 after -O1, as in library.sh
others=() in_c=()
# shellcheck disable=SC2034 # by eval
sanitized=(-O0 "-fsanitize=address,undefined" -fno-sanitize-recover=all)
compiled() { g++ -std=c++17 -O1 -Wall -Wextra -Wpedantic -Werror -Iinclude "$@" -o "$room/caller" tests/hosts/caller.cpp "$folder/libnissy.a"; }
if missing g++; then skips "C++, since there is no g++"; else
    # shellcheck disable=SC2016 # the shell's own
    holds "caller.cpp compiles" eval 'compiled "${sanitized[@]}" || compiled'
    others+=("c++=$room/caller")
fi
compiled_in_c() { cc -std=c11 -D_GNU_SOURCE -O1 -Wall -Wextra -Wpedantic -Werror -Iinclude "$@" -o "$room/in_c" tests/hosts/caller.c "$folder/libnissy.a"; }
if missing cc; then skips "C, since there is no cc"; else
    # shellcheck disable=SC2016 # the shell's own
    holds "caller.c compiles" eval 'compiled_in_c "${sanitized[@]}" || compiled_in_c'
    in_c=("c=$room/in_c")
fi
if missing node || missing tsc || [ ! -e "$folder/nissy.wasm" ]; then
    skips "JavaScript, since there is no node, no tsc, or no module that make page built"
else
    holds "tsc compiles the scripts" tools/web-scripts
    others+=("js=$folder/nissy.wasm")
fi
part python3 tests/hosts/drawn.py "$program" 1 0.12 python "${others[@]}"
part python3 tests/hosts/after.py 1 600 python "${others[@]}"
part python3 tests/hosts/plain.py 1 1000 python "${others[@]}"
part python3 tests/hosts/mutated.py 1 1000 python "${others[@]}" "${in_c[@]}"
part python3 tests/hosts/net.py python "${others[@]}"
if missing g++; then skips "the best ways on, since there is no g++ for their model"; else
    holds "the model of the best ways on compiles" g++ -std=c++17 -O3 -Wall -Wextra -Werror -o "$room/ways" tests/model/ways.cpp
    part python3 tests/hosts/best.py 1 16 0 "$room/ways" 16 "${others[@]}"
    part python3 tests/hosts/best.py 2 5 1 "$room/ways" 5 "${others[@]}"
    part python3 tests/hosts/best.py 3 3 2 "$room/ways" 3 "${others[@]}"
fi
parts_end
ended

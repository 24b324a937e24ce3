#!/usr/bin/env bash
# Tries the library of `make lib` from C, C++ and Python, as they find it in FOLDER, beside PROGRAM: plain, with the sanitizers and under
# valgrind, by drawn calls, and in processes of their own. A buffer of tests/library/trial.h ends if no memory follows, so one byte too far
# ends the test.
#
#     tests/library.sh [PROGRAM [FOLDER]]
set -u
# shellcheck source=tests/shared
. "$(dirname "$0")/shared"
program=$(program_of "$@") || exit 2
cd "$(dirname "$0")/.." || exit 2
folder=$(realpath -- "${2:-build}")
export NISSY_LIBRARY=$folder/libnissy.so.2

if missing cc || [ ! -e "$folder/libnissy.a" ]; then skips_all "there is no C compiler here, or no library that make lib built"; fi
holds "the library has its files" test -s "$folder/libnissy.a" -a -s "$folder/libnissy.so.2" -a -s "$folder/libnissy.so"

shows_calls "$folder"
holds "its soname" test "$(objdump -p "$folder/libnissy.so.2" | awk '$1 == "SONAME" { print $2 }')" = libnissy.so.2
has_no_runnable_stack() { objdump -p "$folder/libnissy.so.2" | grep -A 1 STACK | grep -q 'flags rw-$'; }
holds "it asks for no stack that can be run" has_no_runnable_stack
names_level() { readelf -n "$1" | grep -q 'x86 ISA needed: .*x86-64-v2'; }
holds "it names the processors that it is for" names_level "$folder/libnissy.so.2"
holds "so does the archive" names_level "$folder/libnissy.a"

# each test in C, plain by the archive and by the shared object, with the sanitizers, and by valgrind
# where the parts put what they compile, and beside it, since one has the name of a header, the rows of tests/runs.tsv and calls.tsv as C
made=$room/made
mkdir "$made"
strict=(-O1 -Wall -Wextra -Wpedantic -Werror -Iinclude -Itests/library "-I$room/rows")
rows_in_c "$room/rows"
# -O0 after -O1, by which the sanitizers take a compiler more than twice as long
sanitized=(-O0 -g1 "-fsanitize=address,undefined" -fno-sanitize-recover=all)
for_races=(-O0 -g1 -fsanitize=thread)
compiled() { # PROGRAM NAME WORD..: compiles the test of this name against the archive, with these words too
    # shellcheck disable=SC2046 # no word or one
    cc -std=c11 "${strict[@]}" "${@:3}" -pthread $(wraps "$2") -o "$1" "tests/library/$2.c" "$folder/libnissy.a"
}
has_sanitizer() { # COMPILER WORD..: programs that are compiled with these words run here
    echo 'int main(void) { return 0; }' > "$room/empty.c"
    "$@" -o "$room/empty" "$room/empty.c" 2> /dev/null && "$room/empty"
}
is_sanitized=no sees_races=no
if has_sanitizer cc "${sanitized[@]}"; then is_sanitized=yes; else skips "cc has no sanitizers here"; fi
if has_sanitizer cc "${for_races[@]}"; then sees_races=yes; else skips "cc has no sanitizer for threads here"; fi
# in C++ clang takes half as long with them
sanitizing=g++
has_sanitizer clang "${sanitized[@]}" && has_sanitizer clang "${for_races[@]}" && sanitizing=clang++
missing valgrind && skips "valgrind isn't installed"
valgrinds() { missing valgrind || add valgrind -q --error-exitcode=99 "$@"; } # WORD..

tried() { # NAME: the test in C of this name
    local name=$1
    holds "$name.c compiles without a warning" compiled "$made/$name" "$name"
    add "$made/$name"
    # by the sanitizers a handler takes more than the small stack that it is to have
    if [ $is_sanitized = yes ] && [ "$name" != threads ] && [ "$name" != handlers ]; then
        holds "$name.c compiles with the sanitizers" compiled "$made/$name.sanitized" "$name" "${sanitized[@]}"
        add "$made/$name.sanitized"
    fi
    case $name in
        # It sees what the library itself reads and writes, unlike the sanitizer for threads, by which portable.sh tries the file in C.
        # Only searches, since a run takes it seconds.
        threads) valgrinds --tool=helgrind "$made/$name" 0 10 ;;
        # It makes each byte thirty times as slow. Its own malloc takes no wraps, and a handler's small stack isn't for it.
        calls | ways | sides) valgrinds --leak-check=full "$made/$name" few ;;
        facts) valgrinds --leak-check=full "$made/$name" ;;
    esac
    ended
}
for name in calls pieces facts ways sides text attempts threads fuzz memory handlers; do part tried $name; done

# the headers in C++, by each compiler that is here
compiled_by() { # COMPILER PROGRAM WORD..: compiles the test in C++, with these words too
    "$1" "${strict[@]}" "${@:3}" -pthread "$(wraps nissy)" -o "$2" tests/library/nissy.cpp "$folder/libnissy.a"
}
tells_older() { # COMPILER
    "$1" -std=c++14 -Iinclude -fsyntax-only -x c++ include/nissy.hpp 2>&1 | head -n 1 | grep -q 'nissy.hpp:.*is for C++17'
}
asks_microsofts() { # COMPILER: what the header asks of the standard, by one that says an older one where others do
    sed -n '/^#if .*_MSVC_LANG/,/^#endif/p' include/nissy.hpp | "$1" -std=c++14 -D_MSVC_LANG=201703L -fsyntax-only -x c++ -
}
read_strictly() { # COMPILER: callers have warnings of their own, and no header is one of the system
    local header more=(-Wconversion -Wsign-conversion -Wshadow -Wold-style-cast -Wcast-qual -Wundef)
    [ "$1" = clang++ ] || more+=(-Wuseless-cast)
    for header in include/*.hpp; do "$1" -std=c++17 "${strict[@]}" "${more[@]}" -x c++ -fsyntax-only "$header" || return; done
}
# Each compiler makes the program of one standard, and reads its text by the other: the headers do the same by both.
by_compiler() { # COMPILER STANDARD OTHER WORD..
    local compiler=$1
    holds "nissy.h is C++98 too, by $compiler" "$compiler" -std=c++98 "${strict[@]}" -x c++ -fsyntax-only include/nissy.h
    holds "so is nissy_text.h, by $compiler" "$compiler" -std=c++98 "${strict[@]}" -x c++ -fsyntax-only include/nissy_text.h
    # named beside an empty file, since not all of its functions are called in it
    holds "so is nissy_forms.h, by $compiler" "$compiler" -std=c++98 "${strict[@]}" -include nissy_forms.h -x c++ -fsyntax-only /dev/null
    holds "nissy.hpp tells C++14 that it is for C++17, by $compiler" tells_older "$compiler"
    holds "and reads the standard of Microsoft's compiler, as $compiler sees it" asks_microsofts "$compiler"
    holds "each header is read without further warnings, by $compiler" read_strictly "$compiler"
    # without -O1 clang++ takes less than half as long, and g++ as long
    holds "nissy.cpp compiles as $2 by $compiler" compiled_by "$compiler" "$made/$compiler" "-std=$2" "${@:4}"
    add "$made/$compiler"
    holds "nissy.cpp is read as $3 by $compiler" "$compiler" "-std=$3" "${strict[@]}" -fsyntax-only tests/library/nissy.cpp
    ended
}
# by one compiler with the sanitizers, and what g++ made by valgrind
with_sanitizers() {
    if [ $is_sanitized = yes ]; then
        holds "nissy.cpp compiles with the sanitizers" compiled_by $sanitizing "$made/plus.sanitized" -std=c++17 "${sanitized[@]}"
        add "$made/plus.sanitized"
    fi
    if [ $sees_races = yes ]; then # of what the header shares between threads
        holds "nissy.cpp compiles with the sanitizer for threads" compiled_by $sanitizing "$made/plus.raced" -std=c++17 "${for_races[@]}"
        add "$made/plus.raced"
    fi
    valgrinds --leak-check=full "$made/g++"
    ended
}
by_gcc=(by_compiler g++ c++17 c++20)
if missing g++; then skips "g++ isn't installed"; else
    part "${by_gcc[@]}"
    after="${by_gcc[*]}" part with_sanitizers
fi
if missing clang++; then skips "clang++ isn't installed"; else part by_compiler clang++ c++20 c++17 -O0; fi
printf '#include "nissy.h"\nint main(void) { return nissy_invert("R", 1, 0).status; }\n' > "$room/other.c"
holds "a call with too few arguments doesn't compile" refuses cc -std=c11 "${strict[@]}" -o "$room/other" "$room/other.c" "$folder/libnissy.a"

# the headers in other languages, by the lines of docs/C.md
bindings() { # FOLDER WORDS: those lines that begin so, in a folder that has the headers
    mkdir "$1" && cp include/*.h "$1" && sed -n '/^\*\*Bindings/,$s/^    //p' docs/C.md | grep -E "^($2) " | (cd "$1" && bash -e)
}
by_cffi() {
    holds "the lines for cffi end well" bindings "$made/cffi" sed
    cc "${strict[@]}" -shared -fPIC -o "$made/libforms.so" "$made/cffi/nissy_forms.c" -L"$folder" -Wl,--no-as-needed -lnissy -Wl,-rpath,"$folder"
    add python3 tests/library/by_cffi.py "$made/cffi/nissy.cdef" "$made/libforms.so"
    ended
}
read_by_bindgen() {
    bindings "$made/bindgen" "sed|bindgen" &&
        test "$(grep -oE 'pub fn [A-Za-z0-9_]+' "$made/bindgen/nissy.rs" | cut -c 8- | sort)" = "$({ declared && of_forms; } | sort)"
}
of_forms() { sed -n 's/^static inline .*\(nissy_[a-z_]*\)(.*/\1/p' include/nissy_forms.h; }
if python3 -c "import cffi" 2> /dev/null; then part by_cffi; else skips "cffi isn't installed"; fi
if missing bindgen; then skips "bindgen isn't installed"; else holds "bindgen reads each call of the headers for C, and no other" read_by_bindgen; fi

# The oldest processor that the library is for, which does some of its instructions otherwise, and one that is older. The positions of the
# last answer are the model's.
is_refused() { # COMMAND..: the older processor loads none of it
    local said
    said=$(qemu-x86_64 -cpu Penryn "$@" 2> /dev/null)
    [ $? -eq 127 ] && [ -z "$said" ]
}
on_old_processors() {
    add qemu-x86_64 -cpu Nehalem "$made/shared_calls" few
    answers "the program on an old processor" 0 'length 7 solutions 4 nodes 107\n' '' \
        qemu-x86_64 -cpu Nehalem "$program" count drud-eofb 20 "R U2 L' D R2 U' F2 L D' B2 R' U L2 D2 R U' F2 D L'"
    holds "an older one doesn't load the library" is_refused "$made/shared_calls" few
    ended
}
shared_one() {
    cc -std=c99 "${strict[@]}" -D_DEFAULT_SOURCE -o "$made/shared_calls" tests/library/calls.c -L"$folder" -lnissy -Wl,-rpath,"$folder"
}
holds "calls.c compiles against the shared object" shared_one
part "$made/shared_calls"
if missing qemu-x86_64; then skips "qemu-user isn't installed, so no other processor is tried"; else part on_old_processors; fi

if missing python3; then skips "there is no python3 here"; else
    typed tests/library/*.py
    for trial in processes values limits module copies many both_sides written kinds service shown; do part python3 tests/library/$trial.py; done
    if python3.7 -c "import ctypes" 2> /dev/null; then
        for trial in module copies many values limits both_sides written kinds processes shown; do part python3.7 tests/library/$trial.py; done
    else
        skips "Python 3.7, the oldest that the package is for, isn't installed"
    fi
fi
parts_end
ended

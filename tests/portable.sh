#!/usr/bin/env bash
# Tries the engine in C of `make c`, FOLDER/nissy.c, and the program over it, portable/main.c, beside PROGRAM: first the translator by itself, then
# what each compiler makes of the file, on each system that can be had here.
#
#     tests/portable.sh [PROGRAM [FOLDER]]
set -u
# shellcheck source=tests/shared
. "$(dirname "$0")/shared"
program=$(program_of "$@") || exit 2
cd "$(dirname "$0")/.." || exit 2
folder=$(realpath -m -- "${2:-build}")
if missing python3 || missing gcc; then skips_all "the engine in C, since there is no python3 or no gcc"; fi

typed tests/portable/*.py python/source/backend.py
if missing wat2wasm || missing node; then skips "the translator by itself, since there is no wat2wasm (wabt) or no node"; else
    add python3 tests/portable/rows.py 1 60
    add python3 tests/portable/refused.py
    add python3 tests/portable/wrong.py
fi
if [ ! -e "$folder/nissy.c" ]; then skips "the rest, since there is no nissy.c that make c made" && ended; exit; fi
again() { tools/c-file "$folder/niss_page.a" "$room/again.c" && cmp "$folder/nissy.c" "$room/again.c"; }
if missing rt || [ ! -e "$folder/niss_page.a" ]; then skips "writing the file again, since there is no kit or no archive"; else holds "the file has the same bytes again" again; fi

# compilers that refuse it, in a sentence, or have nothing to say
says_alone() { # SENTENCE FILE COMMAND..: it fails with this sentence and no other
    local said
    ! said=$("${@:3}" -Iinclude -fsyntax-only "$2" 2>&1) && [ "$(grep -c ' error: ' <<< "$said")" -eq 1 ] && grep -q " error: .*$1" <<< "$said"
}
holds "it tells a compiler for C90 what it needs" says_alone 'nissy.c needs a compiler for C11 or later' "$folder/nissy.c" gcc -std=c90
holds "and one for C++" says_alone 'nissy.c is C: compile it by a C compiler' "$folder/nissy.c" gcc -x c++
for words in -std=c90 "-x c++"; do
    # shellcheck disable=SC2086 # one word or two
    holds "so does its program with $words" says_alone 'main.c is C, from C99 on: compile it by a C compiler' portable/main.c gcc $words
done
cut() { sed '/the calls of nissy.h/,$d' "$folder/nissy.c" > "$room/cut.c" && says_alone 'unterminated #else' "$room/cut.c" gcc; }
holds "a file that was cut between two functions isn't compiled" cut
strict=(-std=c11 -O1 -Wall -Wextra -Wpedantic -Wconversion -Wsign-conversion -Wshadow -Wundef -Wcast-qual -Wstrict-prototypes -Werror)
# not optimized, which takes half the time: what runs here by itself, and is no compiler of another kind
plain=("${strict[@]}" -O0)
made() { # NAME COMPILER WORD..: compiles file and program
    "${@:2}" -Iinclude -c "$folder/nissy.c" -o "$room/$1.o" && "${@:2}" -Iinclude portable/main.c "$room/$1.o" -o "$room/$1"
}
each() { # WHAT COMMAND..: makes the program, unless its compiler isn't here, in the background
    local what=$1
    shift
    if missing "$2"; then skips "nissy.c by $2, which isn't here" && return; fi
    (holds "$what" made "$@"; echo "$passed $failed") > "$room/$1.made" 2>&1 &
}
passed_before=$passed failed_before=$failed
passed=0 failed=0
each "gcc compiles it without a warning" gcc gcc "${strict[@]}"
each "so does clang" clang clang "${strict[@]}" -Wno-cast-qual
each "so does musl's compiler" musl musl-gcc "${plain[@]}" -static
each "so does tcc" tcc tcc -std=c11 -Wall -Werror
each "byte by byte" bytewise gcc "${strict[@]}" -DNISSY_BYTEWISE=1
each "for Windows" windows x86_64-w64-mingw32-gcc "${plain[@]}"
each "for 32 bits" i686 i686-linux-gnu-gcc "${plain[@]}" -static
each "for ARM" aarch64 aarch64-linux-gnu-gcc "${strict[@]}" -static
each "for s390x, of the other byte order" s390x s390x-linux-gnu-gcc "${strict[@]}" -static
# only lines for the debugger: with all of -g the sanitizers take the compiler twice as long
sanitized=(-std=c11 -O1 -g1 "-fsanitize=address,undefined" -fno-sanitize-recover=all)
each "with the sanitizers" sanitized gcc "${sanitized[@]}"
each "with the sanitizer for threads" raced gcc -std=c11 -O1 -g1 -fsanitize=thread
wait
passed=$passed_before failed=$failed_before
for made in "$room"/*.made; do
    sed '$d' "$made"
    read -r more fewer < <(tail -n 1 "$made")
    passed=$((passed + more)) failed=$((failed + fewer))
done

# The program as the proved one is tried, and the same drawn runs by each compiler; what is slow by itself, or by an emulator, makes fewer. Parts have
# a room of their own, so they name this one.
compiled=$room
part tests/program.sh "$compiled/gcc"
part python3 tests/long_list.py "$program" "$compiled/gcc"
part python3 tests/model/hostile.py "$compiled/gcc" 1 0.02 devices,growing,memory,gone,waiting,words,files
others=() slow=()
ran_by() { # LIST NAME [RUNNER]: adds the program of a compiler that was here, with what runs it
    local -n list=$1
    [ -e "$compiled/$2" ] || return
    if [ $# -gt 2 ] && missing "$3"; then skips "running nissy.c for $2, since there is no $3" && return; fi
    list+=("program=${3:+$3 }$compiled/$2")
}
for name in gcc clang musl bytewise i686; do ran_by others $name; done
for name in tcc sanitized; do ran_by slow $name; done
for name in aarch64 s390x; do ran_by slow $name qemu-$name; done
mv "$compiled/windows.exe" "$compiled/windows" 2> /dev/null
if ! begin_wine "$compiled/wine" "$compiled/windows"; then skips "running nissy.c for Windows, since there is no wine"; else ran_by others windows "$wine"; fi
part python3 tests/hosts/drawn.py "$program" 1 0.04 "${others[@]}"
part python3 tests/hosts/drawn.py "$program" 1 0.01 "${slow[@]}"

# the library's tests over the file, in place of the library
linked() { # COMPILER NAME TEST WORD..: the test of this name with the file as it was compiled
    # shellcheck disable=SC2046 # no word or one
    "$1" -std=c11 -O1 -g1 "${@:4}" -pthread $(wraps "$3") -Iinclude -Itests/library -I"$compiled/rows" -o "$compiled/$2.$3" \
        "tests/library/$3.c" "$compiled/$2.o"
}
# by clang++, as it takes half as long
in_plus=(g++)
missing clang++ || in_plus=(clang++ -O0)
in_c_plus_plus() { # NAME WORD..: the headers in C++ over the file as it was compiled
    "${in_plus[@]}" -std=c++17 -DNISSY_IN_C "${@:2}" -pthread "$(wraps nissy)" -Iinclude -Itests/library -I"$compiled/rows" -o "$compiled/$1.plus" \
        tests/library/nissy.cpp "$compiled/$1.o"
}
rows_in_c "$compiled/rows"
tried() { # WHAT WORDS COMMAND..: links a test by a command, and runs it by these words, between blanks
    local words
    read -ra words <<< "$2"
    holds "$1" "${@:3}"
    add "${words[@]}"
    ended
}
for trial in "calls few" facts "ways few" "sides few" text attempts fuzz "threads 0 10"; do
    name=${trial%% *}
    part tried "$name.c is linked with nissy.c" "$compiled/sanitized.$trial" linked gcc sanitized "$name" "${sanitized[@]:2}"
done
by_other() { # NAME COMPILER RUNNER TEST..: each number of an answer, by a processor of another width or byte order
    local test
    [ -e "$compiled/$1.o" ] || return
    for test in "${@:4}"; do part tried "$test.c is linked with it for $1" "$3 $compiled/$1.$test few" linked "$2" "$1" "$test" -static; done
}
by_other i686 i686-linux-gnu-gcc "" calls facts ways sides text attempts
missing qemu-s390x || by_other s390x s390x-linux-gnu-gcc qemu-s390x facts ways sides text attempts
part tried "threads.c is linked with it for races" "$compiled/raced.threads 0 5" linked gcc raced threads -fsanitize=thread
if missing g++; then skips "nissy.hpp over nissy.c, since there is no g++"; else
    part tried "nissy.cpp is linked with it" "$compiled/gcc.plus" in_c_plus_plus gcc
    part tried "nissy.cpp is linked with it byte by byte, which takes memory for copies" "$compiled/bytewise.plus" in_c_plus_plus bytewise -DNISSY_BYTEWISE
fi
part tried "handlers.c is linked with it" "$compiled/gcc.handlers" linked gcc gcc handlers
parts_end
[ -z "$wine" ] || [ -z "$server" ] || end_wine
ended

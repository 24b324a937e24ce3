#!/usr/bin/env bash
# Tries the C that stands for the kit's on ARM beside the kit's own; and what `make arm` built for Linux on 64-bit ARM, by qemu-aarch64: the program
# by rows and by drawn runs beside PROGRAM, and the library by its tests in C and C++, which are compiled for it.
#
#     tests/arm.sh [PROGRAM [FOLDER]]
#
# The program is build/nissy if none is named, and the folder build/aarch64.
set -u
# shellcheck source=tests/shared
. "$(dirname "$0")/shared"
program=$(program_of "$@") || exit 2
cd "$(dirname "$0")/.." || exit 2
folder=$(realpath -m -- "${2:-build/aarch64}")
cross=aarch64-linux-gnu
strict=(-std=c11 -O1 -g -Wall -Wextra -Wpedantic -Werror)

# the C that is ours, for this machine, under other names beside the kit's
beside_kit() {
    local part kit
    kit=$(dirname "$(rt doc)")
    for part in memory words; do
        cc "${strict[@]}" -Wconversion -c -o "$room/$part.o" packaging/aarch64/$part.c &&
            nm "$room/$part.o" | sed -n 's/.* T rattle_\(.*\)/rattle_\1 our_\1/p' > "$room/names" &&
            objcopy --redefine-syms="$room/names" "$room/$part.o" || return
    done
    cc "${strict[@]}" -o "$room/beside_kit" tests/arm/beside_kit.c "$room"/{memory,words}.o "$kit"/c/{libos_c,liblibc_c}.a
}
if [ "$(uname -m)" != x86_64 ] || missing cc || missing rt; then
    skips "the C that stands for the kit's on ARM, since there is no kit for x86-64 here, or no C compiler"
else
    holds "our C compiles without a warning" beside_kit
    add "$room/beside_kit" "" R "U' F2" "a word that is somewhat longer than the others, of all bytes but 0: $(printf '\xff')"
fi

left_out() { # WHY
    skips "program and library for ARM, since $1"
    ended
    exit
}
[ -e "$folder/nissy" ] || left_out "make arm built none; \`make test ARM=yes\` has it prove and build them"
if missing qemu-aarch64 || missing $cross-gcc; then left_out "qemu-user or gcc-$cross isn't installed"; fi

# what the program and the library are
is_for_arm() { readelf -hW "$1" | grep -q 'Machine: *AArch64'; }
for file in nissy libnissy.so.2; do holds "$file is for ARM" is_for_arm "$folder/$file"; done
shows_calls "$folder" "$cross-"
holds "the program needs only the C library" test "$(needed $cross-objdump -p "$folder/nissy")" = libc.so.6
newest() { $cross-objdump -T "$1" | grep -oE 'GLIBC_[0-9.]+' | sort -Vu | tail -n 1; }
holds "the library needs its version 2.17" test "$(newest "$folder/libnissy.so.2")" = GLIBC_2.17
holds "the program 2.34" test "$(newest "$folder/nissy")" = GLIBC_2.34

# the program
by_qemu=(qemu-aarch64 -L "/usr/$cross")
printf '#!/bin/sh\nexec %s "%s/nissy" "$@"\n' "${by_qemu[*]}" "$folder" > "$room/nissy"
chmod +x "$room/nissy"
if missing python3; then skips "rows and drawn runs, since there is no python3 here"; else
    add python3 tests/runs.py "$room/nissy"
    add python3 tests/hosts/drawn.py "$program" 1 0.05 "program=$room/nissy"
fi

# the library
compiled() { # NAME
    # shellcheck disable=SC2046 # no word or one
    $cross-gcc "${strict[@]}" -Iinclude -Itests/library -I"$room/rows" -pthread $(wraps "$1") -o "$room/$1" "tests/library/$1.c" "$folder/libnissy.a"
}
# emulated, each byte takes many times as long
declare -A fewer=([calls]=few [ways]=few [sides]=few [threads]="1 40" [fuzz]="1 5")
rows_in_c "$room/rows"
for name in calls facts ways sides text memory threads handlers fuzz; do
    holds "$name.c compiles for ARM" compiled "$name"
    # shellcheck disable=SC2086 # words
    add "${by_qemu[@]}" "$room/$name" ${fewer[$name]-}
done
shared_one() { $cross-gcc "${strict[@]}" -Iinclude -Itests/library -I"$room/rows" -o "$room/shared_calls" tests/library/calls.c -L"$folder" -lnissy; }
holds "calls.c compiles against the shared object" shared_one
add "${by_qemu[@]}" -E LD_LIBRARY_PATH="$folder" "$room/shared_calls" few
if missing $cross-g++; then skips "the library in C++, since g++-$cross isn't installed"; else
    in_cpp() {
        $cross-g++ -std=c++17 "${strict[@]:1}" -Iinclude -Itests/library -I"$room/rows" -pthread "$(wraps nissy)" -o "$room/cpp" \
            tests/library/nissy.cpp "$folder/libnissy.a"
    }
    holds "nissy.cpp compiles for ARM" in_cpp
    add "${by_qemu[@]}" "$room/cpp"
fi
ended

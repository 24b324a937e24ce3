#!/usr/bin/env bash
# Installs into a folder of its own, with the library if `make lib` built it, and takes everything away again; compares the names that
# completions and manuals give with those of PROGRAM. The library is found by pkg-config and by CMake.
#
#     tests/install.sh [PROGRAM]
set -u
# shellcheck source=tests/shared
. "$(dirname "$0")/shared"
program=$(program_of "$@") || exit 2
cd "$(dirname "$0")/.." || exit 2
top=$PWD

# The Makefile's program is the one that was handed over, so that nothing is built. The folder has blanks in its name.
packed="$room/a package of its own"
usr=$packed/usr
version=$(tools/version)
library=no
if [ -e build/libnissy.so ]; then library=yes; else skips "the library, which wasn't built"; fi
by_make() { make --no-print-directory -o build/nissy -o build/libnissy.a LIBRARY=$library "$@"; }
install_at() { by_make "$1" DESTDIR="$packed" PREFIX=/usr PYTHONDIR=/usr/lib/python3/dist-packages; }
with_program() {
    mkdir -p "$room/source/build" "$room/source/crates/niss_c" && cp -R crates/niss_c/{src,specs} "$room/source/crates/niss_c" &&
        cp -R Makefile CHANGELOG.md docs completions examples include packaging python tools web "$room/source" &&
        cp "$program" "$room/source/build/nissy" && { [ $library = no ] || cp -P build/libnissy.* "$room/source/build"; }
}
holds "the files are there" with_program
cd "$room/source" || exit 2
holds "make install succeeds" install_at install
without_kit() { # where there is no rt, a build says what is missing
    local make said
    make=$(command -v make)
    mkdir -p "$room/tools" && ln -sf "$(command -v find)" "$room/tools" && ! said=$(PATH=$room/tools "$make" -C "$top" -B "$1" 2>&1) &&
        grep -q 'no rt on the PATH: .* Rattle kit' <<< "$said"
}
for target in all lib page test; do holds "make $target names the kit where there is none" without_kit $target; done

# The mode and the place of each file, and where it comes from.
wanted="755 bin/nissy build/nissy
644 share/bash-completion/completions/nissy completions/nissy.bash
644 share/doc/nissy/COOKBOOK.md docs/COOKBOOK.md
644 share/doc/nissy/MANUAL.md docs/MANUAL.md
644 share/doc/nissy/MANY.md docs/MANY.md
644 share/doc/nissy/WORDS.md docs/WORDS.md
$(find docs/words -name '*.svg' -printf '644 share/doc/nissy/words/%f %p\n')
644 share/fish/vendor_completions.d/nissy.fish completions/nissy.fish
644 share/man/man1/nissy.1 docs/nissy.1
644 share/zsh/site-functions/_nissy completions/_nissy"
if [ $library = yes ]; then
    wanted="$wanted
$(find include \( -name '*.h' -o -name '*.hpp' \) -printf '644 %p %p\n')
644 lib/cmake/nissy/nissy-config-version.cmake packaging/cmake/nissy-config-version.cmake
644 lib/cmake/nissy/nissy-config.cmake packaging/cmake/nissy-config.cmake
644 lib/libnissy.a build/libnissy.a
777 lib/libnissy.so build/libnissy.so.2
755 lib/libnissy.so.2 build/libnissy.so.2
644 lib/pkgconfig/nissy.pc include/nissy.pc
$(cd python && find nissy \( -name '*.py' -o -name py.typed \) -printf '644 lib/python3/dist-packages/%p python/%p\n')
$(find examples -name '*.py' -printf '644 share/doc/nissy/%p %p\n')
644 share/doc/nissy/C.md docs/C.md
644 share/doc/nissy/PYTHON.md docs/PYTHON.md"
fi
wanted=$(LC_ALL=C sort -k 2,2 <<< "$wanted")
stands() { (cd "$1" && find . ! -type d -printf '%m %P\n' | LC_ALL=C sort -k 2,2); }
are_copies() {
    while read -r _ place source; do cmp "$usr/$place" "$source" || return; done <<< "$wanted"
}
holds "each file stands in its place with its mode, and no other" test "$(stands "$usr")" = "$(cut -d ' ' -f 1,2 <<< "$wanted")"
holds "each file is a copy of its source" are_copies
holds "make install names each file" test "$(install_at install | LC_ALL=C sort)" = "$(find "$usr" ! -type d | LC_ALL=C sort)"
holds "the installed program runs" test "$("$usr/bin/nissy" invert "R U' F2")" = "F2 U R'"
if [ $library = yes ]; then
    if ! missing python3; then
        by_module() { PYTHONPATH=$1/lib/python3/dist-packages python3 -B -c 'import nissy; print(nissy.invert("R U"), nissy._library.LIBRARY._name)'; }
        found=$(realpath "$usr/lib/libnissy.so.2")
        holds "the installed module finds the library beside it" test "$(realpath -- "$(by_module "$usr" | cut -d ' ' -f 3-)")" = "$found"
    else
        skips "there is no python3 here"
    fi
    if ! missing pkg-config; then
        by_pkg_config() { PKG_CONFIG_PATH="$usr/lib/pkgconfig" pkg-config "$@" nissy; }
        holds "pkg-config knows the library's version" test "$(by_pkg_config --modversion)" = "$version"
        compiled_by_pkg_config() {
            write_caller "$room/one.c"
            eval "cc -o '$room/one' '$room/one.c' $(by_pkg_config --cflags --libs)" && LD_LIBRARY_PATH=$usr/lib "$room/one"
            [ $? -eq 4 ]
        }
        holds "a program compiles by what pkg-config says" compiled_by_pkg_config
    else
        skips "pkg-config isn't installed"
    fi
    if ! missing cmake; then
        cmake_project() { # FOLDER: a project of two files, which is built by what is installed
            mkdir -p "$1" && printf '%s\n' 'cmake_minimum_required(VERSION 3.13)' 'project(one C)' "find_package(nissy $version REQUIRED)" \
                'add_executable(one one.c)' 'target_link_libraries(one nissy::nissy)' 'add_executable(static one.c)' \
                'target_link_libraries(static nissy::static)' > "$1/CMakeLists.txt" && write_caller "$1/one.c"
        }
        built_by_cmake() { # FOLDER PREFIX
            cmake_project "$1" && cmake -S "$1" -B "$1/made" -DCMAKE_PREFIX_PATH="$2" && cmake --build "$1/made" || return
            for made in one static; do "$1/made/$made"; [ $? -eq 4 ] || return; done
        }
        holds "a project of CMake is built" built_by_cmake "$room/project" "$usr"
        refused_by_cmake() { sed -i "s/nissy $version/nissy 99.0/" "$room/project/CMakeLists.txt" && ! cmake -S "$room/project" -B "$room/other" -DCMAKE_PREFIX_PATH="$usr"; }
        holds "one that asks for a later version isn't" refused_by_cmake
    else
        skips "cmake isn't installed"
    fi
    # where a user without the rights of root installs
    if missing python3; then skips "there is no python3 here"; else
        python=/usr/bin/python3
        [ -x $python ] || python=python3
        at_home() { HOME=$room/user by_make "$1" PREFIX="$room/user/.local"; }
        by_python() {
            env -C / -u PYTHONPATH -u PYTHONNOUSERSITE -u NISSY_LIBRARY HOME="$room/user" $python -c 'import nissy; print(nissy.invert("R U"))'
        }
        holds "make install takes a user's own folder" at_home install
        holds "and Python finds the module there at once" test "$(by_python)" = "U' R'"
        holds "make uninstall takes it away" at_home uninstall
        holds "and nothing is left there" test -z "$(find "$room/user" ! -type d -o -name '*nissy*')"
    fi
    # as on Debian, where each kind of processor has a folder for its libraries
    multiarch=lib/x86_64-linux-gnu
    holds "make install takes a folder for libraries" by_make install DESTDIR="$room/multiarch" PREFIX=/usr LIBDIR=/usr/$multiarch PYTHONDIR=/usr/lib/python3
    holds "the libraries stand there" test -e "$room/multiarch/usr/$multiarch/libnissy.so.2"
    holds "and the module in the folder for Python" test -e "$room/multiarch/usr/lib/python3/nissy/__init__.py"
    if ! missing pkg-config; then
        flags() { PKG_CONFIG_PATH="$room/multiarch/usr/$multiarch/pkgconfig" pkg-config "$@" nissy; }
        holds "pkg-config finds the header from there" test -e "$(flags --cflags-only-I | sed 's/^-I//; s/ *$//')/nissy.h"
    fi
    missing cmake || holds "CMake does, too" built_by_cmake "$room/project of many" "$room/multiarch/usr"
fi
mv docs/MANUAL.md docs/elsewhere
holds "make install fails where a file is missing" refuses install_at install
mv docs/elsewhere docs/MANUAL.md

share=$usr/share
steps=$("$program" steps)
# the number that CHANGELOG.md closed, wherever one is named
finds_another() { # FILE FROM TO
    cp "$1" "$room/kept" && sed -i "s/$2/$3/" "$1" && ! cmp -s "$1" "$room/kept" || return
    tools/version --check 2>&1 | grep -qx "$1 names another version than .*"
    set -- "$1" $?
    cp "$room/kept" "$1"
    return "$2"
}
if missing python3; then skips "there is no python3 here"; else
    holds "each place names the version of CHANGELOG.md" tools/version --check
    for file in include/nissy.pc include/nissy.h docs/nissy.1 python/pyproject.toml packaging/cmake/nissy-config-version.cmake web/module/package.json; do
        holds "another version in $file is found" finds_another "$file" "$version" 9.9.9
    done
fi

holds "the program lists its steps" test -n "$steps"
completed() { # the words that bash offers after these
    bash -c '. "$0"; COMP_WORDS=("$@" ""); COMP_CWORD=$#; _nissy; printf "%s\n" "${COMPREPLY[@]}"' \
        "$share/bash-completion/completions/nissy" "$@"
}
for command in solve count near; do
    holds "bash completes the steps of $command" test "$(completed nissy "$command")" = "$steps"
done
holds "bash offers nothing where moves stand" test -z "$(completed nissy invert)$(completed nissy solve eofb 20)"
# shellcheck disable=SC2016 # that bash is to read $FILE and $@
by_tab() { # LINE: its words and its input, after the Tab key, in a bash that stands beside a file
    printf '. "$FILE"\nnissy() { printf "%%s\\n" "$@"; cat; }\n%s\t\n' "$1" |
        FILE=$share/bash-completion/completions/nissy HOME=$room/typed env -C "$room/typed" bash --norc --noprofile -i 2> /dev/null
}
mkdir "$room/typed" && echo "R U" > "$room/typed/scrambles.txt"
holds "bash completes a file after <" test "$(by_tab "nissy invert < scr")" = "$(printf 'invert\nR U')"
holds "and one after >" test "$(by_tab "nissy steps < /dev/null > scr"; cat "$room/typed/scrambles.txt")" = steps
holds "and none among moves" test "$(by_tab "nissy invert scr")" = "$(printf 'invert\nscr')"
listed_in() { # PAGE: the commands that it offers or explains
    case $1 in
        */_nissy) sed -n "s/^ *'\([a-z]*\):.*/\1/p" "$1" ;;
        *.fish) sed -n 's/.*use_subcommand -a \([a-z]*\) .*/\1/p' "$1" ;;
        *.md) sed -n '/^## Commands/,/^## Steps/s/^| `\([a-z]*\).*/\1/p' "$1" ;;
        *.1) sed -n '/^\.SS Commands/,/^\.SS Steps/s/^\.BI\{0,1\} \([a-z][a-z]*\).*/\1/p' "$1" ;;
    esac
}
commands=$(listed_in docs/MANUAL.md | LC_ALL=C sort)
holds "the manual lists the commands" test -n "$commands"
holds "bash completes the commands" test "$(completed nissy | LC_ALL=C sort)" = "$commands"
named_in() { sed 's/\\-/-/g' "$1" | tr -cs 'a-z-' '\n' | grep -Fx -e "$2" > /dev/null; }
all_named() { # each step is named in the file
    local name
    for name in $steps; do
        named_in "$1" "$name" || { echo "$name isn't named"; return 1; }
    done
}
holds "each link of the installed pages leads to one of them" test -z "$(dead_links "$share/doc/nissy")"
for page in zsh/site-functions/_nissy fish/vendor_completions.d/nissy.fish doc/nissy/MANUAL.md man/man1/nissy.1; do
    holds "$page lists the commands" test "$(listed_in "$share/$page" | LC_ALL=C sort)" = "$commands"
    holds "$page names each step" all_named "$share/$page"
done

if ! missing zsh; then
    holds "zsh reads its completion" zsh -n "$share/zsh/site-functions/_nissy"
else
    skips "zsh isn't installed"
fi
if ! missing fish; then
    # shellcheck disable=SC2016 # fish itself is to read $argv
    holds "fish completes the steps" test "$(HOME=$room fish --no-config -c 'source $argv[1]; complete -C "nissy count "' \
        "$share/fish/vendor_completions.d/nissy.fish" | LC_ALL=C sort)" = "$(echo "$steps" | LC_ALL=C sort)"
else
    skips "fish isn't installed"
fi
if ! missing mandoc; then
    holds "the manual page is clean" mandoc -T lint -W style "$share/man/man1/nissy.1"
else
    skips "mandoc isn't installed"
fi

if [ $library = yes ] && ! missing python3; then
    holds "Python reads the module, and keeps its bytes beside it" \
        env -u PYTHONDONTWRITEBYTECODE PYTHONPATH="$usr/lib/python3/dist-packages" python3 -c 'import nissy'
fi
holds "make uninstall succeeds" install_at uninstall
holds "nothing is left" test -z "$(find "$packed" ! -type d)"
holds "no folder of its own is left" test ! -e "$share/doc/nissy"
with_others() { # installs among files that aren't its own
    install_at install && touch "$usr/bin/other" "$share/doc/other" "$share/doc/nissy/other"
}
holds "make install succeeds again" with_others
holds "make uninstall succeeds beside other files" install_at uninstall
holds "the other files are left" test "$(find "$packed" -type f | wc -l)" -eq 3
holds "make uninstall succeeds if nothing is installed" install_at uninstall
builds_first() { make -n -B install | grep -F 'tools/program build/nissy'; }
cd "$top" || exit 2
holds "make install proves and builds first" builds_first
ended

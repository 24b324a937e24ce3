#!/usr/bin/env bash
# Makes what `make dist` makes of what is built, twice, and installs, uses and takes away each package in a folder of its own:
#
#     tests/packages.sh [PROGRAM]
#
# What can't be made or tried here is skipped, and named.
set -u
# shellcheck source=tests/shared
. "$(dirname "$0")/shared"
program=$(program_of "$@") || exit 2
cd "$(dirname "$0")/.." || exit 2
top=$PWD version=$(tools/version)
if [ ! -e build/libnissy.a ]; then skips_all "the packages, since there is no library that make lib built"; fi

made_by() { make -n "$1" 2> /dev/null | grep -q "^tools/$2 build"; } # TARGET TOOL
for names in wheel:wheel npm:npm-package deb:deb c:c-archive sdist:sdist windows:windows dist:dist; do
    holds "make ${names%:*} packs by tools/${names#*:}" made_by "${names%:*}" "${names#*:}"
done

# what a user's own make would do, in a copy in which nothing is proved
copied() {
    mkdir -p "$room/source/build" && cp -R Makefile CHANGELOG.md README.md completions docs examples include packaging portable python tools web "$room/source" &&
        mkdir -p "$room/source/tests/browsers" && cp tests/browsers/page.d.ts "$room/source/tests/browsers" &&
        cp "$program" "$room/source/build/nissy" && cp build/libnissy.* "$room/source/build" &&
        if [ -e build/aarch64/nissy ]; then cp -R build/aarch64 "$room/source/build"; fi &&
        if [ -e build/nissy.html ]; then cp build/nissy.html build/nissy.wasm "$room/source/build"; fi &&
        if [ -e build/nissy.c ]; then cp build/nissy.c "$room/source/build"; fi
}
holds "the files are there" copied
made=$room/dist
# at the same time, in another folder, as another user might have it
made_by_another() (cd "$room/later" && umask 077 && find . -type f -exec touch -d 2001-01-01 {} + && tools/dist "$room/again")
cp -R "$room/source" "$room/later"
made_by_another > "$room/said.again" 2>&1 &
cd "$room/source" || exit 2
tools/dist "$made" > "$room/said" || fails "the packages are made"
wait $! || fails "the packages are made again"
while read -r line; do skips "$line"; done < <(grep 'left out' "$room/said")
holds "each has the same bytes again" diff -r "$made" "$room/again"
holds "the sums are those of the files" env -C "$made" sha256sum --quiet -c SHA256SUMS
holds "and of each file" test "$(wc -l < "$made/SHA256SUMS")" = "$(find "$made" -type f ! -name SHA256SUMS | wc -l)"

# the archive
archive=nissy-$version-x86_64-linux
mkdir "$room/unpacked"
holds "the archive is unpacked" tar -C "$room/unpacked" -xpf "$made/$archive.tar.gz"
installed() { make --no-print-directory -o build/nissy -o build/libnissy.a install DESTDIR="$room/installed" PREFIX=/usr PYTHONDIR=/usr/lib/python3/dist-packages; }
holds "what is installed" installed
stands_in() { (cd "$1" && find . ! -type d ! -name README -printf '%m %P\n' | LC_ALL=C sort); }
holds "is what the archive has" test "$(stands_in "$room/unpacked/$archive")" = "$(stands_in "$room/installed/usr")"
holds "its README is the one that is kept" cmp "$room/unpacked/$archive/README" docs/archive.txt
# what nobody has who has only a package
of_repository='\bmake (all|lib|page|dist|test|install|build)|repository|(crates|tests|tools|web|bench)/'
holds "its pages speak of nothing that only the repository has" refuses grep -rnE "$of_repository" "$room/unpacked/$archive"/{README,share}
holds "the program of the archive runs" test "$("$room/unpacked/$archive/bin/nissy" invert "R U' F2")" = "F2 U R'"
# what its README says to do as root, with a folder in the place of /usr/local
by_readme() { # COMMAND: the line that begins so
    local line
    line=$(grep "^    $1 .*/usr/local.* && ldconfig$" "$room/unpacked/$archive/README") || return
    line=${line% && ldconfig}
    env -C "$room/unpacked/$archive" bash -c "${line//\/usr\/local/\"$room/local\"}"
}
mkdir "$room/local"
holds "the archive is installed as its README says" by_readme cp
holds "all of it" test "$(stands_in "$room/local")" = "$(stands_in "$room/installed/usr")"
holds "it is taken away as its README says" by_readme find
holds "without a trace" test -z "$(find "$room/local" ! -type d -o -name '*nissy*')"

# the wheel, in an environment of its own
wheel=$made/nissy-$version-py3-none-manylinux_2_17_x86_64.manylinux2014_x86_64.whl
if [ ! -e "$wheel" ]; then skips "the wheel, which wasn't made"; elif ! /usr/bin/python3 -m venv "$room/venv" > /dev/null 2>&1; then
    skips "the wheel, since Python makes no environment here (python3-venv)"
else
    pip() { "$room/venv/bin/python" -m pip --disable-pip-version-check "$@"; }
    in_venv() { (cd / && env -u PYTHONPATH -u NISSY_LIBRARY "$room/venv/bin/python" "$@"); }
    stands() { find "$room/venv" ! -name '*.pyc' ! -name __pycache__ | sort; }
    before=$(stands)
    holds "the wheel is installed" pip install -q --no-index "$wheel"
    holds "its page speaks of nothing that only the repository has" refuses grep -nE "$of_repository" \
        "$room"/venv/lib/python3*/site-packages/nissy-*.dist-info/METADATA
    # shellcheck disable=SC2016 # the backticks are the page's
    prints_page() { # each line that its page has after a call
        sed -n '/^```python$/,/^```$/p' "$room"/venv/lib/python3*/site-packages/nissy-*.dist-info/METADATA | sed '/^```/d' > "$room/page.py" &&
            sed -n 's/^print.*  # //p' "$room/page.py" > "$room/wanted" && [ -s "$room/wanted" ] && in_venv "$room/page.py" > "$room/printed" &&
            diff "$room/wanted" <(grep -xFf "$room/wanted" "$room/printed")
    }
    holds "the example of its page prints what the page says" prints_page
    says() { grep -qxF "$1" "$room"/venv/lib/python3*/site-packages/nissy-*.dist-info/WHEEL; }
    holds "it isn't only of Python" says "Root-Is-Purelib: false"
    for platform in manylinux_2_17 manylinux2014; do holds "it is for $platform" says "Tag: py3-none-${platform}_x86_64"; done
    holds "its module finds the library beside it" test "$(in_venv -c 'import nissy; print(nissy.invert("R U"), nissy.__version__)')" = "U' R' $version"
    holds "and prints the best ways on" test "$(in_venv -m nissy "R U F" --most 1 | cut -d , -f 1)" = "2 moves: eofb F"
    if missing mypy; then skips "mypy isn't installed"; else
        printf 'import nissy\n\nlength: int = nissy.solve("eofb", "R U F")[0].length\n' > "$room/typed.py"
        holds "its types are found" env -C / mypy --strict --cache-dir "$room/mypy" --python-executable "$room/venv/bin/python" "$room/typed.py"
        printf 'import nissy\n\nlength: str = nissy.count("eofb", "R U F")\n' > "$room/untyped.py"
        holds "and seen where they don't fit" refuses env -C / mypy --strict --cache-dir "$room/mypy" --python-executable "$room/venv/bin/python" "$room/untyped.py"
    fi
    holds "the wheel is taken away" pip uninstall -q -y nissy
    holds "without a trace" test "$(stands)" = "$before"
    needs_library() { rm build/libnissy.so.2 && ! said=$(tools/wheel "$room" 2>&1) && grep -q 'make lib' <<< "$said"; }
    holds "a build without the library says what makes it" needs_library
fi

# the engine in C, by the words of its README, and without the kit on the PATH
release=$made/nissy-$version-c.tar.gz
by_system() { env -i PATH=/usr/bin:/bin HOME="$room" LANG=C.UTF-8 "$@"; }
if [ ! -e "$release" ]; then skips "the archive in C, which wasn't made"; elif missing cc; then skips "the archive in C, since there is no C compiler"; else
    holds "the archive in C is unpacked" tar -C "$room/unpacked" -xpf "$release"
    cd "$room/unpacked/nissy-$version-c" || exit 2
    mapfile -t commands < <(sed -n 's/^    \(cc .* -o nissy\|\.\/nissy .*\)$/\1/p' README.md)
    by_its_readme() { [ "${#commands[@]}" -eq 2 ] && by_system bash -c "${commands[0]}" && [ "$(by_system bash -c "${commands[1]}")" = "F2 U R'" ]; }
    holds "its program is built and runs by its README" by_its_readme
    in_place() { # a caller, with what README says to take in the place of -lnissy
        local words
        words=$(tr '\n' ' ' < README.md | grep -o -- '-I\. nissy\.c') && write_caller "$room/one.c" &&
            by_system bash -c "cc -O1 '$room/one.c' -o '$room/one' $words" && "$room/one"
        [ $? -eq 4 ]
    }
    holds "another program is compiled with nissy.c by its README" in_place
    holds "each link of its pages leads to one of them" test -z "$(dead_links .)"
    holds "they speak of nothing that only the repository has" refuses grep -nE "$of_repository" ./*.md
    holds "its header is the library's" cmp nissy.h "$room/source/include/nissy.h"
    if missing cmake; then skips "CMake isn't installed"; else
        by_cmake() {
            by_system cmake -S . -B built -DCMAKE_BUILD_TYPE=Release -DCMAKE_INSTALL_PREFIX="$room/cmade" -DCMAKE_INSTALL_LIBDIR=lib "$@" &&
                by_system cmake --build built && by_system cmake --install built
        }
        block() { sed -n "/^\`\`\`$1\$/,/^\`\`\`\$/p" | sed '1d;/^```$/,$d'; } # KIND: the first block of this kind
        uses_it() { # as another project finds it, by the files that its page has
            mkdir -p "$room/other" && block cmake < C.md > "$room/other/CMakeLists.txt" && block cpp < C.md > "$room/other/yours.cpp" &&
                by_system cmake -S "$room/other" -B "$room/other/built" -DCMAKE_PREFIX_PATH="$room/cmade" && by_system cmake --build "$room/other/built" &&
                diff <(sed -n '/^```cpp$/,$p' C.md | block text) <("$room/other/built/yours")
        }
        holds "CMake builds and installs it" by_cmake -DCMAKE_C_FLAGS_RELEASE=-O1
        holds "each header is there" diff <(ls -- *.h *.hpp) <(ls "$room/cmade/include")
        holds "its program runs from there" test "$("$room/cmade/bin/nissy" invert "R U' F2")" = "F2 U R'"
        holds "another project finds its library, as its page says" uses_it
    fi
    cd "$room/source" || exit 2
    needs_file() { mv build/nissy.c "$room/kept.c" && ! said=$("tools/$1" "$room" 2>&1) && mv "$room/kept.c" build/nissy.c && grep -q 'make c' <<< "$said"; }
    for tool in c-archive sdist; do holds "tools/$tool without nissy.c says what makes it" needs_file $tool; done
fi

# the Python package in C, in an environment of its own, only by pip and a compiler
source_package=$made/nissy-$version.tar.gz
if [ ! -e "$source_package" ] || missing cc || { [ ! -e "$room/venv" ] && ! /usr/bin/python3 -m venv "$room/venv" > /dev/null 2>&1; }; then
    skips "the Python package in C, which wasn't made, or has no compiler or no environment here"
else
    pip() { by_system "${in_pip[@]}" "$room/venv/bin/python" -m pip --disable-pip-version-check "$@"; }
    in_venv() { (cd / && by_system "$room/venv/bin/python" "$@"); }
    in_pip=(CFLAGS=-O1)
    holds "the Python package in C is installed" pip install -q --no-index "$source_package"
    says_all='import nissy; print(nissy.invert("R U"), nissy.__version__, nissy.count("eofb", "R U F").solutions, nissy.run(["steps"]).status)'
    holds "its module finds the library that was compiled" test "$(in_venv -c "$says_all")" = "U' R' $version 2 0"
    holds "and prints the best ways on" test "$(in_venv -m nissy "R U F" --most 1 | cut -d , -f 1)" = "2 moves: eofb F"
    library=$(find "$room/venv" -name libnissy.so.2)
    for trial in module copies values limits written; do add env NISSY_LIBRARY="$library" python3 "$top/tests/library/$trial.py"; done
    holds "it is taken away" pip uninstall -q -y nissy
    mkdir "$room/none"
    for tool in bash env sh; do ln -s "$(command -v $tool)" "$room/none"; done
    tells_compiler() { ! said=$(env -i PATH="$room/none" HOME="$room" "$room/venv/bin/python" -m pip install --no-index "$source_package" 2>&1) && grep -q "$1" <<< "$said"; }
    holds "without a compiler it says so" tells_compiler 'nissy: there is no C compiler here: install one for C11, or name it by CC'
fi

# what is for Windows, by wine
zip=$made/nissy-$version-win64.zip
if [ ! -e "$zip" ]; then skips "what is for Windows, which wasn't made"; else
    unpacks_zip() { python3 -c 'import sys, zipfile; zipfile.ZipFile(sys.argv[1]).extractall(sys.argv[2])' "$zip" "$room/unpacked"; }
    holds "the zip for Windows is unpacked" unpacks_zip
    windows=$room/unpacked/nissy-$version-win64
    in_wheel() { python3 -c 'import sys, zipfile; sys.stdout.buffer.write(zipfile.ZipFile(sys.argv[1]).read("nissy/nissy.dll"))' "$made/nissy-$version-py3-none-win_amd64.whl"; }
    holds "its wheel has the same library" cmp "$windows/nissy.dll" <(in_wheel)
    holds "each link of its pages leads to one of them" test -z "$(dead_links "$windows")"
    holds "they speak of nothing that only the repository has" refuses grep -nE "$of_repository" "$windows"/{*.md,README.txt}
    if ! begin_wine "$room/wine" "$windows/nissy.exe"; then skips "running it, since there is no wine"; else
        # what wine says of itself comes beside it
        holds "the program for Windows" test "$("$wine" "$windows/nissy.exe" invert "R U' F2" 2> /dev/null)" = "F2 U R'"
        calls_library() { # a program that finds the library beside it
            write_caller "$room/one.c" && (cd "$windows" && x86_64-w64-mingw32-gcc "$room/one.c" -I. -L. -lnissy -o one.exe && "$wine" ./one.exe)
            [ $? -eq 4 ]
        }
        holds "a program that is linked with its library" calls_library
        end_wine
    fi
fi

# the Debian packages, unpacked as they would be installed
if ! ls "$made"/*.deb > /dev/null 2>&1; then skips "the Debian packages, which weren't made"; else
    root=$room/root
    unpacks() { for package in "$made"/*_{amd64,all}.deb; do dpkg-deb -x "$package" "$root" || return; done; }
    mkdir "$root"
    holds "the Debian packages are unpacked" unpacks
    libraries=$root/usr/lib/x86_64-linux-gnu
    says_names() { # each package conflicts with the other program, and says so
        for package in "$made"/*.deb; do
            dpkg-deb -f "$package" Conflicts | grep -q nissy-core && dpkg-deb -f "$package" Description | grep -q 'nissy 2' || return
        done
    }
    holds "each speaks of the other program of the name" says_names
    dead_pages() { # from page to page or picture of a folder, or of two beside each other
        (cd "$root/usr/share/doc" && grep -oHE '\]\([^)# ]+' ./*/*.md) | sed 's|/[^/]*:\](|/|' | sort -u | while read -r page; do
            [[ $page == *http* || -e $root/usr/share/doc/$page ]] || echo "$page"
        done
    }
    holds "each link of their pages leads to one of them" test -z "$(dead_pages)"
    holds "they speak of nothing that only the repository has" refuses grep -rnE "$of_repository" "$root/usr/share/doc" --include='*.md'
    holds "their program runs" test "$("$root/usr/bin/nissy" invert "R U' F2")" = "F2 U R'"
    holds "their library is stripped" refuses grep -q '\.symtab' <(readelf -SW "$libraries/libnissy.so.2")
    holds "their module is found" test "$(cd / && LD_LIBRARY_PATH=$libraries PYTHONPATH=$root/usr/lib/python3/dist-packages \
        /usr/bin/python3 -B -c 'import nissy; print(nissy.invert("R U"))')" = "U' R'"
    holds "and prints the best ways on" test "$(cd / && LD_LIBRARY_PATH=$libraries PYTHONPATH=$root/usr/lib/python3/dist-packages \
        /usr/bin/python3 -B -m nissy "R U F" --most 1 | cut -d , -f 1)" = "2 moves: eofb F"
    compiled() {
        write_caller "$room/one.c" &&
            cc -I "$root/usr/include" -o "$room/one" "$room/one.c" -L "$libraries" -lnissy && LD_LIBRARY_PATH=$libraries "$room/one"
        [ $? -eq 4 ]
    }
    missing cc || holds "a program is compiled by what is for developers" compiled
    if missing lintian; then skips "lintian isn't installed"; else
        # the licence is the owner's to choose, and so is the file on the copyright
        errors() { lintian --allow-root --fail-on none "$made"/*.deb 2>&1 | grep '^E:' | grep -v no-copyright-file; }
        holds "lintian finds no error but that on the copyright" refuses errors
    fi
fi

# what is for ARM, by an emulator
by_qemu() { qemu-aarch64 -L /usr/aarch64-linux-gnu "$@"; }
if [ ! -e build/aarch64/nissy ]; then skips "the packages for ARM, since make arm built nothing"; elif missing qemu-aarch64 || [ ! -e /usr/aarch64-linux-gnu ]; then
    skips "the packages for ARM, since qemu-user or libc6-arm64-cross isn't installed"
else
    arm=nissy-$version-aarch64-linux
    holds "the archive for ARM is unpacked" tar -C "$room/unpacked" -xpf "$made/$arm.tar.gz"
    holds "it has the files of the other" test "$(stands_in "$room/unpacked/$arm")" = "$(stands_in "$room/installed/usr")"
    holds "its README says what it is for" grep -q 'on Linux on 64-bit ARM (aarch64) with glibc: the program with 2.34' "$room/unpacked/$arm/README"
    holds "and no more of x86-64" refuses grep -q 'x86' "$room/unpacked/$arm/README"
    holds "its program runs" test "$(by_qemu "$room/unpacked/$arm/bin/nissy" invert "R U' F2")" = "F2 U R'"
    if [ ! -e "$wheel" ]; then skips "the wheel for ARM, which wasn't made"; else
        holds "the wheel for ARM has its name" test -e "${wheel//x86_64/aarch64}"
        holds "and is unpacked" python3 -m zipfile -e "${wheel//x86_64/aarch64}" "$room/wheel"
        holds "its library is that of ARM" cmp "$room/wheel/nissy/libnissy.so.2" build/aarch64/libnissy.so.2
        for platform in manylinux_2_17 manylinux2014; do
            holds "it is for $platform" grep -qxF "Tag: py3-none-${platform}_aarch64" "$room"/wheel/nissy-*.dist-info/WHEEL
        done
    fi
    if ! ls "$made"/*_arm64.deb > /dev/null 2>&1; then skips "the Debian packages for ARM, which weren't made"; else
        names() { find "$made" -name "*_$1.deb" -printf '%f\n' | sed "s/_$1//" | sort; }
        holds "each Debian package for a processor is there for ARM" test "$(names arm64)" = "$(names amd64)"
        of_arm() { for package in "$made"/*_arm64.deb; do dpkg-deb -x "$package" "$room/arm" || return; done; }
        holds "they are unpacked" of_arm
        holds "their program runs" test "$(by_qemu "$room/arm/usr/bin/nissy" invert "R U' F2")" = "F2 U R'"
        holds "their library is stripped" refuses grep -q '\.symtab' <(readelf -SW "$room/arm/usr/lib/aarch64-linux-gnu/libnissy.so.2")
        needs() { dpkg-deb -f "$made/$1_${version}_arm64.deb" Depends; }
        holds "the program names the C library that it needs" test "$(needs nissy)" = "libc6 (>= 2.34)"
        holds "so does the library" test "$(needs libnissy2)" = "libc6 (>= 2.17)"
    fi
fi

# what can't be made
mkdir "$room/few"
for tool in bash dirname realpath; do ln -s "$(command -v $tool)" "$room/few"; done
answers "where there is no debhelper" 69 '' 'there is no dpkg-buildpackage here: install dpkg-dev, debhelper and dh-python\n' \
    env PATH="$room/few" "$room/source/tools/deb" "$room"
if [ -e build/nissy.html ]; then
    fails_to_pack() { printf '#!/bin/sh\necho "there is no npm here" >&2\nexit %s\n' "$1" > tools/npm-package; } # STATUS
    leaves_out() {
        rm -f build/nissy.c && fails_to_pack 69 && said=$(tools/dist "$room/less" program) &&
            grep -qx 'left out: the package for npm, since there is no npm here' <<< "$said" &&
            grep -qx 'left out: what is made of the engine in C, since there is no build/nissy.c' <<< "$said" &&
            [ "$(grep -cvE 'linux-program.tar.gz$' "$room/less/SHA256SUMS")" -eq 1 ]
    }
    holds "a package whose tool isn't here is left out, and named" leaves_out
    holds "the archive with only the program is made" tar -C "$room/unpacked" -xpf "$room/less/$archive-program.tar.gz"
    without_library() { sed '/^The library needs/,$d' docs/archive.txt; }
    holds "its README says nothing of the library" cmp "$room/unpacked/$archive-program/README" <(without_library)
    holds "it has nothing of the library" test "$(stands_in "$room/unpacked/$archive-program")" = \
        "$(stands_in "$room/installed/usr" | grep -vE '(include|lib|examples)/|/(C|PYTHON)[.]md')"
    stops_at() {
        fails_to_pack 1 && ! said=$(tools/dist "$room/less" program 2>&1) && grep -qx 'there is no npm here' <<< "$said" &&
            grep -qx "the package for npm can't be made" <<< "$said" && [ ! -e "$room/less/SHA256SUMS" ]
    }
    holds "one that can't be made is named, and there are no sums" stops_at
fi
ended

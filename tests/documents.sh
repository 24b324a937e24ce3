#!/usr/bin/env bash
# Holds the pages against the repository: links, tables, columns, README's size; each file and name of code, lemma, clause, law and wrong body that
# a page gives, and each file that a comment does; the maps of docs/ARCHITECTURE.md; the examples of the crates' first pages; the places that name
# the version; how many public names the library has in each language; that no type stands in a comment of the page's and the module's scripts;
# that no file is too long; and that each is written as tools/format writes it. mypy reads what does so, the tools and the model. If there is no python3 nothing is tried.
set -u
cd "$(dirname "$0")/.." || exit 2
# shellcheck source=tests/shared
. tests/shared
if missing python3; then skips_all "there is no python3 here, so the pages are not held against the repository"; fi
add python3 tests/documents/check.py
add python3 tests/documents/names.py
if missing clang-format || missing black; then skips "there is no clang-format or no black here, so not all files are held against them"; fi
holds "each file is written as tools/format writes it" tools/format --check
typed tests/runs.py tests/called.py tests/long_list.py tests/documents/*.py
typed examples/*.py
typed tests/model/*.py tests/npm/*.py
# shellcheck disable=SC2046 # no name of a tool has a blank
typed tools/*.py $(grep -d skip -l '^#!.*python3' tools/*)
ended

#!/usr/bin/env bash
# Tries the module for pages of `make build/nissy.wasm` and its scripts, web/module as tsc compiles it, in node:
#
#     tests/module.sh [PROGRAM [MODULE]]
#
# The module is build/nissy.wasm if none is named; tests/hosts.sh tries it beside the program. If there is no module, no node or no tsc, nothing
# is tried.
set -u
# shellcheck source=tests/shared
. "$(dirname "$0")/shared"
cd "$(dirname "$0")/.." || exit 2
module=$(realpath -m -- "${2:-build/nissy.wasm}")

if [ ! -e "$module" ] || missing node || missing tsc; then
    skips_all "there is no module that make build/nissy.wasm built, no node, or no tsc"
fi
holds "tsc compiles the scripts" tools/web-scripts
for trial in layout typed in_worker rows plain text net lists held best sides pool address; do part node "tests/module/$trial.mjs" "$module"; done

cp -R build/web/module "$room/types" && cp tests/module/types.ts "$room/types"
# tsc says so too if a call that the caller marks as wrong is none
holds "a caller in TypeScript has these types, and is told of what is wrong" \
    tsc --strict --exactOptionalPropertyTypes --noEmit --target es2022 --module es2022 --moduleResolution node --lib "es2022,dom" "$room/types/types.ts"
parts_end
ended

#!/usr/bin/env bash
# Packs build/nissy.wasm and its JavaScript for npm, installs the package in an empty folder, and tries what it exports, its types, bundles of it and
# its command there, by drawn runs beside the model. For more of them tests/model/against.py takes the installed command as its program. No network
# is asked for.
set -u
# shellcheck source=tests/shared
. "$(dirname "$0")/shared"
program=$(program_of "$@") || exit 2
cd "$(dirname "$0")/.." || exit 2
top=$PWD
for tool in node npm npx tsc; do
    if missing $tool; then skips_all "there is no $tool here, so no package for npm is tried"; fi
done
if [ ! -e build/nissy.wasm ]; then skips_all "there is no module that make build/nissy.wasm built"; fi
export HOME=$room/home npm_config_cache=$room/cache npm_config_offline=true npm_config_audit=false npm_config_fund=false
export npm_config_update_notifier=false

# the package
user="$room/a user of it"
mkdir -p "$HOME" "$user" "$room/first" "$room/second" "$room/tools"
name=nissy-$(tools/version).tgz
holds "tools/npm-package prints what it made" test "$(tools/npm-package "$room/first")" = "$room/first/$name"
for tool in bash dirname realpath npm; do ln -s "$(command -v $tool)" "$room/tools"; done
answers "where there is no tsc" 69 '' 'there is no tsc here: install node-typescript\n' \
    env PATH="$room/tools" "$top/tools/npm-package" "$room/second"
rm "$room/tools/npm"
answers "where there is no npm" 69 '' 'there is no npm here: install npm\n' env PATH="$room/tools" "$top/tools/npm-package" "$room/second"
mkdir "$room/source" && cp -R docs include tools web CHANGELOG.md "$room/source"
# shellcheck disable=SC2016 # the backticks are the text's
answers "where there is no module" 1 '' 'there is no build/nissy.wasm: `make build/nissy.wasm` builds it\n' \
    "$room/source/tools/npm-package" "$room/second"

# installed
in_folder() { (cd "$user" && "$@"); }
holds "npm installs the package" in_folder npm install "$room/first/$name"
by_readme() { # npm takes a path without a dot for a place on the network
    local path
    path=$(grep -oE 'npm install [^ `]*nissy-VERSION[.]tgz' web/module/README.md) && path=${path#npm install }
    path=${path/FOLDER/first}
    (mkdir "$room/other" && cd "$room" && npm install --prefix other "${path/VERSION/$(cd "$top" && tools/version)}")
}
holds "npm installs it by the path that README names" by_readme
package=$user/node_modules/nissy
if [ ! -e "$package" ]; then ended || exit 1; fi
holds "each link of its pages leads to one of them" test -z "$(dead_links "$package")"
block() { sed -n "/^\`\`\`$1\$/,/^\`\`\`\$/p" "$package/README.md" | sed '1d;/^```$/,$d'; } # KIND: the first block of this kind on its page
example() { block js > "$user/example.mjs" && cmp <(block text) <(in_folder node example.mjs) && rm "$user/example.mjs"; }
holds "the example of its page prints what the page says" example
mapped() {
    (cd "$package" && node -e 'const { exports } = require("./package.json");
        const [, map] = require("fs").readFileSync("README.md", "utf8").match(/"importmap">\n(.*)\n/);
        const isOther = ([name, path]) => path !== exports[name.replace("nissy", ".")].default.replace(".", "./node_modules/nissy");
        process.exitCode = Object.entries(JSON.parse(map).imports).filter(isOther).length;')
}
holds "the import map of its page leads to what the package exports" mapped
holds "they speak of nothing that only the repository has" refuses grep -nE '\bmake (all|lib|page|dist|test|install|build)|repository|tools/|web/' \
    "$package"/{README,MANUAL,COOKBOOK,MANY,WORDS,ABI}.md
holds "it names no licence" refuses grep -q '"license"' "$package/package.json"

# imported, and its types
cp tests/npm/user.mjs "$user"
answers "its exports" 0 "F2 U R'
{ length: 2, solutions: 4, nodes: 75 }
[ { moves: \"U' R\", length: 2 }, { moves: \"U' R'\", length: 2 } ]
true
EngineMissing: Worker is not defined
TypeError: what makes the worker is no function
ERR_PACKAGE_PATH_NOT_EXPORTED
ERR_PACKAGE_PATH_NOT_EXPORTED\n" '' in_folder node user.mjs
sed -e 's|"./node.js"|"nissy/node"|' -e 's|"./browser.js"|"nissy/worker"|' -e 's|"./calls/replies.js"|"./node_modules/nissy/calls/replies.js"|' \
    tests/module/types.ts > "$user/user.mts"
{
    echo 'import { NissyWorker } from "nissy/worker";'
    echo 'import "nissy/worker-script";'
    echo 'import module from "nissy/nissy.wasm";'
    echo 'export const started = NissyWorker.start(fetch(module), () => new Worker("engine.js"));'
} > "$user/user2.mts"
cp "$user/user.mts" "$user/user.ts" && cp "$user/user2.mts" "$user/user2.ts"
# the wrong calls among them are told, or tsc says that they are none
for resolution in "nodenext nodenext mts" "es2022 node ts"; do
    read -r kind way ending <<< "$resolution"
    strict=(tsc --strict --exactOptionalPropertyTypes --noEmit --target es2022 --module "$kind" --moduleResolution "$way" --lib "es2022,dom")
    holds "tsc reads its types by $way" in_folder "${strict[@]}" "user.$ending" "user2.$ending"
done
echo 'import { loadNissy } from "nissy/node"; export const found = (await loadNissy()).solve("eofb", "R");' > "$user/user3.mts"
holds "and without dom" in_folder tsc --strict --noEmit --target es2022 --module nodenext --lib es2022 --skipLibCheck user3.mts

# bundled, in a page. Debian's Python has Debian's selenium, whatever other Python comes first
export SE_OFFLINE=true SE_AVOID_STATS=true
if ! /usr/bin/python3 -c "import selenium" 2> /dev/null; then skips "the package in a page, since python3-selenium isn't installed"; else
    # which only WebKit needs; the page's tests may look for a free one at the same time
    display=(xvfb-run -a -n 130)
    missing xvfb-run && display=()
    add "${display[@]}" /usr/bin/python3 tests/npm/bundled.py "$user"
fi

# its command, of which drawn.py below tries more
nissy=$user/node_modules/.bin/nissy
# what reads lines is found by the engine, so that a new command needs no line there
holds "the command names none that rewrites lines" refuses grep -qE '"(invert|unniss|cleanup|print)"' "$package/command/command.js"
for words in "scramble 1 2 3 0" "invert R"; do
    # shellcheck disable=SC2086 # words
    answers "$words leaves the input alone" 0 "$("$program" $words | sed 's/$/\\n/')left\n" '' bash -c '"$@"; cat' - "$nissy" $words <<< left
done
by_npx() { { printf 'R\n' && sleep 1 && printf 'U\n'; } | in_folder npx --offline nissy invert; }
answers "npx runs it, and a stream that doesn't wait is waited for" 0 "R'\nU'\n" '' by_npx
# what README says is otherwise than in the program
answers 'a word that is no text' 1 '' 'nissy: line 1, column 1: not a move\n' "$nissy" invert $'\xff'
closed_output() { "$nissy" invert R >&-; }
answers 'a closed output' 0 '' '' closed_output

# a node that can't run it
by_another() { NODE_OPTIONS="--require \"$room/another.cjs\"" "$nissy" invert R; }
echo 'Object.defineProperty(process, "versions", { value: { node: "12.22.9" } });' > "$room/another.cjs"
answers 'an old node' 3 '' 'nissy: this is node 12.22.9, and nissy needs node 18 or a later one\n' by_another
holds "its oldest node is that of the package" grep -q '"node": ">=18"' "$package/package.json"
holds "an old node can parse what says so" refuses grep -qE '=>|`|^(const|let|import|class) ' "$package/command.cjs"
echo 'delete globalThis.WebAssembly;' > "$room/another.cjs"
answers 'a node without WebAssembly' 3 '' 'nissy: this node runs no WebAssembly\n' by_another
mv "$package/nissy.wasm" "$room/kept.wasm"
without_module() { "$nissy" invert R 2>&1 | grep -cx "nissy: nissy.wasm can't be loaded: .*"; }
answers 'a package without the module' 0 '1\n' '' without_module
head -c 50000 "$room/kept.wasm" > "$package/nissy.wasm"
answers 'a package whose module was cut' 0 '1\n' '' without_module
mv "$room/kept.wasm" "$package/nissy.wasm"

if missing python3; then skips "there is no python3 here, so nothing is compared with the model or the program"; else
    add python3 tests/npm/drawn.py "$nissy" 1
    add python3 tests/long_list.py "$program" "$nissy"
fi

holds "npm takes the package away" in_folder npm uninstall nissy
left() { find "$user" -name '*nissy*' && grep -rl --exclude='user*' nissy "$user"; }
holds "nothing of it is left" test -z "$(left)"
ended

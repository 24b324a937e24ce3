#!/usr/bin/env bash
# Tries the page that `make page` built, drives it in Chromium, and compares with that Firefox and WebKit; tsc reads its types, and mypy what
# tries it:
#
#     tests/browsers.sh [PAGE [PROGRAM]]
#
# The page is build/nissy.html if none is named, and the program build/nissy. What needs a browser that isn't here is skipped, and named.
# `/usr/bin/python3 tests/browsers/drive.py build/nissy.html build/nissy looks` runs one part of Chromium's. Look at the page after a change too: 360 points
# wide, light and dark. docs/page.png has 1180 by 980 points.
set -u
# shellcheck source=tests/shared
. "$(dirname "$0")/shared"
build=$(dirname "$0")/../build
page=$(realpath -m -- "${1:-$build/nissy.html}")
program=$(realpath -m -- "${2:-$build/nissy}")
cd "$(dirname "$0")/.." || exit 2
export SE_OFFLINE=true SE_AVOID_STATS=true

if [ ! -e "$page" ] || missing python3; then skips_all "the page, since make page built none or there is no python3"; fi
typed tests/tally.py tests/browsers/*.py

fit() { # the types of the page's scripts, and a call that fits beside one that doesn't, which tsc has to tell
    printf 'import { counted } from "%s";\ncounted(3, "move");\n// @ts-expect-error a text is no number\ncounted("3", "move");\n' \
        "$PWD/build/web/page/shared/element.js" > "$room/call.ts"
    tools/web-scripts && tsc --strict --noEmit --skipLibCheck --target es2022 --module es2022 --moduleResolution node --lib es2022,dom,dom.iterable "$room/call.ts"
}
if missing tsc; then skips "the types of the page's scripts, since there is no tsc"; else
    holds "the page's scripts have sound types, and a call by these is judged" fit
fi

add python3 tests/browsers/files.py "$page"

# Debian's Python has Debian's selenium, whatever other Python comes first
python=/usr/bin/python3
is_driven() { ! missing chromedriver && $python -c "import selenium" 2> /dev/null; }
if missing chromium || ! is_driven; then skips "the page in Chromium, since chromium, chromedriver or python3-selenium isn't installed"; else
    # each line in a browser of its own, which mostly waits
    while read -r -a names; do part $python tests/browsers/drive.py "$page" "$program" "${names[@]}"; done < <($python tests/browsers/drive.py)
fi
others=no beside=()
if missing firefox && missing firefox-esr; then skips "the page in Firefox, which isn't installed"; else others=yes; fi
if missing WebKitWebDriver || missing xvfb-run; then skips "the page in WebKit, since webkit2gtk-driver or xvfb isn't installed"; else
    others=yes beside=(xvfb-run -a)
fi
if [ $others = no ] || missing chromium || ! is_driven; then
    skips "the browsers beside each other, since Chromium, the others or python3-selenium isn't installed"
else
    part "${beside[@]}" $python tests/browsers/alike.py "$page"
fi
parts_end
ended

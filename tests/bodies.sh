#!/usr/bin/env bash
# Reads the wrong bodies of tests/wrong-bodies and makes each in the text of its crate, which needs no prover; and sees that one which is
# written wrongly, or which no longer fits its crate, is refused by its name. If there is no python3 nothing is tried.
set -u
cd "$(dirname "$0")/.." || exit 2
# shellcheck source=tests/shared
. tests/shared
if missing python3; then skips_all "there is no python3 here, so the wrong bodies are not read"; fi
copy=$room/copy
bodies=$copy/tests/wrong-bodies

copied() { # a copy of what the tool reads for one crate
    rm -rf "$copy"
    mkdir -p "$copy/tests" "$copy/crates/niss_moves" && cp -R tools crates.txt "$copy" && cp -R tests/wrong-bodies "$copy/tests" &&
        cp -R crates/niss_moves/{src,proofs} "$copy/crates/niss_moves"
}
says() { # MESSAGE COMMAND..: the tool fails and says this, once the command was run beside the bodies of the copy
    copied && (cd "$bodies" && "${@:2}") || return
    refuses "$copy/tools/wrong-bodies" --read niss_moves > "$room/said" || { echo "it fails nothing"; return 1; }
    grep -qF -- "$1" "$room/said" || { cat "$room/said"; return 1; }
}
is_sound() { copied && "$copy/tools/wrong-bodies" --read niss_moves; }
turned() { sed -i "$1" niss_moves/turn.txt; } # SCRIPT: changes a file of bodies
own() { turned "/_opposite_is_itself/,/^\$/{$1}"; } # SCRIPT: changes a body of it

# the second body of LineReader::feed is made in a twin: it has the function's text, what its `impl` brings for clauses, and its proof
has_twin() {
    copied && python3 -B - "$copy" << 'END'
import re
import shutil
import sys

top = sys.argv[1]
sys.path.insert(0, f"{top}/tools")

from bodies import read
from twins import with_twins

crate = shutil.copytree(f"{top}/crates/niss_moves", f"{top}/twins")
own = open(f"{crate}/src/reader.rt", encoding="utf-8").read()
bodies = [it for it in read(f"{top}/tests/wrong-bodies/niss_moves/reader.txt") if it.refused.endswith("::feed")]
twin = with_twins(crate, bodies)[1]
made = open(f"{crate}/src/reader.rt", encoding="utf-8").read()
proof = open(f"{crate}/proofs/reader/LineReader/feed_twin2/Answers.antt", encoding="utf-8").read()
added = made.removeprefix(own.rstrip("\n"))
function = re.findall(r"^    pub fn feed\(.*?^    }\n", own, re.MULTILINE | re.DOTALL)
brought = re.findall(r"^impl LineReader {\n(?:    ghost use .*\n)+", own, re.MULTILINE)
assert len(function) == 1 and function[0].replace("fn feed(", "fn feed_twin2(") in added.split("feed_twin3")[0], added
assert len(brought) == 1 and added.lstrip("\n").startswith(brought[0]), added
assert twin.refused.endswith("::feed_twin2") and "LineReader.feed_twin2.Goals" in proof and "LineReader.feed.Goals" not in proof, proof
END
}

# that bodies of niss_cube were refused counts until something changes that this stands on: the tools, their texts, the crate or one below it
is_kept() {
    copied && mkdir -p "$copy/crates/niss_cube/specs" && touch "$copy/crates/niss_cube/specs/Names.antt" && python3 -B - "$copy" << 'END'
import sys
from pathlib import Path

top = Path(sys.argv[1])
sys.path.insert(0, f"{top}/tools")

from bodies import read
from marks import Mark, sum_of

bodies = read(f"{top}/tests/wrong-bodies/niss_cube/cube.txt")


def stands(count: int = len(bodies)) -> bool:
    sum_of.cache_clear()
    return Mark("niss_cube", bodies[:count]).stands()


assert not stands()
with Mark("niss_cube", bodies).in_turn():
    Mark("niss_cube", bodies).set()
assert stands() and not stands(1)
for path in ("tools/verdicts.py", "tests/wrong-bodies/niss_cube/step.txt", "crates/niss_cube/specs/Names.antt", "crates/niss_moves/src/turn.rt"):
    text = (top / path).read_text(encoding="utf-8")
    (top / path).write_text(f"{text}\n", encoding="utf-8")
    assert not stands(), path
    (top / path).write_text(text, encoding="utf-8")
    assert stands(), path
END
}

holds "each wrong body can be made, and names a function of its crate" tools/wrong-bodies --read
holds "a second body of a function is made in a twin of it" has_twin
if missing rt; then skips "that what was refused is kept"; else holds "what was refused is kept as long as nothing changes" is_kept; fi
holds "the copy has no fault of its own" is_sound
body=niss_moves/turn_opposite_is_itself
holds "a function that is gone is named" says "NOT MADE: $body: the crate has no function niss_moves::turn::Face::gone" \
    own 's/^\(refused: .*\)::opposite$/\1::gone/'
holds "a function of another crate is named" says "NOT MADE: $body: the crate has no function niss_cube::cube::Cube::turn" \
    own 's/^refused: .*/refused: niss_cube::cube::Cube::turn/'
holds "old lines that are gone are shown" says "NOT MADE: $body: this stands 0 times in src/turn.rt, and not once: Face::U => Face::X," \
    own 's/^- .*/- Face::U => Face::X,/'
holds "old lines that stand several times are shown" says "NOT MADE: $body: this stands 4 times in src/turn.rt, and not once: match self {" \
    own 's/^- .*/- match self {/'
holds "a file that is gone is named" says "NOT MADE: $body: the crate has no src/gone.rt" own '/^refused/afile: src/gone.rt
'
holds "a name that another body has is told" says "NOT MADE: $body: another body of the crate has this name" \
    turned 's/: turn_undone_by_itself$/: turn_opposite_is_itself/'
holds "a name that a body of another file has is told" says "NOT MADE: $body: another body of the crate has this name" \
    sed -i 's/: niss_normal_lends_bracketed$/: turn_opposite_is_itself/' niss_moves/niss.txt
file=tests/wrong-bodies/niss_moves/turn.txt
own="NOT READ: $file: turn_opposite_is_itself"
holds "a body that doesn't say what it does wrong is named" says "$own: no line says what it does wrong" own '2d'
holds "an empty line says nothing" says "$own: no line says what it does wrong" own '2s/.*//'
holds "a body without a function is named" says "$own: this line doesn't belong where it stands: - Face::U => Face::D," own '/^refused/d'
holds "a body with two functions is named" says "$own: this line doesn't belong where it stands: refused: x" own '/^refused/arefused: x
'
holds "a body with two errors of the compiler is named" says "$own: this line doesn't belong where it stands: compiler: y" \
    own '/^refused/acompiler: x\ncompiler: y
'
holds "a body without changes is named" says "$own: it needs a line 'refused: FUNCTION', and then lines after '- '" own '/^[-+]/d'
holds "a body that changes nothing is named" says "$own: it needs a line 'refused: FUNCTION', and then lines after '- '" \
    own 's/^+ .*/+ Face::U => Face::D,/'
holds "new lines without old ones are shown" says "$own: this line doesn't belong where it stands: + Face::U => Face::U," own '/^- /d'
holds "a comment in new lines is shown" says "$own: a comment hides what follows it" own 's|^+ .*|& // as before|'
holds "a line of no kind is shown" says "$own: this line doesn't belong where it stands: Face::U" own 's/^+ /+ Face::U =>\n/'
holds "a line before the first name is shown" says \
    "NOT READ: $file: a line 'gate: NAME' or 'further: NAME' is to stand before this one: never: turn_opposite_is_itself" turned '1s/[a-z]*/never/'
holds "a file of another kind is named" says "NOT READ: tests/wrong-bodies/niss_moves/turn.edit: it is no .txt with the name of a .rt" \
    cp niss_moves/turn.txt niss_moves/turn.edit
holds "a file of no source is named" says "NOT READ: tests/wrong-bodies/niss_moves/gone.txt: it is no .txt with the name of a .rt" \
    mv niss_moves/turn.txt niss_moves/gone.txt
holds "a crate of which the gate tries nothing is named" says "tests/wrong-bodies/niss_page has no body that the gate tries" \
    find niss_page -name '*.txt' -exec sed -i 's/^gate:/further:/' {} +
holds "a crate without bodies is named" says "tests/wrong-bodies/eo_axes has no body" rm -r eo_axes/main.txt
holds "a folder of no crate is named" says "tests/wrong-bodies/other: crates.txt lists no such crate" mkdir other
ended

"""What a check says of wrong bodies: whether the prover refuses one, and why it does not."""

import re

from bodies import WrongBody
from functions import function_at, sources

# of a proof that names what isn't there any more, and of one that rests on it (a goal may be shown with a remark on what `is not in scope here`)
NAME_IS_GONE = re.compile(
    r"has no field|is not in scope(?! here, so what)|has no `|write one of its constructors|was not admitted|which was rejected"
)
# of one that names a goal or a branch that has another name now; what begins with `After-` is the type of a state
GOAL_IS_GONE = re.compile(r"proofs\..*\.Goals` has no `(?!After-)")
REFUSED, WAITS, UNTOLD, LEMMA = "refused", "waits", "untold", "by a lemma"


def errors_of(function: str, said: str) -> list[str]:
    """Returns the errors in the files of proofs of a function; those of a cycle of calls have one folder, and the function's name before each goal;
    one that calls itself has the folder +NAME."""
    *above, name = function.split("::")[1:]
    own, cycle = re.escape("/".join(["proofs", *above])), rf"\+\w+/\w+\.antt:\S* error: `{name}-"
    # an error may go on in the lines below it
    whole = re.sub(r"\n  +", " ", said)
    return re.findall(rf"^(?:\./)?{own}/(?:\+?{name}/\w+\.antt:\S* error: |{cycle}).*", whole, re.MULTILINE)


def notes_of(body: WrongBody, said: str) -> list[str]:
    """Returns what is said to be unproved in the named function, as it stands in the texts that the body turns. No change moves a line."""
    found, touched = [], body.touched()
    for note, file, line in re.findall(
        r"^(note: (src/\S+\.rt):(\d+):\d+: it is not proved that .*)", said, re.MULTILINE
    ):
        lines = sources(body.folder, {file})[file].split("\n")
        # of a contract the note may name an attribute above the head
        at = next(k for k in range(int(line) - 1, len(lines)) if not lines[k].lstrip().startswith("#["))
        span = function_at(lines, at)
        if (
            span
            and is_named(body.refused, lines[span.first])
            and (touched is None or f"{file}:{span.first}" in touched)
        ):
            found.append(note)
    return found


def is_named(function: str, head: str) -> bool:
    return bool(re.search(rf"fn {function.split('::')[-1]}\b", head))


def by_compiler(body: WrongBody, said: str) -> str:
    """Returns REFUSED if the compiler has the error of the body in a function that it turns, and no other one."""
    errors = re.findall(r"^(?:(src/\S+\.rt):(\d+):\d+: )?error\b(?:\[([\w-]+)\])?", said, re.MULTILINE)
    spans = [(file, span) for file, span, _ in body.turned() if span]
    if not errors:
        return f"it compiles, or the check tells nothing: {said.strip()[-200:]}"
    own = [
        it
        for it in errors
        if it[2] == body.error
        and any(file == it[0] and span.first < int(it[1]) <= span.last + 1 for file, span in spans)
    ]
    return REFUSED if own == errors else fault(said)


def verdict(body: WrongBody, said: str) -> str:
    """Returns REFUSED, WAITS, UNTOLD, LEMMA, or why the body is not refused."""
    if body.error:
        return by_compiler(body, said)
    line = re.search(rf"^fn {re.escape(body.refused)}: (.*)", said, re.MULTILINE)
    if (
        not re.search(r"^only=\d+ holes=", said, re.MULTILINE)
        or not line
        or "could not tell" in line[1]
        or is_misread(body, said)
    ):
        return UNTOLD
    if line[1] in ("no holes", "proved"):
        return "the prover accepts it"
    errors = errors_of(body.refused, said)
    notes = notes_of(body, said)
    if any(not NAME_IS_GONE.search(it) for it in errors):
        return REFUSED
    # beside errors on names a note tells of a goal that is closed without an answer, if no goal has another name and the search came to its end
    if errors and (any(GOAL_IS_GONE.search(it) for it in errors) or not any("gave up" not in it for it in notes)):
        return f"only by a name: {errors[0]}"
    if "did not prove `" in line[1] or notes:
        return REFUSED
    if stands_on_a_false_lemma(body, line[1], said):
        return LEMMA
    return WAITS if "it calls" in line[1] or line[1].startswith("depends on a hole") else UNTOLD


def is_misread(body: WrongBody, said: str) -> bool:
    """Whether a clause of the named function isn't understood, as if a twin lacked what its function has for clauses."""
    for file, line in re.findall(r"^(src/\S+\.rt):(\d+):\d+: error: `(?:requires|ensures)", said, re.MULTILINE):
        lines = sources(body.folder, {file})[file].split("\n")
        span = function_at(lines, int(line) - 1)
        if span and is_named(body.refused, lines[span.first]):
            return True
    return False


def stands_on_a_false_lemma(body: WrongBody, line: str, said: str) -> bool:
    """Whether the function of a body that turns a constant or the like stands on a lemma which that makes false, and no lemma lacks a name."""
    whole = re.sub(r"\n  +", " ", said)
    errors = re.findall(r"^(?:\./)?proofs/(\w+)\.antt:\S* error: (.*)", whole, re.MULTILINE)
    files = re.findall(rf"`Rattle\.{body.crate}\.proofs\.(\w+)\.[^`]+`", line)
    is_false = any(file in files for file, _ in errors) and not any(NAME_IS_GONE.search(it) for _, it in errors)
    return "which antt refuses" in line and is_false and body.touched() is None


def fault(said: str) -> str:
    """Returns why a check of one body tells nothing."""
    errors = re.findall(r"^.*error.*", said, re.MULTILINE) or said.strip().split("\n")[-1:]
    fits_none = [it for it in errors if " has no function `" in it]
    return (
        f"no such function: {fits_none[0][:200]}"
        if fits_none
        else f"it doesn't compile, or the check tells nothing: {errors[0][:300]}"
    )


class Count:
    """How many bodies were refused, and how many were not, each of which is named."""

    def __init__(self) -> None:
        self.passed = self.failed = 0

    def add(self, name: str, why: str) -> None:
        if why == REFUSED:
            self.passed += 1
        else:
            self.fail(f"NOT REFUSED: {name}: {why}")

    def fail(self, why: str) -> None:
        self.failed += 1
        print(why, flush=True)

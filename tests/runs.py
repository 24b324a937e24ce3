"""The runs of tests/runs.tsv; as a script it makes each by a program, and compares output, error text and status:

    tests/runs.py COMMAND..
"""
import re
import subprocess
import sys
from pathlib import Path
from typing import Iterator, List, NamedTuple

from tally import Tally

FILE = Path(__file__).resolve().parent / "runs.tsv"


class Run(NamedTuple):
    """A run, and what it answers."""

    words: List[bytes]
    data: bytes
    status: int
    out: bytes
    err: bytes


def bytes_of(field: str) -> bytes:
    """What a field says: \\n is a line feed, and a byte may stand by its octal number."""
    said = re.sub(r"\\(n|[0-7]{3})", lambda it: "\n" if it[1] == "n" else chr(int(it[1], 8)), field)
    return said.encode("latin-1")


def runs() -> Iterator[Run]:
    """Each of them."""
    for line in FILE.read_text(encoding="ascii").splitlines():
        if not line.startswith("#"):
            status, words, data, out, err, _ = line.split("\t")
            yield Run(
                [bytes_of(word) for word in words.split("|")] if words else [],
                bytes_of(data),
                int(status),
                bytes_of(out),
                bytes_of(err),
            )


def main() -> None:
    """Makes each run by the program of the command line."""
    tally = Tally()
    for run in runs():
        done = subprocess.run(
            [*map(str.encode, sys.argv[1:]), *run.words], input=run.data, capture_output=True, check=False
        )
        what = b" ".join(run.words).decode("utf-8", "replace")
        tally.equal(
            f"output, error text and status of {what}",
            (done.stdout, done.stderr, done.returncode),
            (run.out, run.err, run.status),
        )
    tally.end()


if __name__ == "__main__":
    main()

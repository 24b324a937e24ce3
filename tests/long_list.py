"""A list of 143 MB by a command: the same bytes as the program's, in hardly more memory than a short list takes:

    tests/long_list.py PROGRAM COMMAND..
"""
import hashlib
import subprocess
import sys
from pathlib import Path
from typing import List, Tuple

from tally import Tally

SCRAMBLE = b"R' U' F D2 L2 F R2 U2 R2 B D2 L B2 D' B2 L' R' B' D2 B2 R' U' F"
SHORT, LONG = ["near", "eofb", "20", "0"], ["near", "eofb", "20", "4"]
# an answer that is shorter is no long list, and the kilobytes that a long one may take beyond a short one
LONG_BYTES, MOST_MORE = 140_000_000, 8 * 1024


def resident(pid: int) -> int:
    """The most kilobytes that a process had in memory until now."""
    status = Path(f"/proc/{pid}/status").read_text(encoding="ascii")
    return next(int(line.split()[1]) for line in status.splitlines() if line.startswith("VmHWM:"))


def answered(command: List[str], words: List[str]) -> Tuple[str, int, int]:
    """The fingerprint of the answer to the scramble, its bytes, and what the command took of memory while it waits for more lines."""
    with subprocess.Popen([*command, *words], stdin=subprocess.PIPE, stdout=subprocess.PIPE) as process:
        assert process.stdin is not None and process.stdout is not None
        process.stdin.write(SCRAMBLE + b"\n")
        process.stdin.flush()
        fingerprint, length, end = hashlib.sha256(), 0, b""
        while not end.endswith(b"\n\n"):
            # a file of this kind returns what has come
            part = process.stdout.read1(1 << 20)  # type: ignore[attr-defined]
            if not part:
                break
            fingerprint.update(part)
            length, end = length + len(part), (end + part)[-2:]
        return fingerprint.hexdigest(), length, resident(process.pid) if end == b"\n\n" else 0


def main() -> None:
    """Asks the command for both lists, and the program."""
    if len(sys.argv) < 3:
        sys.exit(__doc__)
    tally, program, command = Tally(), sys.argv[1:2], sys.argv[2:]
    (short, _, of_short), (long, length, of_long) = (answered(command, words) for words in (SHORT, LONG))
    tally.equal("the short list", short, answered(program, SHORT)[0])
    tally.equal("the long list", long, answered(program, LONG)[0])
    tally.holds(f"it is long: {length} bytes", length > LONG_BYTES)
    tally.holds(
        f"{of_long} kB for the long one, {of_short} for the short one", 0 < of_short and of_long <= of_short + MOST_MORE
    )
    tally.end()


if __name__ == "__main__":
    main()

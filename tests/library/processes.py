#!/usr/bin/env python3
"""The Python module in processes of their own: threads that are first to ask a step, forked children, signals, little memory, libraries
that aren't its own, and its types by mypy, where that is there.

The library is that of NISSY_LIBRARY.
"""
import contextlib
import os
import shutil
import signal
import subprocess
import sys
import tempfile
from pathlib import Path

TOP = Path(__file__).resolve().parents[2]
PYTHON = str(TOP / "python")
sys.path[:0] = [str(TOP / "tests")]

from tally import Tally, tried

SECONDS = 120

# eight threads ask one step at once, and it is the first use of it; the builds are counted
FIRST_USE = """
import threading, time
import nissy
built, answers, runs = [], [], []
build, ready = nissy._library.nissy_build, threading.Barrier(8)
def slow_build(*given):
    built.append(given[1])
    time.sleep(0.05)
    return build(*given)
nissy._library.nissy_build = slow_build
def ask(number):
    ready.wait()
    for turn in range(20):
        step, line = ("drud-eofb", "R U") if (number + turn) % 2 else ("eofb", "F B")
        answers.append((step, nissy.solve(step, line), nissy.count(step, line).solutions))
        runs.append(nissy.run(["cleanup", line]).out.decode() == line + "\\n")
threads = [threading.Thread(target=ask, args=(number,)) for number in range(8)]
for thread in threads: thread.start()
for thread in threads: thread.join()
wanted = {"drud-eofb": (["U' R", "U' R'"], 2), "eofb": (["F B", "F B'", "F' B", "F' B'"], 4)}
print(len(answers), all(wanted[step] == (found, count) for step, found, count in answers), all(runs), sorted(built))
"""

# a child that was forked while another thread built: it has the tables that were whole, and builds the others itself
FORK = """
import os, threading
import nissy
nissy.solve("eofb", "F")
building, forked = threading.Event(), threading.Event()
build = nissy._library.nissy_build
def held_build(*given):
    building.set()
    forked.wait()
    return build(*given)
nissy._library.nissy_build = held_build
thread = threading.Thread(target=nissy.solve, args=("eorl", "R"))
thread.start()
building.wait()
child = os.fork()
if child == 0:
    nissy._library.nissy_build = build
    os._exit(0 if nissy.solve("eofb", "F") == ["F", "F'"] and nissy.solve("eorl", "R") == ["R", "R'"] else 1)
forked.set()
thread.join()
print(os.waitpid(child, 0)[1], nissy.solve("eorl", "R"))
"""

# a parent and its child ask at the same time; neither writes to what the other reads
BOTH = """
import os
import nissy
nissy.solve("eofb", "F")
child = os.fork()
step, line, wanted = ("eofb", "F", "F") if child else ("eofb", "B", "B")
right = all(nissy.solve(step, line) == [wanted, wanted + "'"] and nissy.invert(line) == wanted + "'" for _ in range(3000))
if child == 0:
    os._exit(0 if right else 1)
print(os.waitpid(child, 0)[1], right)
"""

# a signal's handler asks while the main thread asks too
SIGNALS = """
import signal, sys
import nissy
handled, wrong = [], []
def handle(*_):
    handled.append(nissy.solve("eofb", "B") == ["B", "B'"] and nissy.invert("R U") == "U' R'")
    signal.setitimer(signal.ITIMER_REAL, 0.0003)
signal.signal(signal.SIGALRM, handle)
signal.setitimer(signal.ITIMER_REAL, 0.0003)
while len(handled) < 300:
    wrong += [1] if nissy.solve("eofb", "F") != ["F", "F'"] or nissy.unniss("(U R)") != "R' U'" else []
signal.setitimer(signal.ITIMER_REAL, 0)
print(all(handled), not wrong)
"""

# a signal's handler asks for the step that its own thread is building
SIGNAL_IN_BUILD = """
import signal, time
import nissy
handled, build = [], nissy._library.nissy_build
def slow_build(*given):
    time.sleep(0.03)
    return build(*given)
nissy._library.nissy_build = slow_build
signal.signal(signal.SIGALRM, lambda *_: handled.append(nissy.solve("eofb", "B")))
signal.setitimer(signal.ITIMER_REAL, 0.01)
print(nissy.solve("eofb", "F"), handled)
"""

# what Ctrl-C raises comes between two pieces of many lines, and the threads end then
INTERRUPTED = """
import signal, threading, time
import nissy
def is_interrupted(threads):
    nissy.count("eofb", "F")
    signal.setitimer(signal.ITIMER_REAL, 0.5)
    begun = time.monotonic()
    try:
        for _ in nissy.count_all("eofb", ["R U F L D B"] * 1_000_000, slack=2, threads=threads): pass
    except KeyboardInterrupt:
        return time.monotonic() - begun < 20
signal.signal(signal.SIGALRM, signal.default_int_handler)
are_interrupted = [is_interrupted(1), is_interrupted(3)]
end = time.monotonic() + 20
while threading.active_count() > 1 and time.monotonic() < end: time.sleep(0.01)
print(*are_interrupted, threading.active_count())
"""

# Python collects what is left of an iterator of several threads while it begins another thread
LEFT = """
import gc, threading
import nissy
gc.disable()
left = nissy.count_all("eofb", ["R"] * 100_000, threads=3)
next(left)
cycle = [left]
cycle.append(cycle)
del left, cycle
with getattr(threading, "_shutdown_locks_lock", threading.Lock()): gc.collect()
print(nissy.count("eofb", "R").solutions)
"""

# a Python of Windows, which forks nothing, has less in its modules
WINDOWS = """
import ctypes, mmap, os, sys, threading
import nissy._library
del os.register_at_fork, mmap.MAP_PRIVATE, mmap.MAP_ANONYMOUS
for name in [name for name in sys.modules if name.split(".")[0] == "nissy"]: del sys.modules[name]
sys.platform = "win32"
import nissy
print(nissy.solve("eofb", "F"), len(nissy.solve("eofb", "", 5, 20)), nissy.check_attempts("R\\n\\nR'")[0].check.solved)
"""

# lets a process have so many bytes more, and says what a call without memory says
LIMITED = """
import resource
import nissy
def limited(more):
    used = int(open("/proc/self/statm").read().split()[0]) * resource.getpagesize()
    resource.setrlimit(resource.RLIMIT_AS, (used + more, resource.getrlimit(resource.RLIMIT_AS)[1]))
def without_memory(call):
    try: call()
    except MemoryError as error: return str(error)
nissy.solve("eofb", "F")
"""

# little memory, of which the solutions as strings need most; and none for what outgrows it
LITTLE = (
    LIMITED
    + """
limited(60_000_000)
print(nissy.run(["solve", "eofb", "20"], b"F\\n").out == b"F (1)\\nF' (1)\\n\\n", len(nissy.solve("eofb", "", 5, 20)))
limited(20_000_000)
print(without_memory(lambda: nissy.run(["near", "eofb", "7", "20"], b"\\n")), without_memory(lambda: nissy.solve("eofb", "", 7, 20)))
print(nissy.solve("eofb", "F"), nissy.run(["steps"], room=5).out)
"""
)

# the tables of all steps, asked for twice: what they take, and that it is taken once
MEMORY = """
import resource
import nissy
def resident():
    return int(open("/proc/self/statm").read().split()[1]) * resource.getpagesize()
nissy.solve("eofb", "F")
before = resident()
for step in nissy.steps():
    nissy.count(step, "")
first = resident()
for _ in range(20):
    for step in nissy.steps():
        nissy.count(step, "")
print(10e6 < first - before < 20e6, resident() - first < 2e6)
"""

# too little for the tables of a step, and then enough
NO_TABLES = (
    LIMITED
    + """
limited(300_000)
print(*(without_memory(lambda: nissy.count("dr-eofb", "")) for _ in range(2)), nissy.solve("eofb", "F"), sep="; ")
limited(100_000_000)
print(nissy.count("dr-eofb", "R U").solutions)
"""
)

USER = """
from typing import List, Optional
import nissy
axis: nissy.Axis = "fb"
step: nissy.Step = "drud-eofb"
line: nissy.Text = nissy.scramble(1, 2, 3)
answer: nissy.Answer = nissy.run(["steps", b"x"], memoryview(b""), room=3)
found: nissy.Solutions = nissy.solve("eofb", line, slack=9, nodes=1000, partial=True)
lengths: List[int] = [it.length for it in nissy.solve(step, "R U")] + [it.length for it in found]
firsts: List[str] = [some[0] + " " if some else "none" for some in nissy.raising(nissy.solve_all("eofb", [line], most=1))]
counts: List[Optional[int]] = [it.length if isinstance(it, nissy.Count) else it.line
                               for it in nissy.count_all("eofb", [line], nodes=1000, threads=2)]
facts = nissy.facts(line)
edges: int = facts.bad_edges[axis] + facts.case["ud"].corners
place: str = facts.bad_edges[axis].places[0]
solved, moves, *others = nissy.check(line, b"R")
is_right: bool = solved and moves < 80 and not nissy.check(line, b"R").forms and "eofb" in facts.holds and facts.solved
cases: List[str] = [it.case["ud"] for it in nissy.raising(nissy.facts_all([line]))]
steps: List[nissy.Step] = nissy.steps()
least: List[Optional[int]] = [nissy.count(each, bytearray(b"R"), limit=12).length for each in nissy.steps()]
version: str = nissy.__version__
try:
    nodes: int = nissy.count("eofb", line, nodes=1).nodes
except nissy.Cut as cut:
    nodes = cut.count.nodes
except (nissy.LineFault, nissy.StartFault) as fault:
    print(fault.text, fault.line)
"""

NAMES_LIBRARY = "import nissy; print(nissy._library.LIBRARY._name)"
NO_LIBRARY = "ImportError: nissy's library can't be loaded: "

# a line each that mypy is to refuse
WRONG_USES = (
    'nissy.solve("eofb", 3)',
    'nissy.solve(3, "R")',
    'nissy.count("eofb", "R").length + 1',
    'nissy.solve("eofb", "R", "3")',
    'nissy.solve("eofb", "R", "20")',
    'nissy.solve_all("eofb", 3)',
    'nissy.invert(["R"])',
    'nissy.run(["steps"]).text',
    "nissy.nothing",
    'nissy.solve("eofb", "R")[0].moves',
    'nissy.solve("eofd", "R")',
    'nissy.count_all("htr", [])',
    'nissy.start_of("eo fb")',
    'next(nissy.count_all("eofb", [])).length',
    'nissy.facts("R").bad_edges["x"]',
    'nissy.facts("R").solved = True',
    'nissy.check("R")',
    'nissy.facts_all("R", threads="2").facts',
    'nissy.count("eofb", "R", nodes="many")',
)


def of_process(code: str, **named: str) -> str:
    """What a process of its own prints of this code, and what it says where it fails."""
    environment = {**os.environ, "PYTHONPATH": PYTHON, "PYTHONDONTWRITEBYTECODE": "1", **named}
    done = subprocess.run(
        [sys.executable, "-c", code], capture_output=True, text=True, env=environment, timeout=SECONDS, check=False
    )
    return done.stdout if done.returncode == 0 else done.stdout + done.stderr


def processes(tally: Tally) -> None:
    """Each of the codes above, and what it prints where all is well."""
    tally.equal("eight threads are the first to ask", of_process(FIRST_USE), "160 True True [b'drud-eofb', b'eofb']\n")
    tally.equal("a child of a process that builds", of_process(FORK), "0 ['R', \"R'\"]\n")
    tally.equal("parent and child", of_process(BOTH), "0 True\n")
    tally.equal("calls of a signal's handler", of_process(SIGNALS), "True True\n")
    tally.equal(
        "a handler's call while tables are built", of_process(SIGNAL_IN_BUILD), "['F', \"F'\"] [['B', \"B'\"]]\n"
    )
    tally.equal("Ctrl-C among many lines", of_process(INTERRUPTED), "True True 1\n")
    tally.equal("an iterator that is left", of_process(LEFT), "1\n")
    tally.equal("what Windows hasn't isn't asked for", of_process(WINDOWS), "['F', \"F'\"] 148176 True\n")
    tally.equal("the tables of all steps take some 15 million bytes, once", of_process(MEMORY), "True True\n")
    tally.equal(
        "no memory for tables",
        of_process(NO_TABLES),
        "no memory for the tables of dr-eofb; no memory for the tables of dr-eofb; ['F', \"F'\"]\n2\n",
    )
    little = of_process(LITTLE).splitlines()
    tally.equal("little memory is enough", little[:1], ["True 148176"])
    tally.holds(
        "no memory for all solutions: " + str(little[1:2]), little[1:2] and little[1].count("bytes of output") == 2
    )
    tally.equal("it goes on after that", little[2:], ["['F', \"F'\"] b'eofb\\n'"])


def left_early(tally: Tally) -> None:
    """A filter whose reader has enough ends without a word."""
    filtered = [sys.executable, str(TOP / "examples/many_lines.py"), "eofb"]
    with subprocess.Popen(
        filtered,
        stdin=subprocess.PIPE,
        stdout=subprocess.PIPE,
        stderr=subprocess.PIPE,
        env={**os.environ, "PYTHONPATH": PYTHON},
    ) as it:
        assert it.stdin and it.stdout and it.stderr
        it.stdout.close()
        with contextlib.suppress(BrokenPipeError):
            it.stdin.write(b"R\n" * 200_000)
            it.stdin.close()
        tally.equal("what is said if the reader has gone", (it.stderr.read(), it.wait(SECONDS)), (b"", -signal.SIGPIPE))


def libraries(tally: Tally) -> None:
    """Libraries that aren't there, or are another one."""
    with tempfile.TemporaryDirectory() as room:
        shutil.copytree(TOP / "python/nissy", Path(room, "nissy"), ignore=shutil.ignore_patterns("__pycache__"))
        Path(room, "text.so").write_bytes(b"text")
        for file in ("none.so", "text.so"):
            said = of_process("import nissy", NISSY_LIBRARY=f"{room}/{file}").splitlines()
            tally.holds(
                f"{file} is no library: {said[-1:]}", said and said[-1].startswith(f"{NO_LIBRARY}{room}/{file}: ")
            )
            tally.holds("nothing else is said of it", not any(line.startswith("OSError") for line in said))
        said_last = of_process(NAMES_LIBRARY, NISSY_LIBRARY="", PYTHONPATH=room)
        tally.holds(
            "nor has the system one", f"{NO_LIBRARY}libnissy.so.2: " in said_last or said_last == "libnissy.so.2\n"
        )
    said_last = of_process("import nissy", NISSY_LIBRARY="libc.so.6")
    tally.holds(
        "one without the calls is named",
        said_last.endswith("ImportError: libc.so.6 has no nissy_run: it is older than this module\n"),
    )
    with tempfile.TemporaryDirectory() as room:
        library = of_process(NAMES_LIBRARY).strip()
        for place in ("nissy", "lib/python3/dist-packages/nissy", "lib/python3.11/site-packages/nissy"):
            package = Path(room, place)
            shutil.copytree(TOP / "python/nissy", package, ignore=shutil.ignore_patterns("__pycache__"))
            beside = Path(room, "lib") if "packages" in place else package
            shutil.copy(library, beside / "libnissy.so.2")
            code = f"import sys; sys.path.insert(0, {str(package.parent)!r}); {NAMES_LIBRARY}"
            found = of_process(code, NISSY_LIBRARY="").strip()
            tally.equal(
                f"the library that stands with {place}",
                os.path.realpath(found),
                os.path.realpath(beside / "libnissy.so.2"),
            )


def types(tally: Tally) -> None:
    """The package and its users, as mypy sees them."""
    if not shutil.which("mypy"):
        print("skipped: mypy isn't installed")
        return

    def complaints(folder: str, *words: str) -> str:
        done = subprocess.run(
            ["mypy", "--strict", "--no-error-summary", "--cache-dir", os.path.join(folder, "cache"), *words],
            capture_output=True,
            text=True,
            cwd=folder,
            env=dict(os.environ, MYPYPATH=PYTHON),
            check=False,
        )
        return done.stdout + done.stderr

    with tempfile.TemporaryDirectory() as folder:
        for version, system in (("3.7", "linux"), ("3.11", "linux"), ("3.11", "win32"), ("3.11", "darwin")):
            tally.equal(
                f"the package by Python {version} of {system}",
                complaints(folder, "--python-version", version, "--platform", system, "-p", "nissy"),
                "",
            )
        Path(folder, "user.py").write_text(USER)
        tally.equal("a user of it", complaints(folder, "user.py"), "")
        Path(folder, "wrong.py").write_text("import nissy\n" + "\n".join(WRONG_USES) + "\n")
        told = complaints(folder, "wrong.py")
        for number, line in enumerate(WRONG_USES, 2):
            tally.holds(f"mypy refuses {line}", f"wrong.py:{number}: error" in told)


if __name__ == "__main__":
    tried(processes, left_early, libraries, types)

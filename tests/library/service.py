#!/usr/bin/env python3
"""The example examples/serve.py: what it tells of requests, and that none of many at once holds it.

The library is that of NISSY_LIBRARY.
"""
from __future__ import annotations

import encodings.idna  # of the name of a host, for each connection
import http.client
import json
import os
import random
import subprocess
import sys
import threading
from pathlib import Path
from typing import Dict, List, Tuple
from urllib.parse import urlencode

TOP = Path(__file__).resolve().parents[2]
sys.path[:0] = [str(TOP / "python"), str(TOP / "examples"), str(TOP / "tests")]

import serve
from tally import Tally, without_imports

# clients at once, and how long they may wait: the search that each asks for would take days without a bound
CLIENTS, SECONDS = 16, 60
LONG = {"step": "eofb", "line": "R U F", "slack": "20"}

# requests, and what a person says of them
REQUESTS: List[Tuple[str, Dict[str, str], int, Dict[str, object]]] = [
    (
        "/check",
        {"scramble": "R U", "solution": "U' R' x"},
        200,
        {"solved": True, "moves": 2, "forms": (), "foreign": []},
    ),
    (
        "/check",
        {"scramble": "R", "solution": "(R)"},
        200,
        {
            "solved": True,
            "moves": 1,
            "forms": ("brackets",),
            "foreign": [{"text": "(", "character": 1}, {"text": ")", "character": 3}],
        },
    ),
    (
        "/check",
        {"scramble": "", "solution": "U2 M2\u2019Rw'"},
        200,
        {
            "solved": False,
            "moves": 4,
            "forms": ("slices", "apostrophe", "half_prime"),
            "foreign": [{"text": "M2\u2019", "character": 4}],
        },
    ),
    (
        "/check",
        {"scramble": "R\u2019 Q", "solution": ""},
        400,
        {"error": "not a move", "line": "scramble", "character": 4},
    ),
    (
        "/check",
        {"scramble": "R", "solution": "\u2019"},
        400,
        {"error": "not a move", "line": "solution", "character": 1},
    ),
    ("/check", {"scramble": "R"}, 400, {"error": "solution is missing"}),
    ("/search", {"step": "eofb", "line": "F"}, 200, {"cut": False, "first": ["F", "F'"], "solutions": 2}),
    ("/search", {"step": "eofb", "line": "F q"}, 400, {"error": "not a move", "character": 3}),
    ("/search", {"step": "drud-eofb", "line": "F"}, 400, {"error": "eofb does not hold"}),
    ("/search", {"step": "eofb"}, 400, {"error": "line is missing"}),
    ("/other", {}, 404, {"error": "there are /check and /search"}),
]


def requests_are_answered(tally: Tally) -> None:
    """Requests that a person can tell, also some with numbers or steps that there aren't."""
    for path, asked, status, told in REQUESTS:
        tally.equal(f"{path} {asked}", serve.answer(f"{path}?{urlencode(asked)}"), (status, told))
    for more in (
        {"slack": "21"},
        {"slack": "-1"},
        {"slack": "x"},
        {"slack": "9" * 5000},
        {"step": "eofx"},
        {"step": ""},
        {"step": "\0"},
    ):
        status, told = serve.answer("/search?" + urlencode({"step": "eofb", "line": "F", **more}))
        tally.holds(f"{more} is refused", status == 400 and set(told) == {"error"})
        tally.holds("in words of its own", "slack" not in more or told["error"] == "the slack is a number from 0 to 20")


def any_address_is_answered(tally: Tally) -> None:
    """Addresses that are none, and drawn ones, each of which has an answer of some kilobytes at most."""
    draw = random.Random(72)
    pieces = (
        f"http://|[|]|//|/check|/search|?|&|=|scramble|solution|step|line|eofb|slack|%|%5B|%ff|#|:|@|R|(|)|\u00e9|\u2100|"
        f"{'9' * 5000}|;|\t"
    ).split("|")
    drawn = ["".join(draw.choices(pieces, k=draw.randrange(1, 12))) for _ in range(5000)]
    for address in ("http://[", "//[", "http://\u2100/", "/check?scramble=R&solution=%5B", "*", "", *drawn):
        status, told = serve.answer(address)
        tally.holds(f"{address} has an answer", status in (200, 400, 404) and len(json.dumps(told)) < 30_000)
    tally.equal("what is no address", serve.answer("http://[")[0], 400)
    told = serve.answer("/check?" + urlencode({"scramble": "R", "solution": "()" * 16_000}))[1]
    tally.equal(
        "the first of many places", told["foreign"], [{"text": "()"[at % 2], "character": at + 1} for at in range(20)]
    )


def asked(port: int, path: str, wanted: Dict[str, str]) -> Tuple[int, Dict[str, object]]:
    """The status of a request to the running server, and its answer."""
    client = http.client.HTTPConnection("127.0.0.1", port, timeout=SECONDS)
    try:
        client.request("GET", f"{path}?{urlencode(wanted)}")
        answer = client.getresponse()
        return answer.status, json.load(answer)
    finally:
        client.close()


def searches_are_cut(tally: Tally, port: int) -> None:
    """All of many clients at once have an answer to the longest search, and another one has his beside them."""
    told: List[Tuple[int, object]] = []

    def ask() -> None:
        status, answer = asked(port, "/search", LONG)
        told.append((status, answer.get("cut")))

    clients = [threading.Thread(target=ask) for _ in range(CLIENTS)]
    for client in clients:
        client.start()
    tally.equal(
        "a check beside them", asked(port, "/check", {"scramble": "R", "solution": "R'"})[1].get("solved"), True
    )
    for client in clients:
        client.join()
    tally.equal("the longest search", told, [(200, True)] * CLIENTS)


def main() -> None:
    """Asks the functions, and then a server of its own."""
    tally = Tally()
    requests_are_answered(tally)
    any_address_is_answered(tally)
    environment = {**os.environ, "PYTHONPATH": str(TOP / "python")}
    with subprocess.Popen(
        [sys.executable, str(TOP / "examples/serve.py"), "0"], env=environment, stdout=subprocess.PIPE, text=True
    ) as server:
        assert server.stdout is not None
        port = int(server.stdout.readline())
        with without_imports(tally):
            searches_are_cut(tally, port)
        server.terminate()
    tally.end()


if __name__ == "__main__":
    main()

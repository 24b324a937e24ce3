"""Answers requests by HTTP, each within bounds: so none holds the server for long, and SIGTERM ends it at once.

    python3 serve.py PORT

With the port 0 the system chooses one. The port is printed once the server listens. A request is a GET, and the answer JSON:

    /check?scramble=R U F2&solution=F2 (R U)    whether the solution solves the scramble, its moves, and the first that are no WCA notation
    /search?step=eofb&line=R U F&slack=1        how many solutions a step has, and the first ones; `cut` if there may be others
"""
from __future__ import annotations

import json
import sys
from http.server import BaseHTTPRequestHandler, ThreadingHTTPServer
from typing import Any, Callable, Dict, List, Tuple, cast
from urllib.parse import parse_qsl, urlsplit

import nissy

# the positions of a search, at most some tenths of a second, and the solutions or places that an answer shows
MOST_NODES, MOST_SHOWN = 1_000_000, 20
Answer = Dict[str, Any]


def foreign(line: str) -> List[Answer]:
    """The first moves and brackets of a line that are no WCA notation, each with its place in characters, from 1."""
    return [{"text": it.text, "character": it.character} for it in nissy.form_places(line)[:MOST_SHOWN]]


def check(asked: Dict[str, str]) -> Answer:
    """Whether a solution solves a scramble."""
    found = nissy.check(asked["scramble"], asked["solution"])
    return {"solved": found.solved, "moves": found.moves, "forms": found.forms, "foreign": foreign(asked["solution"])}


def search(asked: Dict[str, str]) -> Answer:
    """The solutions of a step, as far as the bounds let them be found."""
    step, line, digits = cast(nissy.Step, asked["step"]), asked["line"], asked.get("slack", "0")
    # of what is no number `count` says so, as of one out of its range
    slack = int(digits) if digits.isdecimal() and len(digits) < 3 else -1
    count = nissy.count(step, line, slack=slack, nodes=MOST_NODES, partial=True)
    first = nissy.solve(step, line, slack=slack, most=MOST_SHOWN, nodes=MOST_NODES, partial=True)
    return {"cut": count.cut, "first": first, "solutions": count.solutions}


CALLS: Dict[str, Callable[[Dict[str, str]], Answer]] = {"/check": check, "/search": search}


def answer(address: str) -> Tuple[int, Answer]:
    """The status and the answer to a request."""
    try:
        asked = urlsplit(address)
        call = CALLS.get(asked.path)
        if call is None:
            return 404, {"error": f"there are {' and '.join(CALLS)}"}
        return 200, call(dict(parse_qsl(asked.query, keep_blank_values=True)))
    except KeyError as missing:
        return 400, {"error": f"{missing.args[0]} is missing"}
    except nissy.LineFault as fault:
        place = {"line": "solution" if fault.line == 2 else "scramble"} if fault.line else {}
        return 400, {"error": fault.text, **place, "character": fault.character}
    except ValueError as fault:
        return 400, {"error": str(fault)}


class Handler(BaseHTTPRequestHandler):
    """A connection."""

    protocol_version, wbufsize = "HTTP/1.1", -1  # one packet for each answer
    timeout = 60  # seconds that a silent client has its thread

    def do_GET(self) -> None:
        """Answers a request."""
        status, told = answer(self.path)
        body = json.dumps(told).encode()
        self.send_response(status)
        self.send_header("Content-Type", "application/json")
        self.send_header("Content-Length", str(len(body)))
        self.end_headers()
        self.wfile.write(body)

    def log_message(self, format: str, *args: object) -> None:
        """Writes no line for a request."""


def main() -> None:
    """Listens at a port that only this machine reaches."""
    if len(sys.argv) != 2:
        sys.exit(__doc__)
    server = ThreadingHTTPServer(("127.0.0.1", int(sys.argv[1])), Handler)
    print(server.server_port, flush=True)
    server.serve_forever()


if __name__ == "__main__":
    main()

"""A folder as a web server has it."""
import functools
import http.server
import threading
from contextlib import contextmanager
from pathlib import Path
from typing import Any, Iterator, Mapping


class Quiet(http.server.SimpleHTTPRequestHandler):
    """Gives the files of a folder, and tells nobody."""

    extensions_map = {
        ".js": "text/javascript",
        ".wasm": "application/wasm",
        ".html": "text/html",
        "": "application/octet-stream",
    }

    def __init__(self, *words: Any, headers: Mapping[str, str], **named: Any) -> None:
        # the handler is done when this returns
        self.more_headers = headers
        super().__init__(*words, **named)

    def end_headers(self) -> None:
        for name, value in self.more_headers.items():
            self.send_header(name, value)
        super().end_headers()

    def log_message(self, format: str, *args: object) -> None:
        pass


@contextmanager
def served(folder: Path, headers: Mapping[str, str] = {}) -> Iterator[str]:
    """Serves a folder to this machine with these headers, and yields its address."""
    server = http.server.ThreadingHTTPServer(
        ("127.0.0.1", 0), functools.partial(Quiet, directory=str(folder), headers=headers)
    )
    threading.Thread(target=server.serve_forever, daemon=True).start()
    try:
        yield f"http://127.0.0.1:{server.server_port}/"
    finally:
        server.shutdown()
        server.server_close()

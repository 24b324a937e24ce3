"""A Firefox that is driven by its own remote protocol (Marionette), since Debian has no driver for it."""
import json
import shutil
import socket
import subprocess
import time
from pathlib import Path
from typing import Any

from window import PATIENCE, SEEN, Window


class Firefox(Window):
    """A Firefox that is seen nowhere, and a connection to it."""

    def __init__(self, room: str) -> None:
        with socket.socket() as probe:
            probe.bind(("127.0.0.1", 0))
            port = probe.getsockname()[1]
        preferences = {
            "marionette.port": port,
            "datareporting.policy.dataSubmissionEnabled": False,
            "app.update.disabledForTesting": True,
        }
        lines = [f"user_pref({json.dumps(name)}, {json.dumps(value)});\n" for name, value in preferences.items()]
        Path(room, "user.js").write_text("".join(lines))
        words = [
            shutil.which("firefox") or "firefox-esr",
            "--headless",
            "--no-remote",
            "--marionette",
            "--profile",
            room,
        ]
        self.process = subprocess.Popen(words, stdout=subprocess.DEVNULL, stderr=subprocess.DEVNULL)
        self.count = 0
        try:
            self.stream = self.connect(port).makefile("rwb")
            self.receive()
            self.command("WebDriver:NewSession", {})
        except BaseException:
            # one that doesn't answer isn't left behind
            self.end()
            raise

    def connect(self, port: int) -> socket.socket:
        """The connection, once Firefox listens."""
        end = time.monotonic() + PATIENCE
        while True:
            try:
                return socket.create_connection(("127.0.0.1", port), PATIENCE)
            except OSError:
                if time.monotonic() > end or self.process.poll() is not None:
                    raise
                time.sleep(0.1)

    def receive(self) -> Any:
        """A message: its length, a colon and its text."""
        length = b""
        while not length.endswith(b":"):
            if not (byte := self.stream.read(1)):
                raise RuntimeError("Firefox has ended")
            length += byte
        return json.loads(self.stream.read(int(length[:-1])))

    def command(self, name: str, words: dict[str, object]) -> Any:
        """What Firefox answers to a command."""
        self.count += 1
        text = json.dumps([0, self.count, name, words]).encode()
        self.stream.write(b"%d:%s" % (len(text), text))
        self.stream.flush()
        _, _, fault, answer = self.receive()
        if fault:
            raise RuntimeError(fault)
        return answer

    def open(self, address: str) -> None:
        self.command("WebDriver:Navigate", {"url": address})

    def script(self, text: str) -> Any:
        return self.command("WebDriver:ExecuteScript", {"script": text, "args": []})["value"]

    def labels(self, selector: str) -> list[str]:
        names = [name for each in self.script(SEEN % json.dumps(selector)) for name in each.values()]
        return [self.command("WebDriver:GetComputedLabel", {"id": name})["value"] for name in names]

    def resize(self, width: int, height: int) -> None:
        self.command("WebDriver:SetWindowRect", {"width": width, "height": height})

    def end(self) -> None:
        self.process.terminate()
        try:
            self.process.wait(20)
        except subprocess.TimeoutExpired:
            self.process.kill()
            self.process.wait()

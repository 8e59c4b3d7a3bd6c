"""A headless firefox, told what to do over its port for drivers (Marionette)."""
from __future__ import annotations

import json
import socket
import subprocess
import tempfile
import time
from pathlib import Path
from typing import Any

from .support import tool

STARTS = 120                                    # seconds until firefox listens, on any machine
ANSWERS = 600                                   # and until an answer has come
ASYNC = "const done = arguments[arguments.length - 1]; (async () => {%s})().then(done, fault => done({fault: fault.message}));"


class Firefox:
    """One page."""

    def __init__(self) -> None:
        program = tool("firefox-esr", "firefox-esr")
        self.room = tempfile.TemporaryDirectory(ignore_cleanup_errors=True)
        with socket.socket() as free:
            free.bind(("127.0.0.1", 0))
            port = free.getsockname()[1]
        Path(self.room.name, "user.js").write_text(f'user_pref("marionette.port", {port});\n')
        words = [program, "--headless", "--marionette", "--remote-allow-system-access", "--profile", self.room.name, "--no-remote"]
        self._firefox = subprocess.Popen(words, stdout=subprocess.DEVNULL, stderr=subprocess.DEVNULL)
        self._count, self._rest = 0, b""
        try:
            self._socket = self._connected(port)
            self._hear()                        # which protocol it speaks
            self.call("WebDriver:NewSession", capabilities={})
        except BaseException:
            self._end()
            raise

    def _connected(self, port: int) -> socket.socket:
        last = time.monotonic() + STARTS
        while True:
            try:
                return socket.create_connection(("127.0.0.1", port), timeout=ANSWERS)
            except OSError as fault:
                if time.monotonic() > last or self._firefox.poll() is not None:
                    raise AssertionError("firefox doesn't listen") from fault
                time.sleep(0.2)

    def close(self) -> None:
        self._socket.close()
        self._end()

    def _end(self) -> None:
        self._firefox.terminate()
        try:
            self._firefox.wait(60)
        except subprocess.TimeoutExpired:
            self._firefox.kill()
            self._firefox.wait()
        self.room.cleanup()

    def _hear(self) -> Any:
        """A message: how long it is, a colon, and JSON."""
        while b":" not in self._rest:
            self._rest += self._more()
        size, _, self._rest = self._rest.partition(b":")
        while len(self._rest) < int(size):
            self._rest += self._more()
        text, self._rest = self._rest[:int(size)], self._rest[int(size):]
        return json.loads(text)

    def _more(self) -> bytes:
        data = self._socket.recv(1 << 16)
        if not data:
            raise AssertionError("firefox has ended")
        return data

    def call(self, method: str, **operands: object) -> Any:
        """What a call comes to."""
        self._count += 1
        message = json.dumps([0, self._count, method, operands]).encode()
        self._socket.sendall(b"%d:%s" % (len(message), message))
        _, _, fault, result = self._hear()
        if fault:
            raise AssertionError(f"{method}: {fault}")
        return result

    def open(self, address: str) -> None:
        for page in ("about:blank", address):   # so that an address with another end loads the page too
            self.call("WebDriver:Navigate", url=page)

    def get(self, body: str) -> Any:
        """What an asynchronous function of the page with this body returns."""
        value = self.call("WebDriver:ExecuteAsyncScript", script=ASYNC % body, args=[], scriptTimeout=1000 * ANSWERS, sandbox=None
                          )["value"]
        if isinstance(value, dict) and "fault" in value:
            raise AssertionError(f"{body[:200]}: {value['fault']}")
        return value

    def messages(self, name: str) -> Any:
        """What the console has said of pages that have this name in their address."""
        self.call("Marionette:SetContext", value="chrome")
        said = self.call("WebDriver:ExecuteScript", args=[], script="return Services.console.getMessageArray().map(it => String(it)).filter("
                         f"it => it.includes({json.dumps(name)}))")["value"]
        self.call("Marionette:SetContext", value="content")
        return said

    def find(self, selector: str) -> str:
        """The element that a selector names, for click and write."""
        [element] = self.call("WebDriver:FindElement", using="css selector", value=selector)["value"].values()
        return str(element)

    def click(self, selector: str) -> None:
        self.call("WebDriver:ElementClick", id=self.find(selector))

    def write(self, selector: str, text: str) -> None:
        """Types a text in place of what a field has."""
        element = self.find(selector)
        self.call("WebDriver:ElementClear", id=element)
        self.call("WebDriver:ElementSendKeys", id=element, text=text)

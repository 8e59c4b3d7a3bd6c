"""A headless chromium, told what to do over its pipe for developers' tools."""
from __future__ import annotations

import base64
import fcntl
import json
import os
import select
import subprocess
import tempfile
import time
from pathlib import Path
from typing import Any

from .support import tool

Message = dict[str, Any]


STARTS = 3                                      # how often it is tried to start
ANSWERS = 600                                   # seconds until an answer of the browser has come, on any machine
PAGES = 120                                     # and until a page is there that was asked for


class Browser:
    """One page. `console` is what the page has said there, and what went wrong in it."""

    def __init__(self) -> None:
        program = tool("chromium", "chromium")
        for more in reversed(range(STARTS)):
            try:
                self._start(program)
                return
            except AssertionError:
                self.close()
                if not more:
                    raise

    def _start(self, program: str) -> None:
        self.room = tempfile.TemporaryDirectory(ignore_cleanup_errors=True)
        self.console: list[Message] = []
        self._count, self._rest, self._session = 0, b"", ""
        told, self._tell = high_pipe()
        self._hear, said = high_pipe()
        words = ["bash", "-c", f'exec "$@" 3<&{told} 4>&{said}', "bash", program, "--headless", "--no-sandbox", "--disable-gpu",
                 "--no-first-run", "--disable-dev-shm-usage", f"--user-data-dir={self.room.name}", "--remote-debugging-pipe",
                 "about:blank"]
        self._chromium = subprocess.Popen(words, pass_fds=(told, said), stderr=subprocess.DEVNULL)
        os.close(told)
        os.close(said)
        target = self.call("Target.createTarget", url="about:blank")["targetId"]
        self._session = self.call("Target.attachToTarget", targetId=target, flatten=True)["sessionId"]
        for domain in ("Page", "Runtime", "Log"):
            self.call(f"{domain}.enable")

    def close(self) -> None:
        self._chromium.terminate()
        try:
            self._chromium.wait(60)
        except subprocess.TimeoutExpired:
            self._chromium.kill()
            self._chromium.wait()
        os.close(self._tell)
        os.close(self._hear)
        self.room.cleanup()

    def call(self, method: str, **operands: object) -> Message:
        """What a call comes to."""
        self._count += 1
        message: Message = {"id": self._count, "method": method, "params": operands}
        if self._session:
            message["sessionId"] = self._session
        try:
            os.write(self._tell, json.dumps(message).encode() + b"\0")
        except BrokenPipeError as fault:
            raise AssertionError("chromium has ended") from fault
        while True:
            heard = self._next()
            if heard.get("id") == self._count:
                if "error" in heard:
                    raise AssertionError(f"{method}: {heard['error']}")
                return dict(heard["result"])

    def _next(self) -> Message:
        """The next message, kept where it is of the console."""
        while b"\0" not in self._rest:
            if not select.select([self._hear], [], [], ANSWERS)[0]:
                raise AssertionError(f"chromium has said nothing for {ANSWERS} seconds")
            more = os.read(self._hear, 1 << 16)
            if not more:
                raise AssertionError("chromium has ended")
            self._rest += more
        text, _, self._rest = self._rest.partition(b"\0")
        message: Message = json.loads(text)
        if message.get("method") in ("Runtime.consoleAPICalled", "Runtime.exceptionThrown", "Log.entryAdded"):
            self.console.append(message["params"])
        return message

    def open(self, address: str, width: int = 1100, dark: bool = False) -> None:
        """Shows a page on a screen of this width, by day or by night."""
        self.call("Emulation.setDeviceMetricsOverride", width=width, height=900, deviceScaleFactor=1, mobile=False)
        scheme = {"name": "prefers-color-scheme", "value": "dark" if dark else "light"}
        self.call("Emulation.setEmulatedMedia", features=[scheme])
        for page in ("about:blank", address):           # so that an address with another end loads the page too
            self.call("Page.navigate", url=page)
            self.arrives(page)

    def arrives(self, end: str) -> None:
        """Waits until a page is loaded whose address ends so."""
        shown, last = "", time.monotonic() + PAGES
        while not (shown.startswith("complete ") and shown.endswith(end)):
            if time.monotonic() > last:
                raise AssertionError(f"there is {shown}, and not {end}")
            try:
                shown = self.get("document.readyState + ' ' + location.href")
            except AssertionError:                      # the page was left meanwhile
                if self._chromium.poll() is not None:
                    raise
            time.sleep(0.01)

    def get(self, expression: str) -> Any:
        """The value of an expression of the page."""
        answer = self.call("Runtime.evaluate", expression=expression, returnByValue=True, awaitPromise=True)
        if "exceptionDetails" in answer:
            raise AssertionError(f"{expression}: {answer['exceptionDetails']}")
        return answer["result"].get("value")

    def click(self, element: str) -> None:
        """Clicks on the middle of what the expression names, which leads to no other page."""
        self._click(element)
        self.get("new Promise(done => requestAnimationFrame(() => setTimeout(done, 20)))")

    def follow(self, element: str, end: str) -> None:
        """Clicks on a link, and waits until a page is loaded whose address ends so."""
        self._click(element)
        self.arrives(end)

    def _click(self, element: str) -> None:
        x, y = self.get(f"(() => {{ const it = {element}; it.scrollIntoView({{block: 'center'}});"
                        "const box = it.getBoundingClientRect(); return [box.x + box.width / 2, box.y + box.height / 2] })()")
        for kind in ("mousePressed", "mouseReleased"):
            self.call("Input.dispatchMouseEvent", type=kind, x=x, y=y, button="left", clickCount=1)

    def press(self, key: str) -> None:
        """Presses a key, Tab or Enter."""
        code = {"Tab": 9, "Enter": 13}[key]
        more = {"text": "\r"} if key == "Enter" else {}
        for kind in ("keyDown", "keyUp"):
            self.call("Input.dispatchKeyEvent", type=kind, key=key, code=key, windowsVirtualKeyCode=code,
                      **(more if kind == "keyDown" else {}))
        self.get("new Promise(done => requestAnimationFrame(() => setTimeout(done, 20)))")

    def write(self, text: str) -> None:
        """Types letters, one after another."""
        for letter in text:
            self.call("Input.dispatchKeyEvent", type="char", text=letter)
        self.get("new Promise(done => requestAnimationFrame(() => setTimeout(done, 20)))")

    def look(self, file: Path) -> None:
        """Writes the whole page as a picture."""
        shot = self.call("Page.captureScreenshot", captureBeyondViewport=True)
        file.write_bytes(base64.b64decode(shot["data"]))


def high_pipe() -> tuple[int, int]:
    """A pipe whose ends leave 3 and 4 free, which chromium reads and writes."""
    ends = os.pipe()
    high = tuple(fcntl.fcntl(end, fcntl.F_DUPFD, 10) for end in ends)
    for end in ends:
        os.close(end)
    return high[0], high[1]

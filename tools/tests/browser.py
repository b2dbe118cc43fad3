"""A headless Chromium, driven over its DevTools protocol by a small websocket client of the standard library."""
import base64
import json
import os
import shutil
import socket
import struct
import subprocess
import tempfile
import time
import urllib.request
from contextlib import contextmanager
from pathlib import Path

CHROMIUM = shutil.which("chromium") or shutil.which("chromium-browser")
PATIENCE = 60


class Socket:
    """A websocket to a server on this machine: whole texts out and in (RFC 6455)."""

    def __init__(self, url):
        host, _, path = url.removeprefix("ws://").partition("/")
        name, port = host.split(":")
        self.stream = socket.create_connection((name, int(port)), PATIENCE)
        key = base64.b64encode(os.urandom(16)).decode()
        head = [f"GET /{path} HTTP/1.1", f"Host: {host}", "Upgrade: websocket", "Connection: Upgrade",
                f"Sec-WebSocket-Key: {key}",
                "Sec-WebSocket-Version: 13", "", ""]
        self.stream.sendall("\r\n".join(head).encode())
        self.input = self.stream.makefile("rb")
        while self.input.readline().strip():
            pass

    def send(self, text):
        data, mask = text.encode(), os.urandom(4)
        size = bytes([0x80 | len(data)]) if len(data) < 126 else \
            b"\xfe" + struct.pack(">H", len(data)) if len(data) < 65536 else b"\xff" + struct.pack(">Q", len(data))
        masked = bytes(byte ^ mask[place % 4] for place, byte in enumerate(data))
        self.stream.sendall(b"\x81" + size + mask + masked)

    def receive(self):
        """The next text, put together of its frames."""
        parts = []
        while True:
            first, size = self.input.read(2)
            if size == 126:
                size = struct.unpack(">H", self.input.read(2))[0]
            elif size == 127:
                size = struct.unpack(">Q", self.input.read(8))[0]
            parts.append(self.input.read(size))
            if first & 0x80:
                return b"".join(parts).decode()


class Page:
    """A page that is open. `troubles` are what its console told of errors, and what its scripts failed with."""

    def __init__(self, url):
        self.socket, self.number, self.troubles = Socket(url), 0, []
        for domain in ("Runtime", "Log", "Page"):
            self.call(f"{domain}.enable")

    def call(self, method, **params):
        self.number += 1
        self.socket.send(json.dumps({"id": self.number, "method": method, "params": params}))
        while True:
            told = json.loads(self.socket.receive())
            if told.get("id") == self.number:
                return told.get("result", told)
            self.note(told)

    def note(self, told):
        params = told.get("params", {})
        if told["method"] == "Runtime.exceptionThrown":
            self.troubles.append(params["exceptionDetails"].get("exception", {}).get("description", str(params)))
        if told["method"] == "Runtime.consoleAPICalled" and params["type"] in ("error", "warning"):
            self.troubles.append(str(params["args"]))
        if told["method"] == "Log.entryAdded" and params["entry"]["level"] == "error":
            self.troubles.append(params["entry"]["text"])

    def value(self, script):
        """What a script says."""
        told = self.call("Runtime.evaluate", expression=script, returnByValue=True)
        if "exceptionDetails" in told:
            raise AssertionError(told["exceptionDetails"]["exception"].get("description"))
        return told["result"].get("value")

    def press(self, key, text=None):
        self.call("Input.dispatchKeyEvent", type="keyDown", key=key, **({"text": text} if text else {}))
        self.call("Input.dispatchKeyEvent", type="keyUp", key=key)

    def click(self, selector):
        """A click by the mouse, in the middle of what a selector names."""
        box = f"document.querySelector({json.dumps(selector)}).getBoundingClientRect()"
        script = f"(box => [box.x + box.width / 2, box.y + box.height / 2])({box})"
        x, y = self.value(script)
        for kind in ("mousePressed", "mouseReleased"):
            self.call("Input.dispatchMouseEvent", type=kind, x=x, y=y, button="left", clickCount=1)

    def drag(self, selector, right, down):
        """The mouse takes what a selector names in its middle, and moves it."""
        box = f"document.querySelector({json.dumps(selector)}).getBoundingClientRect()"
        x, y = self.value(f"(box => [box.x + box.width / 2, box.y + box.height / 2])({box})")
        moves = [("mousePressed", 0), ("mouseMoved", 1), ("mouseReleased", 1)]
        for kind, share in moves:
            at = {"x": x + share * right, "y": y + share * down}
            self.call("Input.dispatchMouseEvent", type=kind, button="left", buttons=1, clickCount=1, **at)

    def picture(self, path):
        Path(path).write_bytes(base64.b64decode(self.call("Page.captureScreenshot")["data"]))


def port_of(folder):
    """The port that the browser has told in its folder, once it has."""
    end = time.monotonic() + PATIENCE
    while time.monotonic() < end:
        told = folder / "DevToolsActivePort"
        if told.exists() and told.read_text().strip():
            return int(told.read_text().split()[0])
        time.sleep(0.1)
    raise AssertionError("the browser doesn't start")


@contextmanager
def opened(path, size="1600,1000"):
    """A page of a file."""
    with tempfile.TemporaryDirectory(prefix="play-", ignore_cleanup_errors=True) as name:
        words = [CHROMIUM, "--headless", "--no-sandbox", "--disable-gpu", "--remote-debugging-port=0",
                 "--remote-allow-origins=*",
                 f"--user-data-dir={name}", f"--window-size={size}", "about:blank"]
        browser = subprocess.Popen(words, stdout=subprocess.DEVNULL, stderr=subprocess.DEVNULL)
        try:
            with urllib.request.urlopen(f"http://127.0.0.1:{port_of(Path(name))}/json", timeout=PATIENCE) as answer:
                url = next(each["webSocketDebuggerUrl"] for each in json.load(answer) if each["type"] == "page")
            page = Page(url)
            page.call("Page.navigate", url=Path(path).resolve().as_uri())
            while page.value("document.readyState") != "complete":
                time.sleep(0.05)
            yield page
        finally:
            browser.terminate()
            browser.wait(PATIENCE)

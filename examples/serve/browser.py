"""A page in a Chromium without a window, by the Chrome DevTools Protocol: keys go to it as somebody types them."""
import base64
import json
import os
import pathlib
import shutil
import socket
import struct
import subprocess
import tempfile
import time
import urllib.request

from sites import SECONDS

NAMES = ("chromium", "chromium-browser", "google-chrome")
HEIGHT = 900


class Browser:
    """A page that was opened, at a width in pixels."""

    @staticmethod
    def is_there():
        """Whether there is a Chromium."""
        return any(shutil.which(name) for name in NAMES)

    def __init__(self, address, width):
        self.folder = tempfile.TemporaryDirectory()
        program = next(name for name in NAMES if shutil.which(name))
        self.process = subprocess.Popen(
            [program, "--headless=new", "--no-sandbox", "--disable-gpu", "--disable-dev-shm-usage", "--remote-debugging-port=0",
             "--remote-allow-origins=*", f"--user-data-dir={self.folder.name}", "about:blank"],
            stdin=subprocess.DEVNULL, stdout=subprocess.DEVNULL, stderr=subprocess.DEVNULL)
        port = self.await_port()
        with urllib.request.urlopen(f"http://127.0.0.1:{port}/json/list", timeout=SECONDS) as answer:
            path = next(page["webSocketDebuggerUrl"] for page in json.load(answer) if page["type"] == "page").split(str(port), 1)[1]
        self.open(port, path)
        self.number = 0
        self.call("Emulation.setDeviceMetricsOverride", width=width, height=HEIGHT, deviceScaleFactor=1, mobile=False)
        self.call("Emulation.setScrollbarsHidden", hidden=True)
        self.call("Page.enable")
        self.call("Page.navigate", url=address)

    def await_port(self):
        """The port that it listens on."""
        file, end = pathlib.Path(self.folder.name) / "DevToolsActivePort", time.monotonic() + SECONDS
        while time.monotonic() < end:
            if file.exists() and file.read_text().count("\n") >= 1:
                return int(file.read_text().split("\n")[0])
            time.sleep(0.05)
        raise RuntimeError("the browser didn't start")

    def open(self, port, path):
        """Opens the WebSocket (RFC 6455)."""
        self.stream = socket.create_connection(("127.0.0.1", port), SECONDS)
        key = base64.b64encode(os.urandom(16)).decode()
        self.stream.sendall(f"GET {path} HTTP/1.1\r\nHost: 127.0.0.1:{port}\r\nUpgrade: websocket\r\nConnection: Upgrade\r\n"
                            f"Sec-WebSocket-Key: {key}\r\nSec-WebSocket-Version: 13\r\n\r\n".encode())
        head = b""
        while not head.endswith(b"\r\n\r\n"):
            head += self.exactly(1)

    def exactly(self, count):
        """So many bytes."""
        got = b""
        while len(got) < count:
            piece = self.stream.recv(count - len(got))
            if not piece:
                raise RuntimeError("the browser closed its end")
            got += piece
        return got

    def frame(self):
        """The text of the next message."""
        text, is_last = b"", False
        while not is_last:
            first, second = self.exactly(2)
            length = second & 127
            if length > 125:
                length = int.from_bytes(self.exactly(2 if length == 126 else 8), "big")
            piece = self.exactly(length)
            if first & 15 in (0, 1):
                text, is_last = text + piece, first >= 128
        return text

    def call(self, method, **given):
        """What a method answers; what comes besides is passed over."""
        self.number += 1
        text = json.dumps({"id": self.number, "method": method, "params": given}).encode()
        size = struct.pack("!B", 128 | len(text)) if len(text) < 126 else struct.pack("!BH", 254, len(text))
        self.stream.sendall(b"\x81" + size + b"\0\0\0\0" + text)
        while True:
            message = json.loads(self.frame())
            if message.get("id") == self.number:
                if "error" in message:
                    raise RuntimeError(f"{method}: {message['error']}")
                return message["result"]

    def value(self, expression):
        """What an expression is in the page."""
        answer = self.call("Runtime.evaluate", expression=expression, returnByValue=True)
        if "exceptionDetails" in answer:
            raise RuntimeError(f"{expression}: {answer['exceptionDetails']}")
        return answer["result"].get("value")

    def text(self, selector):
        """What an element says."""
        return self.value(f"document.querySelector({json.dumps(selector)})?.textContent ?? ''")

    def await_text(self, selector, text):
        """Waits until an element says something with that text."""
        end = time.monotonic() + SECONDS
        while text not in self.text(selector):
            if time.monotonic() > end:
                raise RuntimeError(f"{selector} says {self.text(selector)!r} and not {text!r}")
            time.sleep(0.1)

    def enter(self, selector, text):
        """Types a text into a field, in place of what was there, and then the Enter key."""
        self.value(f"(() => {{ const field = document.querySelector({json.dumps(selector)}); field.focus(); field.select(); }})()")
        self.call("Input.insertText", text=text)
        key = {"key": "Enter", "code": "Enter", "windowsVirtualKeyCode": 13}
        self.call("Input.dispatchKeyEvent", type="keyDown", text="\r", **key)
        self.call("Input.dispatchKeyEvent", type="keyUp", **key)

    def picture(self, file):
        """Keeps a picture of the whole page."""
        data = self.call("Page.captureScreenshot", format="png", captureBeyondViewport=True)["data"]
        file.write_bytes(base64.b64decode(data))

    def __enter__(self):
        return self

    def __exit__(self, *_):
        self.stream.close()
        self.process.kill()
        self.process.wait()
        for _ in range(20):
            try:
                self.folder.cleanup()
                return
            except OSError:
                time.sleep(0.1)

"""A headless Chromium, driven over its DevTools protocol by a websocket, with the standard library alone."""

import base64
import json
import os
import pathlib
import shutil
import socket
import subprocess
import time
import urllib.request

NAMES = ("chromium", "chromium-browser", "google-chrome-stable", "google-chrome")
FLAGS = ["--headless=new", "--remote-debugging-port=0", "--no-first-run", "--disable-gpu", "--disable-dev-shm-usage", "--hide-scrollbars", "--mute-audio"]
KEYS = {"Enter": (13, "\r"), "Tab": (9, ""), " ": (32, " ")}
CONTROL, SHIFT = 2, 8


def browser():
    """The path of a Chromium; None where there is none."""
    return next(filter(None, map(shutil.which, NAMES)), None)


class Fault(Exception):
    """The browser, or the page in it, doesn't do what it is told."""


class Socket:
    """A websocket of a client, of texts alone (RFC 6455)."""

    def __init__(self, address, timeout):
        host, _, path = address.removeprefix("ws://").partition("/")
        name, _, port = host.partition(":")
        self.socket = socket.create_connection((name, int(port)), timeout)
        self.file = self.socket.makefile("rb")
        key = base64.b64encode(os.urandom(16)).decode()
        head = f"GET /{path} HTTP/1.1\r\nHost: {host}\r\nUpgrade: websocket\r\nConnection: Upgrade\r\n"
        self.socket.sendall(f"{head}Sec-WebSocket-Key: {key}\r\nSec-WebSocket-Version: 13\r\n\r\n".encode())
        if b" 101 " not in self.file.readline():
            raise Fault("the browser refuses a websocket")
        while self.file.readline() not in (b"\r\n", b""):
            pass

    def send(self, text, kind=1):
        data, mask = text.encode(), os.urandom(4)
        size = len(data)
        longer = b"\xfe" + size.to_bytes(2, "big") if size < 1 << 16 else b"\xff" + size.to_bytes(8, "big")
        length = bytes([size | 128]) if size < 126 else longer
        masked = bytes(byte ^ mask[place % 4] for place, byte in enumerate(data))
        self.socket.sendall(bytes([128 | kind]) + length + mask + masked)

    def exactly(self, size):
        data = self.file.read(size)
        if len(data) < size:
            raise Fault("the browser is gone")
        return data

    def receive(self):
        """The next text, whole."""
        text = b""
        while True:
            first, second = self.exactly(2)
            size = second & 127
            size = int.from_bytes(self.exactly(2 if size == 126 else 8), "big") if size > 125 else size
            data = self.exactly(size)
            if first & 15 == 8:
                raise Fault("the browser shut the websocket")
            if first & 15 < 3:
                text += data
                if first & 128:
                    return text.decode()

    def close(self):
        self.file.close()
        self.socket.close()


class Page:
    """A page in a Chromium that was started for it, with a folder of its own."""

    def __init__(self, folder, size, timeout=60.0):
        flags = [*FLAGS, f"--user-data-dir={folder}", f"--window-size={size[0]},{size[1]}"]
        # As root it can't have a sandbox of its own.
        flags += ["--no-sandbox"] if os.geteuid() == 0 else []
        self.timeout, self.number, self.told = timeout, 0, []
        self.process = subprocess.Popen([browser(), *flags, "about:blank"], stdout=subprocess.DEVNULL, stderr=subprocess.DEVNULL)
        try:
            port = self.port(pathlib.Path(folder) / "DevToolsActivePort")
            with urllib.request.urlopen(f"http://127.0.0.1:{port}/json/list", timeout=timeout) as answer:
                page = next(it for it in json.load(answer) if it["type"] == "page")
            self.socket = Socket(page["webSocketDebuggerUrl"], timeout)
        except BaseException:
            self.process.kill()
            raise
        for domain in ("Page", "Runtime", "Log"):
            self.do(f"{domain}.enable")
        self.do("Emulation.setDeviceMetricsOverride", width=size[0], height=size[1], deviceScaleFactor=1, mobile=False)

    def port(self, file):
        end = time.monotonic() + self.timeout
        while time.monotonic() < end and self.process.poll() is None:
            if file.exists() and file.read_text().count("\n"):
                return int(file.read_text().split("\n")[0])
            time.sleep(0.05)
        raise Fault("the browser doesn't start")

    def close(self):
        """Ends the browser, with all its processes."""
        try:
            self.do("Browser.close")
            self.process.wait(10)
        except (Fault, OSError, subprocess.TimeoutExpired):
            self.process.kill()
            self.process.wait()
        self.socket.close()

    def do(self, method, **given):
        """What comes of a call of the protocol. What the page throws or logs as an error meanwhile is kept in `told`."""
        self.number += 1
        self.socket.send(json.dumps({"id": self.number, "method": method, "params": given}))
        while True:
            message = json.loads(self.socket.receive())
            if message.get("id") == self.number:
                if "error" in message:
                    raise Fault(f"{method}: {message['error']['message']}")
                return message["result"]
            self.note(message)

    def note(self, message):
        if message.get("method") == "Runtime.exceptionThrown":
            details = message["params"]["exceptionDetails"]
            self.told.append(details.get("exception", {}).get("description", details["text"]))
        elif message.get("method") == "Log.entryAdded" and message["params"]["entry"]["level"] == "error":
            self.told.append(message["params"]["entry"]["text"])

    def open(self, address):
        self.do("Page.navigate", url=address)

    def value(self, script):
        """The value of an expression in the page; of a promise, what it comes to."""
        made = self.do("Runtime.evaluate", expression=script, awaitPromise=True, returnByValue=True)
        if "exceptionDetails" in made:
            details = made["exceptionDetails"]
            raise Fault(details.get("exception", {}).get("description", details["text"]))
        return made["result"].get("value")

    def wait(self, script, what, seconds=60.0):
        """Waits until an expression is true in the page, and says how long that took."""
        began = time.monotonic()
        while not self.value(f"Boolean({script})"):
            if time.monotonic() > began + seconds:
                raise Fault(f"not in {seconds:.0f} seconds: {what}")
            time.sleep(0.02)
        return time.monotonic() - began

    def key(self, name, modifiers=0):
        code, text = KEYS[name]
        given = {"key": name, "code": "Space" if name == " " else name, "windowsVirtualKeyCode": code, "modifiers": modifiers}
        self.do("Input.dispatchKeyEvent", type="keyDown", **given, **({"text": text} if text and not modifiers else {}))
        self.do("Input.dispatchKeyEvent", type="keyUp", **given)

    def type(self, text):
        self.do("Input.insertText", text=text)

    def picture(self, path):
        """Writes what is seen as PNG."""
        made = self.do("Page.captureScreenshot", format="png")
        path.write_bytes(base64.b64decode(made["data"]))

    def scheme(self, name):
        self.do("Emulation.setEmulatedMedia", features=[{"name": "prefers-color-scheme", "value": name}])

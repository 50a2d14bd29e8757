"""A headless Chromium, driven over the Chrome DevTools protocol with the standard library alone."""

import base64
import json
import os
import shutil
import socket
import struct
import subprocess
import tempfile
import time
import urllib.request

KEYS = {"Tab": (9, ""), "Enter": (13, "\r")}


def chromium():
    """The path of Chromium, or None."""
    return shutil.which("chromium") or shutil.which("chromium-browser")


class Browser:
    """One page of a browser."""

    def __init__(self):
        self.home = tempfile.TemporaryDirectory(ignore_cleanup_errors=True)
        words = ["--headless=new", "--no-sandbox", "--disable-gpu", "--hide-scrollbars", "--remote-debugging-port=0"]
        command = [chromium(), *words, f"--user-data-dir={self.home.name}", "about:blank"]
        self.process = subprocess.Popen(command, stdout=subprocess.DEVNULL, stderr=subprocess.DEVNULL)
        port = self.debugging_port()
        with urllib.request.urlopen(f"http://127.0.0.1:{port}/json") as pages:
            address = next(it["webSocketDebuggerUrl"] for it in json.load(pages) if it["type"] == "page")
        self.socket = socket.create_connection(("127.0.0.1", port))
        self.socket.settimeout(60)
        self.buffer = b""
        self.number = 0
        self.events = []
        self.shake_hands(port, address.split(str(port), 1)[1])
        for domain in ("Page", "Runtime", "Log"):
            self.call(f"{domain}.enable")

    def debugging_port(self):
        """The port of the protocol, which the browser writes down once it listens."""
        path = os.path.join(self.home.name, "DevToolsActivePort")
        for _ in range(600):
            words = open(path, encoding="utf-8").read().split() if os.path.exists(path) else []
            if len(words) == 2:
                return int(words[0])
            time.sleep(0.1)
        raise TimeoutError("Chromium does not listen")

    def shake_hands(self, port, path):
        key = base64.b64encode(os.urandom(16)).decode()
        lines = [f"GET {path} HTTP/1.1", f"Host: 127.0.0.1:{port}", "Upgrade: websocket", "Connection: Upgrade"]
        lines += [f"Sec-WebSocket-Key: {key}", "Sec-WebSocket-Version: 13", "", ""]
        self.socket.sendall("\r\n".join(lines).encode())
        while b"\r\n\r\n" not in self.buffer:
            self.buffer += self.socket.recv(4096)
        self.buffer = self.buffer.split(b"\r\n\r\n", 1)[1]

    def take(self, count):
        while len(self.buffer) < count:
            got = self.socket.recv(65536)
            if not got:
                raise EOFError("Chromium closed its socket")
            self.buffer += got
        taken, self.buffer = self.buffer[:count], self.buffer[count:]
        return taken

    def message(self):
        """The next message: its frames, joined."""
        whole = b""
        while True:
            first, second = self.take(2)
            count = second & 127
            if count == 126:
                (count,) = struct.unpack(">H", self.take(2))
            elif count == 127:
                (count,) = struct.unpack(">Q", self.take(8))
            whole += self.take(count)
            if first & 128:
                return json.loads(whole)

    def call(self, method, **given):
        """The result of a call. Events that come meanwhile are kept."""
        self.number += 1
        data = json.dumps({"id": self.number, "method": method, "params": given}).encode()
        short = bytes([128 | len(data)]) if len(data) < 126 else bytes([254]) + struct.pack(">H", len(data))
        mask = os.urandom(4)
        self.socket.sendall(b"\x81" + short + mask + bytes(it ^ mask[at % 4] for at, it in enumerate(data)))
        while True:
            got = self.message()
            if got.get("id") == self.number:
                if "error" in got:
                    raise RuntimeError(got["error"])
                return got["result"]
            self.events.append(got)

    def value(self, text):
        """The value of an expression in the page."""
        got = self.call("Runtime.evaluate", expression=text, returnByValue=True, awaitPromise=True)
        if "exceptionDetails" in got:
            raise RuntimeError(got["exceptionDetails"]["exception"]["description"])
        return got["result"].get("value")

    def holds_within(self, text, seconds=20):
        """Whether an expression becomes true in time; while it fails it is not true."""
        end = time.monotonic() + seconds
        while time.monotonic() < end:
            try:
                if self.value(text):
                    return True
            except RuntimeError:
                pass
            time.sleep(0.2)
        return False

    def open(self, address):
        self.call("Page.navigate", url=address)

    def show_as(self, width, height, scheme):
        self.call("Emulation.setDeviceMetricsOverride", width=width, height=height, deviceScaleFactor=1, mobile=False)
        self.call("Emulation.setEmulatedMedia", features=[{"name": "prefers-color-scheme", "value": scheme}])

    def press(self, key):
        code, text = KEYS[key]
        given = {"key": key, "code": key, "windowsVirtualKeyCode": code}
        self.call("Input.dispatchKeyEvent", type="keyDown", **given, **({"text": text} if text else {}))
        self.call("Input.dispatchKeyEvent", type="keyUp", **given)

    def picture(self, path):
        """Writes a picture of the whole page."""
        data = self.call("Page.captureScreenshot", captureBeyondViewport=True, format="png")["data"]
        with open(path, "wb") as file:
            file.write(base64.b64decode(data))

    def complaints(self):
        """What the page did that its policy forbids, and its errors, but for servers that are gone."""
        texts = [json.dumps(it) for it in self.events if it.get("method") in ("Log.entryAdded", "Runtime.exceptionThrown")]
        return [it for it in texts if "ERR_CONNECTION_REFUSED" not in it and "favicon" not in it and "status of 404" not in it]

    def close(self):
        self.socket.close()
        self.process.terminate()
        self.process.wait()
        self.home.cleanup()

"""A headless browser, by the protocol of its developer tools: as much of it as looking at a page needs."""
import base64
import json
import os
import pathlib
import shutil
import socket
import struct
import subprocess
import tempfile
import time
import urllib.request

# Seconds within which the browser starts, and answers a command.
PATIENCE = 60
NAMES = ("chromium", "chromium-browser", "google-chrome")


def browser():
    """The path of a browser, or None."""
    return next((path for path in map(shutil.which, NAMES) if path), None)


class Socket:
    """A WebSocket to the browser."""

    def __init__(self, url):
        host, path = url.removeprefix("ws://").split("/", 1)
        name, port = host.split(":")
        self.link = socket.create_connection((name, int(port)), timeout=PATIENCE)
        key = base64.b64encode(os.urandom(16)).decode()
        self.link.sendall((f"GET /{path} HTTP/1.1\r\nHost: {host}\r\nUpgrade: websocket\r\nConnection: Upgrade\r\n"
                           f"Sec-WebSocket-Key: {key}\r\nSec-WebSocket-Version: 13\r\n\r\n").encode())
        self.unread = b""
        head = self.until(b"\r\n\r\n")
        if b" 101 " not in head.split(b"\r\n")[0]:
            raise RuntimeError(f"the browser refuses: {head[:80]!r}")

    def until(self, mark):
        while mark not in self.unread:
            self.more()
        head, self.unread = self.unread.split(mark, 1)
        return head

    def more(self):
        piece = self.link.recv(1 << 16)
        if not piece:
            raise RuntimeError("the browser has gone")
        self.unread += piece

    def exactly(self, count):
        while len(self.unread) < count:
            self.more()
        bytes_, self.unread = self.unread[:count], self.unread[count:]
        return bytes_

    def send(self, text):
        data, mask = text.encode(), os.urandom(4)
        size = len(data)
        head = struct.pack("!BB", 0x81, 0x80 | size) if size < 126 else (
            struct.pack("!BBH", 0x81, 0x80 | 126, size) if size < 1 << 16 else struct.pack("!BBQ", 0x81, 0x80 | 127, size))
        self.link.sendall(head + mask + bytes(byte ^ mask[i & 3] for i, byte in enumerate(data)))

    def receive(self):
        """The next message."""
        whole = b""
        while True:
            first, second = self.exactly(2)
            size = second & 0x7f
            if size > 125:
                size = int.from_bytes(self.exactly(2 if size == 126 else 8), "big")
            piece = self.exactly(size)
            if first & 0x0f < 8:
                whole += piece
                if first & 0x80:
                    return whole.decode()


class Page:
    """A page in a browser of its own. It keeps what the page asked for, and what went wrong in it."""

    def __init__(self, url, width=1200, height=1000, dark=False):
        self.room = tempfile.TemporaryDirectory(prefix="zqueue-page-")
        self.number, self.asked, self.faults = 0, [], []
        words = [browser(), "--headless=new", "--no-sandbox", "--disable-gpu", "--disable-dev-shm-usage", "--no-first-run", "--hide-scrollbars",
                 "--disable-background-networking", "--disable-component-update", "--remote-debugging-port=0",
                 f"--window-size={width},{height}", f"--user-data-dir={self.room.name}", "about:blank"]
        self.process = subprocess.Popen(words, stdin=subprocess.DEVNULL, stdout=subprocess.DEVNULL, stderr=subprocess.DEVNULL)
        try:
            self.link = Socket(self.target())
            for part in ("Page", "Runtime", "Network", "Log"):
                self.tell(part + ".enable")
            self.tell("Emulation.setDeviceMetricsOverride", width=width, height=height, deviceScaleFactor=1, mobile=False)
            if dark:
                self.tell("Emulation.setEmulatedMedia", features=[{"name": "prefers-color-scheme", "value": "dark"}])
            self.tell("Page.navigate", url=url)
        except BaseException:
            self.__exit__()
            raise

    def target(self):
        """The address of the page that the browser began with."""
        noted, end = pathlib.Path(self.room.name) / "DevToolsActivePort", time.monotonic() + PATIENCE
        while time.monotonic() < end and self.process.poll() is None:
            if noted.exists() and (lines := noted.read_text().splitlines()):
                with urllib.request.urlopen(f"http://127.0.0.1:{lines[0]}/json/list", timeout=PATIENCE) as answer:
                    for each in json.load(answer):
                        if each["type"] == "page":
                            return each["webSocketDebuggerUrl"]
            time.sleep(0.1)
        raise RuntimeError("the browser does not start")

    def tell(self, method, **values):
        """Tells the browser this, and gives what it answers."""
        self.number += 1
        self.link.send(json.dumps({"id": self.number, "method": method, "params": values}))
        while True:
            message = json.loads(self.link.receive())
            if message.get("id") == self.number:
                if "error" in message:
                    raise RuntimeError(f"{method}: {message['error']}")
                return message["result"]
            self.note(message)

    def note(self, message):
        method, values = message.get("method"), message.get("params", {})
        if method == "Network.requestWillBeSent":
            self.asked.append(values["request"]["url"])
        elif method == "Runtime.exceptionThrown":
            self.faults.append(values["exceptionDetails"].get("exception", {}).get("description", "an exception"))
        elif method == "Log.entryAdded" and values["entry"]["level"] == "error":
            self.faults.append(values["entry"]["text"] + " " + values["entry"].get("url", ""))

    def value(self, expression):
        """The value of an expression in the page."""
        return self.tell("Runtime.evaluate", expression=expression, returnByValue=True)["result"].get("value")

    def text(self, name):
        """The text of the element of this name, with plain blanks."""
        text = self.value(f"(document.getElementById({json.dumps(name)}) || {{}}).innerText")
        return None if text is None else text.replace("\u00a0", " ")

    def picture(self, path):
        """Writes a picture of the whole page."""
        height = self.value("document.documentElement.scrollHeight")
        width = self.value("document.documentElement.clientWidth")
        clip = {"x": 0, "y": 0, "width": width, "height": height, "scale": 1}
        data = self.tell("Page.captureScreenshot", format="png", clip=clip, captureBeyondViewport=True)["data"]
        pathlib.Path(path).write_bytes(base64.b64decode(data))

    def __enter__(self):
        return self

    def __exit__(self, *_):
        self.process.terminate()
        try:
            self.process.wait(10)
        except subprocess.TimeoutExpired:
            self.process.kill()
            self.process.wait()
        self.room.cleanup()

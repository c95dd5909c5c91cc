"""A server of one site, `serve` or `site`, of a run's own, and what comes on connections to it, for tools/try-connections."""
import contextlib
import os
import pathlib
import socket
import subprocess
import tempfile
import time

import served
import streams

PING, PONG = streams.request(b"PING"), b"+PONG\r\n"
# What a client gets where the server resets the connection, behind what it got before.
RESET = b"(reset)"
# Seconds within which what has to come comes.
patience = 10.0


class Server:
    """A server of one site with these settings. It ends with the `with` that it is used in. One that is not heard has a pipe for
    standard output, which is full from the line on that says it serves."""

    def __init__(self, program, kind, is_heard=True, **values):
        self.program, self.kind, self.is_heard, self.values = program, kind, is_heard, values
        self.held = contextlib.ExitStack()

    def start(self, folder):
        """Starts it, and says whether it serves."""
        self.port, listen = served.free_ports(2)
        place = {"ports": [self.port]} if self.kind == "serve" else {"site": 0, "port": self.port, "listen": f'"127.0.0.1:{listen}"', "alone": 0}
        settings, self.written = folder / "settings.toml", folder / "written"
        settings.write_text("".join(f"{key} = {value}\n" for key, value in {**place, **self.values}.items()))
        with open(self.written, "wb") if self.is_heard else self.pipe() as out:
            self.process = subprocess.Popen(served.guarded([*self.program, self.kind, settings]), stdin=subprocess.DEVNULL, stdout=out,
                                            stderr=subprocess.STDOUT, env=served.ENVIRONMENT)
            self.held.callback(self.process.wait)
            self.held.callback(self.process.kill)
            holds(lambda: self.process.poll() is not None or self.has_begun(), served.OPENING)
            if not self.is_heard:
                fill(out)
        return self.process.poll() is None

    def pipe(self):
        """The end of a new pipe that the server writes to. The other end is kept."""
        end, out = os.pipe()
        self.held.callback(os.close, end)
        os.set_blocking(end, False)
        self.end = end
        return open(out, "wb", buffering=0)

    def has_begun(self):
        if not self.is_heard:
            with contextlib.suppress(BlockingIOError), open(self.written, "ab") as file:
                file.write(os.read(self.end, 1 << 12))
        return self.has_told(f"site 0 port {self.port}", seconds=0.001)

    def __enter__(self):
        folder = pathlib.Path(self.held.enter_context(tempfile.TemporaryDirectory(prefix="zqueue-connections-")))
        # A port that was free may be somebody's a moment later: then others are tried.
        if not any(self.start(folder) for _ in range(3)):
            self.held.close()
            raise RuntimeError("the server does not serve")
        return self

    def __exit__(self, *_):
        self.held.close()

    def has_told(self, line, times=1, seconds=None):
        return holds(lambda: self.written.exists() and self.written.read_text().count(line) >= times, seconds)

    def status(self):
        """The status with which it ends, or `None` where it does not end in time."""
        holds(lambda: self.process.poll() is not None)
        return self.process.poll()

    def descriptors(self):
        """The descriptors that it has open, as numbers."""
        return list(map(int, os.listdir(f"/proc/{self.process.pid}/fd")))

    def busy(self):
        """The seconds for which its threads have run."""
        return sum(int(path.read_text().split()[0]) for path in pathlib.Path(f"/proc/{self.process.pid}/task").glob("*/schedstat")) * 1e-9

    def link(self, *sent, room=None):
        """A connection, on which this was sent. With room it takes few bytes that are not read."""
        link = socket.socket()
        if room:
            link.setsockopt(socket.SOL_SOCKET, socket.SO_RCVBUF, room)
        link.settimeout(patience)
        link.connect(("127.0.0.1", self.port))
        link.setsockopt(socket.IPPROTO_TCP, socket.TCP_NODELAY, 1)
        for data in sent:
            link.sendall(data)
        return self.held.enter_context(link)

    def links(self, count, *sent):
        return [self.link(*sent) for _ in range(count)]

    def fill(self, key, members):
        """Adds so many members of 32 bytes."""
        link = self.link()
        for first in range(0, members, 1000):
            words = [word for place in range(first, first + 1000) for word in (b"%d" % place, b"member %025d" % place)]
            link.sendall(streams.request(b"ZADD", key, *words))
            if took(link, 7) != b":1000\r\n":
                raise RuntimeError("the key is not filled")
        link.close()


def fill(pipe):
    """Fills a pipe, by a descriptor of its own, since whoever else writes to it is to wait."""
    own = os.open(f"/proc/self/fd/{pipe.fileno()}", os.O_WRONLY | os.O_NONBLOCK)
    with contextlib.suppress(BlockingIOError):
        while os.write(own, b"-"):
            pass
    os.close(own)


def holds(what, seconds=None):
    """Whether it holds before the time is over."""
    end = time.monotonic() + (seconds or patience)
    while not what():
        if time.monotonic() > end:
            return False
        time.sleep(0.01)
    return True


def took(link, size, seconds=None):
    """The first so many bytes that come, or those that come before the end or in time."""
    got = bytearray()
    link.settimeout(seconds or patience)
    try:
        while len(got) < size and (piece := link.recv(min(size - len(got), 1 << 16))):
            got += piece
    except TimeoutError:
        pass
    except ConnectionError:
        got += RESET
    return bytes(got)


def each_took(links, size, seconds=None):
    """The same of each of these, within one time for all."""
    end = time.monotonic() + (seconds or patience)
    return [took(link, size, max(end - time.monotonic(), 0.01)) for link in links]


def rest(link):
    """All that comes before the end."""
    got = took(link, 1 << 40)
    link.settimeout(0.01)
    try:
        return got if got.endswith(RESET) or link.recv(1) == b"" else got + b"(more)"
    except TimeoutError:
        return got + b"(no end)"


def is_served(link):
    """Whether a PING is answered on it."""
    with contextlib.suppress(OSError):
        link.sendall(PING)
    return took(link, len(PONG)) == PONG


def is_open(link):
    """Whether it has not ended, where nothing is to come on it."""
    link.settimeout(0.01)
    try:
        return link.recv(1) != b""
    except TimeoutError:
        return True
    except ConnectionError:
        return False


def are_served(links):
    """Whether a PING is answered on each of these."""
    for link in links:
        link.sendall(PING)
    return each_took(links, len(PONG)) == [PONG] * len(links)


def reply_of(members):
    """How many bytes the range of so many members is answered by."""
    return len(b"*%d\r\n" % members) + members * len(b"$32\r\n") + members * len(b"member %025d\r\n" % 0)


def range_of(key, members):
    return streams.request(b"ZRANGE", key, b"0", b"%d" % (members - 1))

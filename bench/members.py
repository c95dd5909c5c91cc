"""Sites in processes of their own that come and go, for tools/try-identity and bench/upgrade.py. All is on loopback."""
import contextlib
import pathlib
import signal
import subprocess
import tempfile
import threading
import time

import served
import streams
from apart import Client

# Seconds within which what is waited for has to come, and how often it is looked for.
PATIENCE, PAUSE = 20, 0.01
HEAPS = 4
KEY = b"q"


def holds(what, seconds=PATIENCE):
    """Whether this comes to hold in time."""
    end = time.monotonic() + seconds
    while not what():
        if time.monotonic() > end:
            return False
        time.sleep(PAUSE)
    return True


class Member:
    """A site of this number, which begins with nothing: `run` counts its starts."""

    def __init__(self, group, words, number, peers, run, port, listen, values):
        self.number, self.port, self.listen, self.status = number, port, listen, None
        folder = group.folder
        settings, self.written = folder / f"{number}.{run}.toml", folder / f"{number}.{run}.out"
        text = f'site = {number}\nport = {port}\nlisten = "127.0.0.1:{listen}"\n'
        text += "".join(f"{key} = {value}\n" for key, value in {"heaps": group.heaps, "workers": 2, **values}.items())
        for peer, address in peers:
            text += f'[[peers]]\nsite = {peer}\naddress = "{address}"\n'
        settings.write_text(text)
        self.settings = settings
        with open(self.written, "wb") as out:
            self.process = subprocess.Popen(served.guarded([*words, "site", str(settings)]), stdin=subprocess.DEVNULL, stdout=out,
                                            stderr=subprocess.STDOUT, env=served.ENVIRONMENT)
        group.held.callback(self.process.wait)
        group.held.callback(self.process.kill)
        if not holds(lambda: self.process.poll() is not None or self.has_said(f"site {number} port {port}"), group.patience):
            raise RuntimeError(f"site {number} does not serve: {self.said()!r}")

    def said(self):
        return self.written.read_text(errors="replace")

    def has_said(self, words):
        return words in self.said()

    def is_up(self):
        return self.process.poll() is None

    def stop(self):
        self.process.send_signal(signal.SIGSTOP)

    def go_on(self):
        self.process.send_signal(signal.SIGCONT)

    def kill(self):
        self.process.kill()
        self.process.wait()

    def ends(self, seconds=PATIENCE):
        """The status with which it ends, or `None` where it does not end in time."""
        with contextlib.suppress(subprocess.TimeoutExpired):
            return self.process.wait(seconds)
        return None

    def ask(self, *words):
        """The reply to a request, or `None` where there is none."""
        try:
            with Client(self.port) as client:
                return client.ask(*words)
        except (OSError, RuntimeError):
            return None

    def adds(self, name, count):
        """Adds so many members whose names begin so, and says how many of them it was told are new."""
        with Client(self.port) as client:
            requests = [streams.request(b"ZADD", KEY, b"%d" % number, b"%s%d" % (name, number)) for number in range(count)]
            client.link.sendall(b"".join(requests))
            return sum(client.reply() == b":1\r\n" for _ in requests)

    def has(self):
        """All members and scores that it has."""
        return self.ask(b"ZRANGE", KEY, b"0", b"-1", b"WITHSCORES")


class Members:
    """A set of such sites, each of which has to serve within so many seconds. They end with the `with` that it is used in."""

    def __init__(self, program, heaps=HEAPS, patience=PATIENCE):
        self.program, self.heaps, self.patience, self.held, self.runs = program, heaps, patience, contextlib.ExitStack(), 0
        self.folder = pathlib.Path(self.held.enter_context(tempfile.TemporaryDirectory(prefix="zqueue-members-")))
        ports = served.free_ports(32)
        self.ports, self.listens = ports[:16], ports[16:]

    def start(self, number, peers=(), program=None, place=None, addresses=None, before=(), **values):
        """Starts a site of this number, with these peers: at the place of its number unless another is named. A peer is listed where
        it listens, unless `addresses` has another address for it. The words of `before` stand before those of the program."""
        self.runs += 1
        place = number if place is None else place
        listed = [(peer, (addresses or {}).get(peer, f"127.0.0.1:{self.listens[peer]}")) for peer in peers]
        return Member(self, [*before, str(program or self.program)], number, listed, self.runs, self.ports[place], self.listens[place], values)

    def __enter__(self):
        return self

    def __exit__(self, *_):
        self.held.close()


class Load:
    """Writes to a site at a rate, until it is told to stop, or the site ends. `count` is how many writes were acknowledged."""

    def __init__(self, member, rate):
        self.member, self.rate, self.over, self.count, self.fault = member, rate, threading.Event(), 0, None
        self.thread = threading.Thread(target=self.run)
        self.thread.start()

    def run(self):
        try:
            with Client(self.member.port) as client:
                self.write(client)
        except (OSError, RuntimeError) as fault:
            self.fault = fault

    def write(self, client):
        start = time.monotonic()
        while not self.over.is_set():
            due = int((time.monotonic() - start) * self.rate) - self.count
            if due <= 0:
                time.sleep(0.001)
                continue
            names = range(self.count, self.count + due)
            client.link.sendall(b"".join(streams.request(b"ZADD", KEY, b"%d" % name, b"load%d" % name) for name in names))
            for _ in names:
                client.reply()
                self.count += 1

    def stop(self, may_end=False):
        """Waits until no more is written. Where the site may not have ended, its end is an error."""
        self.over.set()
        self.thread.join()
        if self.fault and not may_end:
            raise self.fault


def are_alike(members, seconds=PATIENCE):
    """Whether all that are up come to answer alike, and answer something."""
    def alike():
        answers = {member.has() for member in members if member.is_up()}
        return len(answers) == 1 and None not in answers
    return holds(alike, seconds)

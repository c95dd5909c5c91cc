"""What links.py measures by, tried itself: the relay over connections of its own, and writers and probes over a redis-server and its
replica."""
import contextlib
import random
import shutil
import signal
import socket
import sys
import tempfile
import threading
import time

import linked
from apart import Client
from linked import KEY, Idle, Relay, Replicated

MIB = 1 << 20


class Echo(threading.Thread):
    """Listens, takes one connection after the other, and keeps what came on each; it sends what it is given as one is there."""

    def __init__(self, said=b"", echoes=False):
        super().__init__(daemon=True)
        self.listener = socket.create_server(("127.0.0.1", 0))
        self.port, self.said, self.echoes, self.heard = self.listener.getsockname()[1], said, echoes, []

    def run(self):
        with contextlib.suppress(OSError):
            while True:
                link, _ = self.listener.accept()
                self.heard.append(bytearray())
                threading.Thread(target=self.serve, args=(link, self.heard[-1]), daemon=True).start()

    def serve(self, link, heard):
        with contextlib.suppress(OSError), link:
            in_pieces(link, self.said)
            while piece := link.recv(1 << 16):
                heard += piece
                if self.echoes:
                    link.sendall(piece)

    def __enter__(self):
        self.start()
        return self

    def __exit__(self, *_):
        self.listener.close()


def in_pieces(link, data):
    """Sends it in drawn pieces."""
    draw, at = random.Random(len(data)), 0
    while at < len(data):
        size = draw.choice([1, 2, 7, 100, 5000, 70000])
        link.sendall(data[at:at + size])
        at += size


def took(link, size):
    data = bytearray()
    while len(data) < size and (piece := link.recv(1 << 16)):
        data += piece
    return bytes(data)


def framed(*frames):
    return b"".join(len(frame).to_bytes(4, "big") + frame for frame in frames)


def ops(count, size):
    return b"\x02" + count.to_bytes(4, "big") + b"o" * size


# What two sites may say, by the tables of docs/REPLICATION.md and zq_wire: without a secret by version 1, and by a range of versions
# with one.
OPENLY = b"zq-peer\n" + bytes([1, 3, 4, 0, 0]) + framed(b"\x05have", ops(3, 200), b"\x03" + b"s" * 100000, ops(70000, 0), b"\x01")
BY_SECRET = (b"zq-peer\n" + bytes([0, 1, 2, 3, 4, 0]) + b"r" * 16 + b"t" * 8 + b"c" * 32 + b"\x01" + b"n" * 16 + b"a" * 32
             + framed(b"\x07at", ops(5, 90), b"\x07at again", b"\x02"))
WANTED = {"out": {"operations": 70003, "unread": 0, "frames.5": 1, "frames.2": 2, "frames.3": 1, "frames.1": 1, "bytes.3": 100005,
                  "largest.3": 100005, "largest.2": 4 + 205, "bytes.2": 4 + 205 + 4 + 5, "bytes": len(OPENLY)},
          "back": {"operations": 5, "unread": 0, "frames.7": 2, "frames.2": 2, "bytes.7": 7 + 13, "bytes": len(BY_SECRET)}}


def try_counters(tools, more=b""):
    """What the relay counts otherwise than it has to, where one side says so much more than is said of it."""
    found, openly = [], OPENLY + more
    with Echo(BY_SECRET) as echo, Relay(tools, [echo.port], 0.001) as relay:
        with socket.create_connection(("127.0.0.1", relay.ports[0])) as link:
            in_pieces(link, openly)
            if took(link, len(BY_SECRET)) != BY_SECRET:
                found.append("what is sent back does not come as it was")
            end = time.monotonic() + 5
            while (not echo.heard or len(echo.heard[0]) < len(openly)) and time.monotonic() < end:
                time.sleep(0.01)
        if not echo.heard or bytes(echo.heard[0]) != openly:
            found.append("what is sent does not come as it was")
        counted = relay.counters()
        if not counted.are_known():
            found.append("what sites say is not known")
        for way, names in WANTED.items():
            found += [f"{way} {name}: {counted.values.get((0, way, name), 0)} were counted, and not {wanted}" for name, wanted in names.items()
                      if counted.values.get((0, way, name), 0) != wanted]
    for stream, unread in ((b"PING\r\n" * 100, 600), (OPENLY + b"\xff" * 9, 9)):
        with Echo(echoes=True) as echo, Relay(tools, [echo.port]) as relay, socket.create_connection(("127.0.0.1", relay.ports[0])) as link:
            link.sendall(stream)
            took(link, len(stream))
            if relay.counters().values[0, "out", "unread"] != unread:
                found.append(f"of {stream[:8]} {relay.counters().values[0, 'out', 'unread']} bytes are unread, and not {unread}")
    return found


def try_carrying(tools):
    """What the relay does otherwise than it was told."""
    found, data = [], random.Random(1).randbytes(64 * MIB)
    with Echo(echoes=True) as echo, Relay(tools, [echo.port], 0.005) as relay:
        with socket.create_connection(("127.0.0.1", relay.ports[0])) as link:
            threading.Thread(target=link.sendall, args=(data,), daemon=True).start()
            if took(link, len(data)) != data:
                found.append("64 MiB do not come back as they were")
            busy = time.clock_gettime((~relay.process.pid << 3) | 2)
            if 2 * len(data) / busy < 100e6:
                found.append(f"in a second of processor time it carries {2 * len(data) / busy:,.0f} bytes")
            times = []
            for _ in range(20):
                begin = time.monotonic()
                link.sendall(b"x")
                took(link, 1)
                times.append(time.monotonic() - begin)
            if not 0.01 <= min(times) < 0.03:
                found.append(f"5 ms each way are {min(times) * 1e3:.1f} ms there and back")
            relay.do("rate", 0, 1000000)
            begin = time.monotonic()
            link.sendall(data[:200000])
            took(link, 200000)
            if time.monotonic() - begin < 0.2:
                found.append("a rate does not hold")
            relay.do("rate", 0, 1000)
            link.sendall(data[:20000])
            time.sleep(0.1)
            begin = time.monotonic()
            relay.do("rate", "all", 0)
            if took(link, 20000) != data[:20000] or time.monotonic() - begin > 5:
                found.append("what waited at a low rate goes on waiting")
            relay.do("delay", 0, 400000)
            before = relay.counters()
            link.sendall(b"before it stalls, ")
            while relay.counters().since(before, "bytes") < 18:
                time.sleep(0.001)
            relay.do("stall", "all")
            link.sendall(b"while it stalls")
            time.sleep(0.5)
            # (a command wakes it, and what it has taken is due by now)
            relay.counters()
            link.settimeout(0.2)
            with contextlib.suppress(TimeoutError):
                link.recv(1)
                found.append("a relay that stalls carries")
            relay.do("go", 0)
            relay.do("delay", 0, 0)
            link.settimeout(5)
            if took(link, 33) != b"before it stalls, while it stalls":
                found.append("what was sent before and while it stalled does not come")
            relay.do("cut", 0)
            with contextlib.suppress(ConnectionError):
                if link.recv(1):
                    found.append("a link that is cut gives bytes")
            if relay.counters().link("open"):
                found.append("a link that is cut is open")
        with contextlib.suppress(ConnectionError), socket.create_connection(("127.0.0.1", relay.ports[0])) as link:
            link.sendall(b"x")
            if link.recv(1):
                found.append("a relay that is cut carries")
        relay.do("go", "all")
        with socket.create_connection(("127.0.0.1", relay.ports[0])) as link:
            link.sendall(b"x")
            if took(link, 1) != b"x" or relay.counters().link("accepted") < 3:
                found.append("a relay that goes again does not carry")
    return found


def ask(port, *words):
    with Client(port) as client:
        return client.ask(*words)


def try_clients(tools):
    """What writers and probes do otherwise than they have to, over a redis-server and its replica."""
    found = []
    with Replicated(tools, 2, 0.02) as group:
        if not group.are_alike(20):
            return ["a replica is not alike"]
        begin = time.monotonic()
        with group.write(5000, 1, key=b"k234567890") as writer:
            figures = writer.figures()
        if time.monotonic() - begin < 0.9 or figures["sent"] != 5000 or figures["counted"] != 5000:
            found.append(f"5,000 writes in a second: {figures}")
        if ask(group.ports[0], b"ZCARD", b"k234567890") != b":5000\r\n":
            found.append("new members are not new")
        if not ask(group.ports[0], b"ZRANGE", b"k234567890", b"0", b"0").startswith(b"*1\r\n$16\r\n"):
            found.append("members have not 16 bytes")
        group.fill(3000)
        with group.write(50000, 1, members=3000) as writer:
            writer.figures()
        if ask(group.ports[0], b"ZCARD", KEY) != b":3000\r\n":
            found.append("the writer writes other members than were filled in")
        with group.write(100, 1000) as writer:
            if not 0 < writer.stop()["sent"] < 1000:
                found.append("a writer that is stopped goes on")
        near, same = group.freshness(1, 5, 0), group.freshness(1, 5, 0, (0, 0), seed=8)
        if near["never"] or near["counted"] != 200 or near["p50_ms"] < 20:
            found.append(f"20 ms from a server to its replica: {near}")
        if same["never"] or same["p50_ms"] >= 20:
            found.append(f"from a server to itself: {same}")
        with group.calls() as calls:
            ask(group.ports[0], b"DEBUG", b"SLEEP", b"0")
            time.sleep(0.1)
            halted = group.servers[0]
            halted.send_signal(signal.SIGSTOP)
            time.sleep(0.3)
            halted.send_signal(signal.SIGCONT)
            figures = calls.stop()
        if not 250 <= figures["longest_ms"] < 5000 or figures["counted"] < 5:
            found.append(f"a server that halts for 0.3 s: {figures}")
        group.relay.do("cut", "all")
        apart = group.freshness(1, 1, 0.02, seed=9)
        if apart["counted"] or not apart["never"]:
            found.append(f"from a server to one apart: {apart}")
        if group.are_alike(0.3):
            found.append("a replica that is cut off is alike")
        if group.relay.counters().are_known():
            found.append("what servers say to their replicas is known as frames of sites")
        figures = group.back(0, 20)
        if figures["seconds"] is None or figures["dialled"] <= 0 or not group.are_alike(20):
            found.append(f"a replica that is back: {figures}")
    return found


def faults(is_long):
    """What is found where there is a C compiler: of what the relay counts, and where it is asked for also of what it carries, and of
    writers and probes."""
    if shutil.which("cc") is None and not is_long:
        print("links: there is no C compiler (cc), so the relay is not tried", file=sys.stderr)
        return []
    if is_long:
        linked.needed()
    with tempfile.TemporaryDirectory() as folder:
        tools = linked.Tools(folder)
        found = try_counters(tools)
        found += [] if try_counters(tools, framed(ops(3, 200))) else ["operations that go once more are not counted"]
        if not is_long:
            return found
        found += try_carrying(tools) + try_clients(tools)
    with Idle() as idle:
        time.sleep(0.2)
    return found + ([] if 0 <= idle.share <= 1 else [f"the idle share is {idle.share}"])

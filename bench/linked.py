"""Sites in processes of their own whose links go over one relay (relay.c), and a redis-server with replicas in their place, for
links.py and jobs.py; who writes to them, and who asks them. All of it is on loopback, and ends with the `with` that it is used in."""
import contextlib
import pathlib
import shutil
import subprocess
import sys
import tempfile
import time

import memory
import pipe
import served
import streams
from apart import Client

HEAPS, WORKERS = 4, 2
SECRET = "only for this run"
# The key that is written, of 10 bytes. Its members have 16.
KEY = b"board:0001"
# Members of a mark: so many that there is one in each heap.
MARK = 64
# Seconds within which what is waited for has to come, and how often it is looked for.
PATIENCE, PAUSE = 60, 0.002
# How many members a request of a filling adds, and how many requests wait for their replies.
BATCH, FLIGHT = 1000, 32
# The names of kinds of frames.
NAMES = {1: "Have", 2: "Ops", 3: "State", 4: "Have", 5: "Have", 6: "Routes", 7: "At", 8: "Behind", 9: "Fetch", 10: "Piece", 11: "Batch"}
STATE, PIECE = 3, 10
KINDS = set(NAMES)


def member(number):
    """A member as the writer draws them."""
    return b"%016x" % number


class Tools:
    """The compiled programs of this folder that are used here."""

    def __init__(self, folder):
        self.relay, self.writer, self.probe, self.popper = (pipe.compiled(name, folder) for name in ("relay", "writer", "probe", "popper"))


class Child:
    """A program that reads lines and writes lines of a name and a number."""

    def __init__(self, *words, **values):
        self.process = subprocess.Popen(served.guarded([str(word) for word in words]), stdin=subprocess.PIPE, stdout=subprocess.PIPE,
                                        text=True, **values)

    def figures(self):
        """What it says as it ends by itself."""
        said = self.process.stdout.read()
        if self.process.wait() != 0:
            raise RuntimeError(f"{self.process.args} ended with status {self.process.returncode}")
        return {name: float(figure) for name, figure in (line.split() for line in said.splitlines() if " " in line)}

    def stop(self):
        """Ends its input, and answers what it says then."""
        with contextlib.suppress(BrokenPipeError):
            self.process.stdin.close()
        return self.figures()

    def __enter__(self):
        return self

    def __exit__(self, *_):
        self.process.kill()
        self.process.wait()
        for pipe_end in (self.process.stdin, self.process.stdout):
            with contextlib.suppress(OSError):
                pipe_end.close()


class Counters:
    """What a relay had carried at a moment."""

    def __init__(self, values):
        self.values = values

    def of(self, name, pair=None):
        """The sum over both directions, of a pair or of all."""
        return sum(value for (of, way, what), value in self.values.items() if what == name and way != "link" and pair in (None, of))

    def link(self, name, pair=0):
        return self.values[pair, "link", name]

    def since(self, other, name):
        return self.of(name) - other.of(name)

    def frames_since(self, other):
        """How many frames of each kind."""
        kinds = {int(what.partition(".")[2]) for _, _, what in self.values if what.startswith("frames.")}
        counts = {kind: int(self.since(other, f"frames.{kind}")) for kind in sorted(kinds)}
        return {kind: count for kind, count in counts.items() if count}

    def largest(self):
        """The bytes of the largest frame that went so far, 0 where none went."""
        return max((value for (_, _, what), value in self.values.items() if what.startswith("largest.")), default=0)

    def are_known(self):
        """Whether all bytes were a greeting of sites and frames of known kinds."""
        kinds = {int(what.partition(".")[2]) for _, _, what in self.values if what.startswith("frames.")}
        return self.of("unread") == 0 and kinds <= KINDS


class Relay(Child):
    """The relay, with a pair for each port."""

    def __init__(self, tools, ports, delay=0.0, rate=0):
        super().__init__(tools.relay, round(delay * 1e6), rate, *ports)
        self.ports = [int(word) for word in self.process.stdout.readline().split()[1:]]

    def tell(self, *words):
        self.process.stdin.write(" ".join(map(str, words)) + "\n")
        self.process.stdin.flush()

    def do(self, *words):
        """`cut`, `stall`, `go`, `delay` or `rate`, of a pair or of all."""
        self.tell(*words)
        if self.process.stdout.readline() != "done\n":
            raise RuntimeError("the relay does not do what it was told")

    def counters(self):
        self.tell("count")
        values = {}
        while (line := self.process.stdout.readline()) != ".\n":
            pair, way, name, value = line.split()
            values[int(pair), way, name] = float(value)
        return Counters(values)


class Writer(Child):
    """Sends ZADDs at a rate."""

    def __init__(self, tools, ports, rate, seconds, members=0, seed=1, key=KEY):
        super().__init__(tools.writer, key.decode(), round(rate), round(seconds), members, seed, *ports)


class Group:
    """Servers that have the same data: `ports` of all, `writable` those at which clients may write, `relay` between them."""

    are_sites = False

    def __init__(self, tools):
        self.tools, self.held = tools, contextlib.ExitStack()
        self.folder = pathlib.Path(self.held.enter_context(tempfile.TemporaryDirectory(prefix="zqueue-links-")))
        self.servers, self.marks = {}, 0

    def started(self, server, words):
        out = self.held.enter_context(open(self.folder / f"{server}.out", "wb"))
        process = subprocess.Popen(served.guarded([str(word) for word in words]), stdin=subprocess.DEVNULL, stdout=out,
                                   stderr=subprocess.STDOUT, env=served.ENVIRONMENT, cwd=self.folder)
        self.servers[server] = process
        self.held.callback(process.wait)
        self.held.callback(process.kill)

    def said(self, server):
        return (self.folder / f"{server}.out").read_text(errors="replace")

    def busy(self, server=0):
        """The seconds of processor time that a server has taken."""
        return time.clock_gettime((~self.servers[server].pid << 3) | 2)

    def busy_by_thread(self, server):
        """The same of each of its threads."""
        tasks = pathlib.Path(f"/proc/{self.servers[server].pid}/task").glob("*/schedstat")
        return {path.parent.name: int(path.read_text().split()[0]) * 1e-9 for path in tasks}

    def resident(self, server=0):
        return memory.resident(self.servers[server].pid)

    def check(self):
        for server, process in self.servers.items():
            if process.poll() is not None:
                raise RuntimeError(f"server {server} ended: {self.said(server)[-2000:]!r}")

    def fill(self, members, server=0, key=KEY):
        """Adds so many members at a server."""
        with Client(self.ports[server]) as client:
            waiting = 0
            for first in range(0, members, BATCH):
                words = (word for place in range(first, min(first + BATCH, members)) for word in (b"%d" % (place * 7919 % 1000003), member(place)))
                client.link.sendall(streams.request(b"ZADD", key, *words))
                waiting += 1
                if waiting == FLIGHT:
                    client.reply()
                    waiting -= 1
            for _ in range(waiting):
                client.reply()

    def mark(self, servers=None):
        """Adds members of a key of its own at servers, in each heap; the key, and how many members it has in the end."""
        self.marks += 1
        key, servers = b"mark:%05d" % self.marks, self.writable if servers is None else servers
        for server in servers:
            with Client(self.ports[server]) as client:
                words = (word for place in range(MARK) for word in (b"1", b"%d:%d" % (server, place)))
                if client.ask(b"ZADD", key, *words) != b":%d\r\n" % MARK:
                    raise RuntimeError("a mark is not added")
        return key, len(servers) * MARK

    def seconds_until(self, mark, patience=PATIENCE, servers=None):
        """How long it takes until a mark is at all servers. What was changed before it, where it was written, is there then too. `None`
        where it does not come."""
        key, count = mark
        begin, wanted = time.monotonic(), b":%d\r\n" % count
        for server in self.servers if servers is None else servers:
            with Client(self.ports[server]) as client:
                while client.ask(b"ZCARD", key) != wanted:
                    if time.monotonic() - begin > patience:
                        return None
                    self.check()
                    time.sleep(PAUSE)
        return time.monotonic() - begin

    def are_alike(self, patience=PATIENCE, members=200):
        """Whether all that was written is at all servers in time: a mark, then the number of members and the scores of some."""
        if self.seconds_until(self.mark(), patience) is None:
            return False
        answers = []
        for server in self.servers:
            with Client(self.ports[server]) as client:
                asked = [client.ask(b"ZCARD", KEY)] + [client.ask(b"ZSCORE", KEY, member(place * 499)) for place in range(members)]
                answers.append(asked)
        return all(each == answers[0] for each in answers)

    def write(self, rate, seconds, members=0, seed=1, servers=None, key=KEY):
        """A writer at these servers, which was started."""
        ports = [self.ports[server] for server in (self.writable if servers is None else servers)]
        return Writer(self.tools, ports, rate, seconds, members, seed, key)

    def calls(self, server=0, key=b"other:0001"):
        """A client that calls a server each millisecond, which was started."""
        child = Child(self.tools.probe, "calls", self.ports[server], key.decode())
        if child.process.stdout.readline() != "begun\n":
            raise RuntimeError("the probe does not begin")
        return child

    def counted(self):
        """What the relay has carried. It is an error where that is not what sites say to each other: then nothing is counted rightly."""
        counters = self.relay.counters()
        if self.are_sites and not counters.are_known():
            raise RuntimeError(f"the relay does not know what sites say: {counters.values}")
        return counters

    def freshness(self, seconds, patience, least, servers=(0, 1), seed=7):
        """How soon members that are written at one server for so long are at another one, which is asked `least` seconds after each."""
        ports = [self.ports[server] for server in servers]
        with Child(self.tools.probe, "fresh", *ports, seconds, patience, round(least * 1e6), seed) as probe:
            return probe.figures()

    def back(self, pair, patience):
        """Lets a pair carry again that was cut. What is written until then is waited for: seconds from when the link is there until it is at
        all servers, and seconds before that; the frames that went, the operations in them, and all bytes."""
        mark, before, begin = self.mark(), self.counted(), time.monotonic()
        self.relay.do("go", pair)
        took = self.seconds_until(mark, patience)
        is_there, after = time.monotonic(), self.counted()
        dialled = max(after.link("since", pair) - begin, 0.0)
        return {"seconds": None if took is None else is_there - begin - dialled, "dialled": dialled, "frames": after.frames_since(before),
                "operations": after.since(before, "operations"), "bytes": after.since(before, "bytes")}

    def __enter__(self):
        return self

    def __exit__(self, *_):
        self.held.close()


class Sites(Group):
    """So many sites of `zqueue site`, of which some may be started later. Of two the greater number dials, over the relay: the pair
    of each two, in the order of the greater number and then of the lesser."""

    are_sites = True

    def __init__(self, program, tools, count, delay=0.0, rate=0, start=None, secret=SECRET):
        super().__init__(tools)
        try:
            self.program, self.count, self.secret = program, count, secret
            ports = served.free_ports(2 * count)
            self.ports, self.listens = ports[:count], ports[count:]
            self.writable = list(range(count))
            self.pairs = {pair: at for at, pair in enumerate((low, high) for high in range(count) for low in range(high))}
            self.relay = self.held.enter_context(Relay(tools, [self.listens[low] for low, _ in self.pairs] or [1], delay, rate))
            for site in range(count if start is None else start):
                self.start(site)
        except BaseException:
            self.held.close()
            raise

    def start(self, site):
        path = self.folder / f"{site}.toml"
        path.write_text(self.settings(site))
        self.started(site, [self.program, "site", path])
        end = time.monotonic() + served.OPENING
        while not self.said(site).startswith(f"site {site} port "):
            if time.monotonic() > end or self.servers[site].poll() is not None:
                raise RuntimeError(f"site {site} does not serve: {self.said(site)!r}")
            time.sleep(0.001)

    def settings(self, site):
        text = (f'site = {site}\nport = {self.ports[site]}\nlisten = "127.0.0.1:{self.listens[site]}"\nheaps = {HEAPS}\n'
                f"workers = {WORKERS}\nseed = {site + 1}\nalone = 0\n")
        if self.secret:
            text += f'secret = "{self.secret}"\n'
        for peer in range(self.count):
            if peer != site:
                port = self.relay.ports[self.pairs[peer, site]] if peer < site else self.listens[peer]
                text += f'[[peers]]\nsite = {peer}\naddress = "127.0.0.1:{port}"\n'
        return text


class Replicated(Group):
    """A redis-server and replicas of it, in all so many, of which some may be started later. Each replica has a pair of the relay."""

    def __init__(self, tools, count, delay=0.0, rate=0, start=None):
        super().__init__(tools)
        try:
            self.count, self.writable = count, [0]
            self.ports = served.free_ports(count)
            self.relay = self.held.enter_context(Relay(tools, [self.ports[0]] * (count - 1) or [1], delay, rate))
            for server in range(count if start is None else start):
                self.start(server)
        except BaseException:
            self.held.close()
            raise

    def start(self, server):
        words = redis_words(self.ports[server], self.folder)
        if server:
            words += ["--replicaof", "127.0.0.1", self.relay.ports[server - 1]]
        self.started(server, words)
        answers(self.ports[server])


def redis_words(port, folder):
    """The words that start a redis-server without persistence, which begins at once to send what a replica lacks."""
    return ["redis-server", "--bind", "127.0.0.1", "--port", port, "--save", "", "--appendonly", "no", "--dir", folder,
            "--repl-diskless-sync", "yes", "--repl-diskless-sync-delay", "0", "--repl-backlog-size", "64mb"]


def answers(port):
    """Waits until a server answers."""
    end = time.monotonic() + served.OPENING
    while True:
        with contextlib.suppress(OSError, RuntimeError), Client(port) as client:
            client.ask(b"PING")
            return
        if time.monotonic() > end:
            raise RuntimeError("a server does not answer")
        time.sleep(0.001)


class Idle:
    """The part of all processors' time that was idle while its `with` ran: `share`."""

    def __enter__(self):
        self.before, self.share = self.read(), 0.0
        return self

    def __exit__(self, *_):
        spent = [after - before for before, after in zip(self.before, self.read())]
        self.share = (spent[3] + spent[4]) / max(1, sum(spent[:8]))

    @staticmethod
    def read():
        return [int(word) for word in pathlib.Path("/proc/stat").read_text().splitlines()[0].split()[1:]]


def needed():
    """Ends the program where what it needs is not there."""
    for program, package in (("redis-server", "redis-server"), ("cc", "gcc")):
        if shutil.which(program) is None:
            sys.exit(f"{program} is not there (Debian's package {package})")

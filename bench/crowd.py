"""Clients of all manners at once against a `zqueue serve`, for fuzz.py.

- Mutated streams, each with keys of its own, sent in pieces: each gets what the plain model answers.
- Clients that go in the midst of a request or without reading their replies, by a close or a reset.
- Clients that send half a request, are silent until the others are done, and then send the rest.
- Clients that ask for much and never read, to the end.
- One that behaves well all the while: its replies are compared with the model's, and each has to come in time.
"""
import contextlib
import random
import socket
import struct
import threading
import time

import plain_model
import served
import streams

SITES = 2
# Threads that serve a site: far fewer than there are clients below.
WORKERS = 4
# How many clients there are at once of each kind: 200 with the one that behaves well.
CROWD = {"mutated": 80, "vanishing": 9, "half": 100, "deaf": 10}
# Seconds within which the one that behaves well is answered.
PATIENCE = 20


class Crowd:
    """What the clients share: the server, what is left to do, and what was done and seen."""

    def __init__(self, server, seed, sessions, own_words, own_stream):
        self.server, self.seed, self.sessions = server, seed, sessions
        self.own_words, self.own_stream = own_words, own_stream
        self.lock, self.is_over = threading.Lock(), threading.Event()
        self.done = dict.fromkeys([*CROWD, "tame", "bytes"], 0)
        self.kept = []

    def count(self, kind, by=1):
        """Adds to what was done, and answers how much it was before."""
        with self.lock:
            self.done[kind] += by
            return self.done[kind] - by

    def keep(self, name, data):
        with self.lock:
            self.kept.append((name, data))

    def drawn(self, kind, number):
        return random.Random(f"{self.seed} {kind} {number}")

    def link(self, draw):
        """A connection to one of the sites."""
        return socket.create_connection(("127.0.0.1", draw.choice(self.server.ports)), timeout=PATIENCE)


def put(link, draw, data):
    """Sends in drawn pieces, as far as the other end takes them."""
    with contextlib.suppress(ConnectionError):
        while data:
            size = draw.choice([1, 7, 100, 5000])
            link.sendall(data[:size])
            data = data[size:]


def taken(link):
    """What comes before the end, and whether the connection was reset at its end: it may be where the server closes it with
    bytes unread."""
    got = b""
    try:
        while piece := link.recv(1 << 16):
            got += piece
    except ConnectionResetError:
        return got, True
    return got, False


def mutate(crowd, draw, number):
    """Sends a mutated stream and compares all that is answered."""
    data = crowd.own_stream(draw, b"%016x " % draw.getrandbits(64))
    wanted, _ = plain_model.served(data)
    with crowd.link(draw) as link:
        put(link, draw, data)
        with contextlib.suppress(OSError):
            link.shutdown(socket.SHUT_WR)
        got, was_reset = taken(link)
    crowd.count("bytes", len(data))
    if got != wanted and not (was_reset and wanted.startswith(got)):
        crowd.keep(f"mutated-{number}", data)


def vanish(crowd, draw, _):
    """Sends a stream that ends anywhere and goes, with its replies unread."""
    data = crowd.own_stream(draw, b"%016x " % draw.getrandbits(64))
    with crowd.link(draw) as link:
        put(link, draw, data[:draw.randrange(len(data) + 1)])
        if draw.randrange(2):
            link.setsockopt(socket.SOL_SOCKET, socket.SO_LINGER, struct.pack("ii", 1, 0))
    time.sleep(0.01)


def half(crowd, draw, number):
    """Sends half a request and is silent; once the others are done it sends the rest, and is answered."""
    data = streams.request(b"ZADD", b"%016x" % draw.getrandbits(64), b"1", b"m" * draw.randrange(1000))
    middle = draw.randrange(1, len(data))
    with crowd.link(draw) as link:
        put(link, draw, data[:middle])
        crowd.is_over.wait()
        put(link, draw, data[middle:])
        link.shutdown(socket.SHUT_WR)
        got, _ = taken(link)
    if got != plain_model.number(1):
        crowd.keep(f"half-{number}", data)


def be_deaf(crowd, draw, _):
    """Asks for a queue over and over until the server takes no more, and never reads."""
    key = b"%016x" % draw.getrandbits(64)
    members = [word for number in range(100) for word in (b"%d" % number, b"member %d" % number)]
    data = streams.request(b"ZADD", key, *members) + streams.request(b"ZRANGE", key, b"0", b"-1", b"WITHSCORES") * 2000
    with socket.socket() as link, contextlib.suppress(OSError):
        # Little room for replies that nobody reads.
        link.setsockopt(socket.SOL_SOCKET, socket.SO_RCVBUF, 4096)
        link.connect(("127.0.0.1", draw.choice(crowd.server.ports)))
        link.settimeout(0.2)
        with contextlib.suppress(TimeoutError):
            link.sendall(data)
        crowd.is_over.wait()


CLIENTS = {"mutated": mutate, "vanishing": vanish, "half": half, "deaf": be_deaf}


def go_on(crowd, kind):
    """One client after another of a kind, until all mutated streams are sent."""
    while not crowd.is_over.is_set():
        number = crowd.count(kind)
        if kind == "mutated" and number >= crowd.sessions:
            crowd.count(kind, -1)
            return
        try:
            CLIENTS[kind](crowd, crowd.drawn(kind, number), number)
        except Exception as failure:  # whatever ends a client is told
            crowd.keep(f"{kind}-{number}", repr(failure).encode())


class Tame:
    """The client that behaves well, and what its replies have to be."""

    def __init__(self, crowd):
        self.crowd, self.plain, self.draw = crowd, plain_model.Plain(), crowd.drawn("tame", 0)
        self.link = socket.create_connection(("127.0.0.1", crowd.server.ports[0]), timeout=PATIENCE)

    def ask(self, data, size):
        """The first so many bytes of what is answered."""
        self.link.sendall(data)
        got = b""
        while len(got) < size:
            piece = self.link.recv(size - len(got))
            if not piece:
                break
            got += piece
        return got

    def run(self):
        """Asks until the others are done, or something is answered otherwise."""
        with self.link:
            while not self.crowd.is_over.is_set():
                words = [self.crowd.own_words(self.draw, b"tame ") for _ in range(1 + self.draw.randrange(30))]
                data = b"".join(streams.request(*each) for each in words)
                wanted = b"".join(self.plain.answer(each) for each in words)
                if self.ask(data, len(wanted)) != wanted or not self.pop_near(self.draw.choice([b"tame q", b"tame board"])):
                    self.crowd.keep("tame", data)
                    return
                self.crowd.count("tame", len(words) + 1)
                time.sleep(0.001)

    def pop_near(self, key):
        """Whether ZPOPNEAR takes a member of the key with its score, where there is one. Which one it is, is not known."""
        members = self.plain.sets.get(key, {})
        lines = {plain_model.array([member, b"%d" % score]): member for member, score in members.items()}
        lines = lines or {plain_model.array([]): None}
        self.link.sendall(streams.request(b"ZPOPNEAR", key))
        got = b""
        while got not in lines:
            piece = self.link.recv(1 << 16)
            got += piece
            if not piece or not any(line.startswith(got) for line in lines):
                return False
        self.plain.drop(key, lines[got])
        return True


def behave(crowd):
    """The client that behaves well. What breaks it off is kept."""
    try:
        Tame(crowd).run()
    except Exception as failure:  # whatever ends it is told
        crowd.keep("tame", repr(failure).encode())


def run(program, seed, sessions, own_words, own_stream):
    """What was done in words, and what was answered otherwise than by the model, with its name."""
    started = time.monotonic()
    with served.Served(program, SITES, workers=WORKERS) as server:
        crowd = Crowd(server, seed, sessions, own_words, own_stream)
        tame = threading.Thread(target=behave, args=(crowd,))
        mutated = [threading.Thread(target=go_on, args=(crowd, "mutated")) for _ in range(CROWD["mutated"])]
        kinds = [kind for kind, count in CROWD.items() for _ in range(count) if kind != "mutated"]
        others = [threading.Thread(target=go_on, args=(crowd, kind)) for kind in kinds]
        for thread in (tame, *others, *mutated):
            thread.start()
        for thread in mutated:
            thread.join()
        crowd.is_over.set()
        for thread in (tame, *others):
            thread.join()
        if not server.is_alive():
            crowd.keep("server", b"the server ended")
        done, memory, warnings = crowd.done, server.memory(), len(server.warnings())
    told = (f"{done['mutated']} mutated streams of {done['bytes']} bytes, {done['vanishing']} clients that vanished, "
            f"{done['half']} that were silent in the midst of a request, {done['deaf']} that never read, and {done['tame']} "
            f"requests of one that behaved well, in {time.monotonic() - started:.0f} s; {warnings} warnings, "
            f"{(memory or 0) // 1024} MiB at most")
    return told, crowd.kept

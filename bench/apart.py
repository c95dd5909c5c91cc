#!/usr/bin/env python3
"""Three sites in processes of their own, whose links go over relays (relay.py) that cut, stall and delay them by a seed
while clients write at all three. Then the relays heal, and all sites have to answer every reading command alike. At last
one site is cut off while a client adds members at another, and catches up.

Usage: bench/apart.py [--seeds N] [--first N] [--seconds S] [--operations N] [--record FORM] [--program PATH]
       bench/apart.py --self-test
It prints for each seed what was done and how long after healing the sites were alike, and how many operations a second were
caught up. Status 1 where the sites of a seed are not alike within 30 seconds after healing. With --record the figures go to
bench/results/apart.csv, of this form of the code, as "proved program". With --self-test plain servers stand in the sites'
place: servers that share all have to be found alike, and servers apart not; and seeds are judged that were made by hand.
"""
import argparse
import contextlib
import dataclasses
import pathlib
import random
import signal
import socket
import statistics
import subprocess
import sys
import tempfile
import threading
import time

import apart_tried
import plain_model
import recording
import served
import streams
from relay import Relay

SITES = 3
HEAPS = 4
KEYS = [b"q", b"board", b"jobs"]
MEMBERS = 40
# Seconds within which sites have to be alike after healing, and within which a request is answered.
PATIENCE = 30
# How many requests wait for their replies while a site is filled.
FLIGHT = 1000


class Client:
    """A connection on which requests are answered one by one."""

    def __init__(self, port):
        self.link = socket.create_connection(("127.0.0.1", port), timeout=PATIENCE)
        self.replies = self.link.makefile("rb")

    def reply(self):
        """The bytes of the next reply."""
        line = self.replies.readline()
        if not line.endswith(b"\n"):
            raise RuntimeError("the connection ended")
        if line[:1] == b"$" and line != plain_model.NULL:
            return line + self.replies.read(int(line[1:]) + 2)
        if line[:1] == b"*":
            return line + b"".join(self.reply() for _ in range(int(line[1:])))
        return line

    def ask(self, *words):
        self.link.sendall(streams.request(*words))
        return self.reply()

    def __enter__(self):
        return self

    def __exit__(self, *_):
        self.replies.close()
        self.link.close()


def readings(client):
    """What a site answers to reading commands of every kind, over all keys and members."""
    asked = []
    for key in KEYS:
        asked += [(b"ZCARD", key), (b"ZCOUNT", key, b"(-5", b"+inf"), (b"ZRANGE", key, b"0", b"-1", b"WITHSCORES"),
                  (b"ZRANGE", key, b"+inf", b"-inf", b"BYSCORE", b"REV", b"LIMIT", b"1", b"7", b"WITHSCORES")]
        members = [b"m%d" % number for number in range(MEMBERS)]
        asked += [(name, key, member) for member in members for name in (b"ZSCORE", b"ZRANK", b"ZREVRANK")]
    client.link.sendall(b"".join(streams.request(*words) for words in asked))
    return [client.reply() for _ in asked]


def are_alike(ports):
    """Whether all sites answer every reading command by the same bytes."""
    with contextlib.ExitStack() as held:
        answers = [readings(held.enter_context(Client(port))) for port in ports]
    return all(each == answers[0] for each in answers)


def seconds_until_alike(ports, patience=PATIENCE):
    """How long it takes until all sites are alike, or None."""
    begin = time.monotonic()
    while time.monotonic() - begin < patience:
        if are_alike(ports):
            return time.monotonic() - begin
        time.sleep(0.02)
    return None


def drawn_request(draw):
    """A request that changes a queue."""
    key, member, score = draw.choice(KEYS), b"m%d" % draw.randrange(MEMBERS), b"%d" % draw.randrange(-50, 51)
    return draw.choice([(b"ZADD", key, score, member)] * 4 + [(b"ZINCRBY", key, score, member)] * 3
                       + [(b"ZREM", key, member), (b"ZPOPMIN", key), (b"ZPOPNEAR", key)] + [(b"DEL", key)] * (draw.randrange(20) == 0))


class Writer(threading.Thread):
    """A client that changes one site's queues until it is told to end."""

    def __init__(self, port, seed):
        super().__init__(daemon=True)
        self.port, self.draw, self.is_over, self.done, self.failure = port, random.Random(seed), False, 0, None

    def run(self):
        try:
            with Client(self.port) as client:
                while not self.is_over:
                    reply = client.ask(*drawn_request(self.draw))
                    if reply.startswith(b"-"):
                        raise RuntimeError(reply.decode())
                    self.done += 1
                    time.sleep(self.draw.random() * 0.002)
        except Exception as failure:  # what ends the writer is told by the one that waits for it
            self.failure = failure


class Apart:
    """Three sites in processes of their own, each linked to the others over a relay for each pair."""

    def __init__(self, program):
        self.program, self.held = program, contextlib.ExitStack()
        self.servers = []

    def __enter__(self):
        try:
            self.open()
        except BaseException:
            self.held.close()
            raise
        return self

    def open(self):
        folder = pathlib.Path(self.held.enter_context(tempfile.TemporaryDirectory(prefix="zqueue-apart-")))
        ports = served.free_ports(2 * SITES)
        self.ports, listens = ports[:SITES], ports[SITES:]
        # The greater number dials.
        self.relays = {(low, high): self.held.enter_context(Relay(listens[low])) for high in range(SITES) for low in range(high)}
        for site in range(SITES):
            (folder / f"{site}.toml").write_text(self.settings(site, listens))
            self.start(folder, site)
        for site in range(SITES):
            self.wait(folder, site)

    def settings(self, site, listens):
        text = (f'site = {site}\nport = {self.ports[site]}\nlisten = "127.0.0.1:{listens[site]}"\nheaps = {HEAPS}\nworkers = 8\nalone = 0\n'
                'secret = "only for this run"\n')
        for peer in range(SITES):
            if peer != site:
                port = self.relays[peer, site].port if peer < site else listens[peer]
                text += f'[[peers]]\nsite = {peer}\naddress = "127.0.0.1:{port}"\n'
        return text

    def start(self, folder, site):
        words = served.guarded([self.program, "site", folder / f"{site}.toml"])
        out = self.held.enter_context(open(folder / f"{site}.out", "wb"))
        server = subprocess.Popen(words, stdin=subprocess.DEVNULL, stdout=out, stderr=subprocess.STDOUT)
        self.servers.append(server)
        self.held.callback(server.wait)
        self.held.callback(server.terminate)

    def wait(self, folder, site):
        """Waits until the site listens."""
        end = time.monotonic() + served.OPENING
        while not (folder / f"{site}.out").read_text(errors="replace").startswith(f"site {site} port {self.ports[site]} peers "):
            if time.monotonic() > end or self.servers[site].poll() is not None:
                raise RuntimeError(f"site {site} does not serve: {(folder / f'{site}.out').read_text(errors='replace')!r}")
            time.sleep(0.01)

    def are_alive(self):
        return all(server.poll() is None for server in self.servers)

    def heal(self):
        for relay in self.relays.values():
            relay.heal()
            relay.delay = 0.0

    def __exit__(self, *_):
        self.held.close()


def disturb(draw, relays, seconds, done):
    """Cuts, stalls, delays and heals links for so long."""
    end = time.monotonic() + seconds
    while time.monotonic() < end:
        relay = draw.choice(relays)
        kind = draw.choice(["cut", "stall", "heal", "heal", "delay"])
        done[kind] += 1
        if kind == "delay":
            relay.delay = draw.choice([0.0, 0.01, 0.05, 0.2])
        else:
            getattr(relay, kind)()
        time.sleep(draw.random() * 0.3)


@dataclasses.dataclass(frozen=True)
class Seed:
    """What came of a seed: the changes, what was done to links, dials, whether the sites differed before healing, the seconds from
    then on until they were alike, or `None`, and what went wrong beside."""
    seed: int
    changes: int
    done: dict
    dials: int
    was_apart: bool
    took: float | None
    failures: tuple = ()

    def is_well(self):
        return self.took is not None and not self.failures

    def told(self):
        done, told = self.done, "never alike" if self.took is None else f"alike {self.took:.2f} s after healing"
        return (f"seed {self.seed}: {self.changes} changes at 3 sites, {done['cut']} cuts, {done['stall']} stalls, {done['delay']} delays, "
                f"{self.dials} dials, {'apart' if self.was_apart else 'alike'} before healing; {'; '.join([told, *self.failures])}")


def run_seed(program, seed, seconds):
    """What comes of a seed."""
    draw, done = random.Random(f"apart {seed}"), dict.fromkeys(["cut", "stall", "delay", "heal"], 0)
    with Apart(program) as apart:
        writers = [Writer(port, f"{seed} {site}") for site, port in enumerate(apart.ports)]
        for writer in writers:
            writer.start()
        disturb(draw, list(apart.relays.values()), seconds, done)
        for writer in writers:
            writer.is_over = True
            writer.join()
        was_apart = not are_alike(apart.ports)
        apart.heal()
        took = seconds_until_alike(apart.ports)
        failures = [f"a client at site {site}: {writer.failure!r}" for site, writer in enumerate(writers) if writer.failure]
        failures += [] if apart.are_alive() else ["a site ended"]
        dials = sum(relay.accepted for relay in apart.relays.values())
    return Seed(seed, sum(writer.done for writer in writers), done, dials, was_apart, took, tuple(failures))


def figures(seeds, operations, rate):
    """The figures of seeds, and of operations that were caught up so fast, or `None`."""
    case, well = f"{SITES} sites, {len(seeds)} seeds from {seeds[0].seed} on", [each for each in seeds if each.is_well()]
    done = {kind: sum(each.done[kind] for each in seeds) for kind in ("cut", "stall", "delay")}
    note = (f"{done['cut']} cuts, {done['stall']} stalls, {done['delay']} delays, {sum(each.dials for each in seeds)} dials, "
            f"{sum(each.was_apart for each in seeds)} apart before healing")
    rows = [(case, "changes", sum(each.changes for each in seeds), "operations", note), (case, "alike after healing", len(well), "seeds", "")]
    if well:
        times = [each.took for each in well]
        rows += [(case, "from healing until alike, median", round(statistics.median(times), 2), "s", ""),
                 (case, "from healing until alike, longest", round(max(times), 2), "s", "")]
    caught = "never" if rate is None else round(rate)
    return [*rows, ("a site that was cut off", "caught up", caught, "operations a second", f"{operations:,} operations")]


def fill(port, operations):
    """Adds so many members of their own."""
    with Client(port) as client:
        for first in range(0, operations, FLIGHT):
            turns = range(first, min(first + FLIGHT, operations))
            client.link.sendall(b"".join(streams.request(b"ZADD", b"caught", b"%d" % (turn * 7919 % 1000003), b"member:%d" % turn) for turn in turns))
            for _ in turns:
                client.reply()


def catch_up(program, operations):
    """Operations a second that a site catches up which was cut off while they were made; `None` where it does not have them in time."""
    with Apart(program) as apart:
        if seconds_until_alike(apart.ports) is None:
            return None
        for relay in apart.relays.values():
            relay.cut()
        fill(apart.ports[0], operations)
        begin = time.monotonic()
        apart.heal()
        with Client(apart.ports[2]) as client:
            wanted = plain_model.number(operations)
            while client.ask(b"ZCARD", b"caught") != wanted and time.monotonic() - begin < 4 * PATIENCE:
                time.sleep(0.005)
            took = time.monotonic() - begin
            has_all = client.ask(b"ZCARD", b"caught") == wanted
    return operations / took if has_all else None


def main():
    words = argparse.ArgumentParser(description=__doc__, formatter_class=argparse.RawDescriptionHelpFormatter)
    words.add_argument("--seeds", type=int, default=20)
    words.add_argument("--first", type=int, default=1)
    words.add_argument("--seconds", type=float, default=3)
    words.add_argument("--operations", type=int, default=200_000)
    words.add_argument("--record", metavar="FORM")
    words.add_argument("--program", type=pathlib.Path)
    words.add_argument("--self-test", action="store_true")
    asked = words.parse_args()
    for number in (signal.SIGTERM, signal.SIGHUP):
        signal.signal(number, lambda number, _: sys.exit(128 + number))
    if asked.self_test:
        found = apart_tried.faults()
        for line in found:
            print(f"apart: {line}", file=sys.stderr)
        return 1 if found else 0
    program = asked.program.resolve() if asked.program else served.built()
    seeds = []
    for seed in range(asked.first, asked.first + asked.seeds):
        seeds.append(run_seed(program, seed, asked.seconds))
        print(seeds[-1].told(), flush=True)
    rate = catch_up(program, asked.operations)
    return conclude(seeds, asked.operations, rate, asked.record)


def conclude(seeds, operations, rate, form=None):
    """Says what came of all, keeps it where that is asked for, and answers the status."""
    are_well = all(each.is_well() for each in seeds)
    if seeds and are_well:
        times = [each.took for each in seeds]
        print(f"all {len(seeds)} seeds end alike; after healing the median is {statistics.median(times):.2f} s, the longest {max(times):.2f} s")
    print("a site that was cut off does not catch up" if rate is None else f"{operations} operations caught up after a cut: {rate:,.0f} a second")
    if form and seeds:
        recording.record("apart.csv", form, figures(seeds, operations, rate))
    return 0 if rate is not None and are_well else 1


if __name__ == "__main__":
    sys.exit(main())

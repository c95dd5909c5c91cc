#!/usr/bin/env python3
"""What clients by the thousand find at `zqueue site`, one site with 2 workers, beside redis-server, in alternation and by one
loader, load.c. Needs a C compiler, redis-server, and 10,100 descriptors for a process.

    rates    ZADD and ZSCORE of drawn members of one key over 50, 1,000 and 5,000 connections, each with 1 and with 16 requests
             in flight: requests a second, when 50, 99 and 99.9 of a hundred are answered, and processor time a request
    idle     resident bytes a connection, of 10,000 that were answered a PING each and say nothing more
    beside   the rate of 50 busy connections beside those 10,000, as a part of their rate alone

Usage: bench/clients.py [--rounds N] [--seconds N] [--members N] [--threads N] [--program PATH] [PART ..]
Ratios are of the medians, zqueue's to redis-server's. The loader's threads are busy for a part of their time: where that is
above 0.9 the loader was what was timed, and only the processor time counts. Numbers are of one run on one machine: only the
ratios are worth a comparison.
"""
import argparse
import contextlib
import pathlib
import resource
import shutil
import socket
import statistics
import subprocess
import sys
import tempfile
import time

import memory
import pipe
import served
import streams

WORKERS = 2
# Connections and requests in flight of each, with the least ratio of rates that is wanted for ZADD and for ZSCORE.
SHAPES = {(50, 1): (1.4, 1.3), (50, 16): (4.0, 3.2), (1000, 1): (1.2, 1.2), (1000, 16): (2.5, 2.5), (5000, 1): (1.0, 1.0),
          (5000, 16): (2.0, 2.0)}
# The kind of stream, and the greatest ratio of processor time a request that is wanted.
KINDS = {"ZADD": ("updates", 0.7), "ZSCORE": ("looks", 0.85)}
IDLE = 10000
# How many requests a stream has for each connection and request in flight, and at least.
TURNS, LEAST = 10, 200000


class Site:
    """A site of this run's own, without peers."""

    def __init__(self, program, folder):
        self.port, listen = served.free_ports(2)
        settings, written = pathlib.Path(folder) / "settings.toml", pathlib.Path(folder) / "written"
        settings.write_text(f'site = 0\nport = {self.port}\nlisten = "127.0.0.1:{listen}"\nworkers = {WORKERS}\nclients = {2 * IDLE}\nalone = 0\n')
        with open(written, "wb") as out:
            self.server = subprocess.Popen(served.guarded([program, "site", settings]), stdin=subprocess.DEVNULL, stdout=out,
                                           stderr=subprocess.STDOUT, env=served.ENVIRONMENT)
        end = time.monotonic() + served.OPENING
        while not written.read_text().startswith("site 0 port "):
            if time.monotonic() > end or self.server.poll() is not None:
                raise RuntimeError(f"zqueue does not serve: {written.read_text()!r}")
            time.sleep(0.01)

    def stop(self):
        self.server.terminate()
        self.server.wait()


class Load:
    """The loader, with the streams that it sends."""

    def __init__(self, folder, options):
        self.program, self.folder, self.options = pipe.compiled("load", folder), pathlib.Path(folder), options

    def stream(self, kind, requests):
        """The paths of what goes before so many requests of a kind, and of these. They are made once."""
        paths = [self.folder / f"{kind} {requests} {part}" for part in ("first", "second")]
        if not paths[0].exists():
            for path, data in zip(paths, streams.stream(kind, 1, requests, self.options.members)):
                path.write_bytes(data)
        return paths

    def fill(self, server):
        first, _ = self.stream("updates", LEAST)
        subprocess.run([self.program, first, str(server.port), "1", "0", "1"], stdout=subprocess.DEVNULL, check=True)

    def figures(self, server, kind, connections, flight):
        """What the loader says of so many connections, each with so many requests in flight."""
        _, second = self.stream(kind, max(LEAST, TURNS * connections * flight))
        threads = min(self.options.threads, connections)
        words = [self.program, second, server.port, connections, flight, threads, self.options.seconds, server.server.pid]
        done = subprocess.run([str(word) for word in words], stdout=subprocess.PIPE, text=True, check=True)
        return {name: float(figure) for name, figure in map(str.split, done.stdout.splitlines())}


def medians(rounds):
    """The median of each figure."""
    return {name: statistics.median(each[name] for each in rounds) for name in rounds[0]}


def measure_rates(load, servers, options):
    print("| command, connections, in flight | zqueue: requests/s, µs each | redis-server | rate (aim) | 50 % | 99 % | 99.9 % | "
          "processor time (aim) | loader busy |\n|---|---|---|---|---|---|---|---|---|")
    for (connections, flight), aims in SHAPES.items():
        for (name, (kind, most)), aim in zip(KINDS.items(), aims):
            rounds = {server: [] for server in servers}
            for _ in range(options.rounds):
                for server, to in servers.items():
                    rounds[server].append(load.figures(to, kind, connections, flight))
            ours, theirs = (medians(rounds[server]) for server in servers)
            ratio = {figure: ours[figure] / theirs[figure] for figure in ours}
            told = [f"{each['requests_a_second']:,.0f}, {each['server_us_a_request']:.2f}" for each in (ours, theirs)]
            late = [f"{ratio[figure]:.2f}" for figure in ("p50_ms", "p99_ms", "p999_ms")]
            print("| " + " | ".join([f"{name}, {connections:,}, {flight}", *told, f"{ratio['requests_a_second']:.2f} (≥ {aim})", *late,
                                     f"{ratio['server_us_a_request']:.2f} (≤ {most})",
                                     f"{ours['loader_busy']:.2f}, {theirs['loader_busy']:.2f}"]) + " |", flush=True)


@contextlib.contextmanager
def idle(server):
    """Connections that were answered a PING each and say nothing more."""
    with contextlib.ExitStack() as held:
        for _ in range(IDLE):
            link = held.enter_context(socket.create_connection(("127.0.0.1", server.port)))
            link.sendall(streams.request(b"PING"))
            if link.recv(7) != b"+PONG\r\n":
                raise RuntimeError("an idle connection is not answered")
        yield


def measure_idle(servers):
    for name, server in servers.items():
        before = memory.resident(server.server.pid)
        with idle(server):
            taken = (memory.resident(server.server.pid) - before) / IDLE
            print(f"{name}: {taken:,.0f} resident bytes an idle connection, of {IDLE:,}", flush=True)


def measure_beside(load, servers, options):
    for name, server in servers.items():
        for command, (kind, _) in KINDS.items():
            alone, beside = [], []
            for _ in range(options.rounds):
                alone.append(load.figures(server, kind, 50, 1))
                with idle(server):
                    beside.append(load.figures(server, kind, 50, 1))
            rates = [medians(rounds)["requests_a_second"] for rounds in (alone, beside)]
            print(f"{name}: {command} over 50 connections, {rates[0]:,.0f} requests/s alone and {rates[1]:,.0f} beside {IDLE:,} idle ones: "
                  f"{rates[1] / rates[0]:.2f}, the aim is 0.9", flush=True)


def main():
    words = argparse.ArgumentParser(description=__doc__, formatter_class=argparse.RawDescriptionHelpFormatter)
    words.add_argument("--rounds", type=int, default=5)
    words.add_argument("--seconds", type=int, default=3, help="for each figure of a round (3)")
    words.add_argument("--members", type=int, default=100000)
    words.add_argument("--threads", type=int, default=2, help="of the loader (2)")
    words.add_argument("--program", type=pathlib.Path, help="in place of the one that is proved and built here")
    words.add_argument("parts", nargs="*", metavar="PART", help="rates idle beside")
    options = words.parse_args()
    for part in options.parts:
        if part not in ("rates", "idle", "beside"):
            words.error(f"{part}: no such part")
    if shutil.which("redis-server") is None:
        sys.exit("clients.py: redis-server is not there (Debian's package redis-server)")
    most = resource.getrlimit(resource.RLIMIT_NOFILE)[1]
    if most != resource.RLIM_INFINITY and most < IDLE + 100:
        sys.exit(f"clients.py: a process may open {most} descriptors here, and {IDLE + 100} are wanted")
    resource.setrlimit(resource.RLIMIT_NOFILE, (most, most))
    program = options.program.resolve() if options.program else served.built()
    parts = options.parts or ["rates", "idle", "beside"]
    with tempfile.TemporaryDirectory() as folder, contextlib.ExitStack() as held:
        load = Load(folder, options)
        servers = {"zqueue": Site(program, folder), "redis-server": pipe.Redis(folder)}
        for server in servers.values():
            held.callback(server.stop)
        with socket.create_connection(("127.0.0.1", servers["redis-server"].port)) as link:
            link.sendall(streams.request(b"CONFIG", b"SET", b"maxclients", b"%d" % (IDLE + 1000)))
            link.recv(100)
        if "idle" in parts:
            measure_idle(servers)
        for server in servers.values():
            load.fill(server)
        if "rates" in parts:
            measure_rates(load, servers, options)
        if "beside" in parts:
            measure_beside(load, servers, options)
    return 0


if __name__ == "__main__":
    sys.exit(main())

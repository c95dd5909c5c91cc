#!/usr/bin/env python3
"""Times `zqueue serve` beside redis-server over loopback, in alternation and by one loader, load.c: ZADD and ZSCORE of
members that are there, over

    apart     50 connections, each with one request at a time
    sixteen   50 connections, each with 16 requests at a time
    one       one connection, which writes as the server takes it

It prints the medians, zqueue's rate as a part of redis-server's, and how much of its threads' time the loader worked: near 1
the loader was what was timed. Needs a C compiler and redis-server.

Usage: bench/serve.py [--requests N] [--members N] [--rounds N] [--threads N] [--sites N] [--program PATH] [SHAPE ..]
Numbers are of one run on one machine: only the ratios are worth a comparison.
"""
import argparse
import pathlib
import shutil
import statistics
import subprocess
import sys
import tempfile

import pipe
import served
import streams

# How many connections, and how many requests of each in flight: 0 is as many as go.
SHAPES = {"apart": (50, 1), "sixteen": (50, 16), "one": (1, 0)}
# The kind of stream, and the least ratio that is wanted of each shape.
KINDS = {"ZADD": ("updates", {"apart": 1.0, "sixteen": 2.0, "one": 2.0}),
         "ZSCORE": ("looks", {"apart": 1.0, "sixteen": 1.5, "one": 2.0})}
# Threads that serve the site.
WORKERS = 2


class Load:
    """The loader, with the streams that it sends."""

    def __init__(self, folder, threads):
        self.program = pipe.compiled("load", folder)
        self.threads = threads
        self.first, self.second = (pathlib.Path(folder) / name for name in ("first", "second"))

    def take(self, first, second):
        self.first.write_bytes(first)
        self.second.write_bytes(second)

    def send(self, path, port, connections, flight):
        """Seconds until all was answered, and the seconds that the loader itself worked."""
        words = [self.program, path, port, connections, flight, min(self.threads, connections)]
        done = subprocess.run(map(str, words), stdout=subprocess.PIPE, check=True)
        seconds, busy, _ = map(float, done.stdout.split())
        return seconds, busy / min(self.threads, connections)

    def timed(self, port, connections, flight):
        """The same of the second stream, after the first one."""
        self.send(self.first, port, 1, 0)
        return self.send(self.second, port, connections, flight)


def measure(name, shape, options, load, redis):
    """Times one command in one shape and prints its line."""
    kind, aims = KINDS[name]
    load.take(*streams.stream(kind, options.seed, options.requests, options.members))
    times = {"zqueue": [], "redis": []}
    for _ in range(options.rounds):
        with served.Served(options.program, options.sites, workers=WORKERS) as server:
            times["zqueue"].append(load.timed(server.ports[0], *SHAPES[shape]))
        redis.clear()
        times["redis"].append(load.timed(redis.port, *SHAPES[shape]))
    seconds = {server: statistics.median(each[0] for each in all) for server, all in times.items()}
    busy = {server: statistics.median(each[1] / each[0] for each in all) for server, all in times.items()}
    connections, flight = SHAPES[shape]
    line = f"{name}, {connections} connections, {flight or 'all'} in flight"
    for server in times:
        line += f"; {server} {options.requests / seconds[server]:,.0f} requests/s (loader {busy[server]:.2f})"
    ratio = seconds["redis"] / seconds["zqueue"]
    print(f"{line}; zqueue's rate is {ratio:.2f} of redis-server's, the aim is {aims[shape]}", flush=True)


def main():
    words = argparse.ArgumentParser(description=__doc__, formatter_class=argparse.RawDescriptionHelpFormatter)
    words.add_argument("--seed", type=int, default=1)
    words.add_argument("--requests", type=int, default=200000)
    words.add_argument("--members", type=int, default=100000)
    words.add_argument("--rounds", type=int, default=5)
    words.add_argument("--threads", type=int, default=2, help="of the loader (2)")
    words.add_argument("--sites", type=int, default=1, help="that the program serves; the first one is timed (1)")
    words.add_argument("--program", type=pathlib.Path, help="in place of the one that is proved and built here")
    words.add_argument("shapes", nargs="*", metavar="SHAPE", help=" ".join(SHAPES))
    options = words.parse_args()
    for shape in options.shapes:
        if shape not in SHAPES:
            words.error(f"{shape}: no such shape")
    if shutil.which("redis-server") is None:
        sys.exit("serve.py: redis-server is not there (Debian's package redis-server)")
    options.program = options.program.resolve() if options.program else served.built()
    with tempfile.TemporaryDirectory() as folder:
        load, redis = Load(folder, options.threads), pipe.Redis(folder)
        try:
            for shape in options.shapes or SHAPES:
                for name in KINDS:
                    measure(name, shape, options, load, redis)
        finally:
            redis.stop()
    return 0


if __name__ == "__main__":
    sys.exit(main())

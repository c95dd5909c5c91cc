#!/usr/bin/env python3
"""What many small keys cost `zqueue serve`, one site of 4 heaps, beside redis-server: bytes a key by how many members it has, what
stays resident after all keys were deleted, and the rates of commands on keys of one to three members, in alternation and by one
loader, load.c. Resident memory is that of the process less what it had before the first key. Needs a C compiler and
redis-server.

Usage: bench/keys.py [--rounds N] [--keys N] [--program PATH] [memory] [deletion] [rates]
Rates are of one run on one machine: only the ratios are worth a comparison.
"""
import argparse
import contextlib
import pathlib
import random
import shutil
import statistics
import sys
import tempfile

import memory
import pipe
import serve
import served
import streams

HEAPS, WORKERS = 4, 4
CONNECTIONS, FLIGHT = 4, 32
# How many members a key has, how many keys there are, and the most bytes a key that are wanted.
SIZES = [(1, 200000, 300), (3, 200000, 650), (10, 100000, 1400), (50, 20000, 4800), (100, 10000, 9000)]
# How many keys of 3 members are deleted, and the most bytes that are to stay.
DELETED, STAYS = 200000, 60_000_000
# The commands that are timed, in this order over the same keys, and the least part of redis-server's rate that is wanted.
AIMS = {"ZADD": 2.0, "ZSCORE": 2.0, "ZCARD": 2.0, "ZPOPMIN": 1.3, "DEL": 1.0}


def key(number):
    return b"board:%08d" % number


def member(number, place):
    return b"m%d:%d" % (number % 97, place)


def filling(size, count):
    """A ZADD for each of so many keys, of so many members each."""
    for number in range(count):
        pairs = (word for place in range(size) for word in (b"%d" % (number * 31 + place * 7919 % 1000), member(number, place)))
        yield streams.request(b"ZADD", key(number), *pairs)


def deleting(count):
    return (streams.request(b"DEL", key(number)) for number in range(count))


def commands(count):
    """For each command that is timed what is sent before it, and its stream: one request a key, in a drawn order."""
    order = list(range(count))
    random.Random(1).shuffle(order)
    adds = b"".join(streams.request(b"ZADD", key(n), b"%d" % (n % 1000), member(n, place)) for n in order for place in range(1 + n % 3))

    def each(name, *words):
        return b"".join(streams.request(name, key(n), *(word(n) for word in words)) for n in order)

    return {"ZADD": (b"", adds), "ZSCORE": (b"", each(b"ZSCORE", lambda n: member(n, 0))), "ZCARD": (b"", each(b"ZCARD")),
            "ZPOPMIN": (b"", each(b"ZPOPMIN")), "DEL": (adds, each(b"DEL"))}


class Zqueue:
    """A server of one site."""

    def __init__(self, program):
        self.server = served.Served(program, 1, heaps=HEAPS, workers=WORKERS)
        self.port, self.pid = self.server.ports[0], self.server.server.pid

    def end(self):
        self.server.__exit__()


class Redis:
    """A redis-server of this run's own."""

    def __init__(self, folder):
        self.server = pipe.Redis(folder)
        self.port, self.pid = self.server.port, self.server.server.pid

    def end(self):
        self.server.stop()


@contextlib.contextmanager
def started(make):
    server = make()
    try:
        yield server
    finally:
        server.end()


def send(load, server, data, flight=FLIGHT, connections=CONNECTIONS):
    """Seconds until all was answered."""
    load.first.write_bytes(data)
    return load.send(load.first, server.port, connections, flight)[0]


def resident_after(load, make, *streams_sent):
    """Resident bytes beyond the start after each of these streams."""
    with started(make) as server:
        send(load, server, streams.request(b"PING"), 1, 1)
        before = memory.resident(server.pid)
        left = []
        for stream in streams_sent:
            send(load, server, b"".join(stream))
            left.append(memory.resident(server.pid) - before)
        return left


def measure_memory(load, makers):
    for size, count, most in SIZES:
        taken = {name: resident_after(load, make, filling(size, count))[0] / count for name, make in makers.items()}
        told = ", ".join(f"{name} {bytes:.0f}" for name, bytes in taken.items())
        print(f"{count} keys of {size} members, bytes a key: {told}; the aim is {most}", flush=True)


def measure_deletion(load, makers):
    for name, make in makers.items():
        filled, left = resident_after(load, make, filling(3, DELETED), deleting(DELETED))
        print(f"{name}: {DELETED} keys of 3 members {filled / 1e6:.0f} MB, after all were deleted {left / 1e6:.0f} MB; the aim is "
              f"{STAYS / 1e6:.0f}", flush=True)


def measure_rates(load, makers, options):
    streams_of = commands(options.keys)
    counts = {name: data.count(b"*") for name, (_, data) in streams_of.items()}
    times = {name: {command: [] for command in streams_of} for name in makers}
    for _ in range(options.rounds):
        for name, make in makers.items():
            with started(make) as server:
                for command, (before, data) in streams_of.items():
                    if before:
                        send(load, server, before)
                    times[name][command].append(send(load, server, data))
    for command, aim in AIMS.items():
        seconds = {name: statistics.median(each[command]) for name, each in times.items()}
        told = ", ".join(f"{name} {counts[command] / spent:,.0f}" for name, spent in seconds.items())
        ratio = seconds["redis-server"] / seconds["zqueue"]
        print(f"{command} of {options.keys} keys, {CONNECTIONS} connections, {FLIGHT} in flight, requests a second: {told}; "
              f"zqueue's rate is {ratio:.2f} of redis-server's, the aim is {aim}", flush=True)


def main():
    words = argparse.ArgumentParser(description=__doc__, formatter_class=argparse.RawDescriptionHelpFormatter)
    words.add_argument("--rounds", type=int, default=5)
    words.add_argument("--keys", type=int, default=300000)
    words.add_argument("--program", type=pathlib.Path, help="in place of the one that is proved and built here")
    words.add_argument("parts", nargs="*", metavar="PART", help="memory deletion rates")
    options = words.parse_args()
    for part in options.parts:
        if part not in ("memory", "deletion", "rates"):
            words.error(f"{part}: no such part")
    if shutil.which("redis-server") is None:
        sys.exit("keys.py: redis-server is not there (Debian's package redis-server)")
    program = options.program.resolve() if options.program else served.built()
    parts = options.parts or ["memory", "deletion", "rates"]
    with tempfile.TemporaryDirectory() as folder:
        load = serve.Load(folder, 2)
        makers = {"zqueue": lambda: Zqueue(program), "redis-server": lambda: Redis(folder)}
        if "memory" in parts:
            measure_memory(load, makers)
        if "deletion" in parts:
            measure_deletion(load, makers)
        if "rates" in parts:
            measure_rates(load, makers, options)
    return 0


if __name__ == "__main__":
    sys.exit(main())

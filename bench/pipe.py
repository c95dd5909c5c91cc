#!/usr/bin/env python3
"""Times `./zqueue pipe` on streams made from a seed, in alternation with redis-server over loopback, where it is
there, and with the yardstick in C, and prints the medians and the fastest rounds, and their ratios. Where a machine's
neighbours slow it down for some of the rounds, the fastest of many rounds swing the least. One loader, feed.c, feeds them
all. Needs a C compiler.

Usage: bench/pipe.py [--seed N] [--requests N] [--members N[,N..]] [--rounds N] [KIND ..]
The kinds are those of streams.py, each over each number of members. A stream of readings in order is timed after a first
reading, which makes the key's index; `making` times that one alone. Numbers are of one run on one machine: only the ratios
are worth a comparison.
"""
import argparse
import pathlib
import shutil
import socket
import statistics
import subprocess
import sys
import tempfile
import threading
import time

import served
import streams

ROOT = pathlib.Path(__file__).resolve().parent.parent


def run_program(command, data):
    """Seconds that a program takes from its first byte to its end, and what it wrote."""
    begin = time.perf_counter()
    done = subprocess.run(command, input=data, stdout=subprocess.PIPE, check=True)
    return time.perf_counter() - begin, done.stdout


def compiled(name, folder):
    """The path of a compiled program of this folder."""
    compiler = shutil.which("cc")
    if compiler is None:
        sys.exit("pipe.py: there is no C compiler (cc)")
    path = pathlib.Path(folder) / name
    subprocess.run([compiler, "-O2", "-o", path, ROOT / "bench" / f"{name}.c"], check=True)
    return path


class Feed:
    """The loader: it feeds two streams, one after the other, and times the second."""

    def __init__(self, folder):
        self.program = compiled("feed", folder)
        self.first, self.second, self.nothing = (pathlib.Path(folder) / name for name in ("first", "second", "nothing"))
        self.nothing.touch()

    def take(self, first, second):
        self.first.write_bytes(first)
        self.second.write_bytes(second)

    def seconds(self, *to, first=None):
        command = [self.program, first or self.first, self.second, *map(str, to)]
        return float(subprocess.run(command, stdout=subprocess.PIPE, check=True, env=served.ENVIRONMENT).stdout)


class Redis:
    """A redis-server of this run's own on a loopback port, without persistence."""

    def __init__(self, folder):
        with socket.socket() as free:
            free.bind(("127.0.0.1", 0))
            self.port = free.getsockname()[1]
        self.server = subprocess.Popen(
            ["redis-server", "--bind", "127.0.0.1", "--port", str(self.port), "--save", "", "--appendonly", "no",
             "--dir", folder], stdout=subprocess.DEVNULL)
        for _ in range(200):
            try:
                socket.create_connection(("127.0.0.1", self.port)).close()
                return
            except OSError:
                time.sleep(0.05)
        raise RuntimeError("redis-server did not answer")

    def run(self, data):
        """Seconds from the first byte sent to the last reply, over an empty database."""
        with socket.create_connection(("127.0.0.1", self.port)) as link:
            link.sendall(streams.request(b"FLUSHALL"))
            link.recv(100)
            last = b"$9\r\nthe-end-!\r\n"
            begin = time.perf_counter()
            sender = threading.Thread(target=link.sendall, args=(data + streams.request(b"PING", b"the-end-!"),))
            sender.start()
            tail = b""
            while not tail.endswith(last):
                piece = link.recv(1 << 16)
                if not piece:
                    raise RuntimeError("redis-server closed the connection")
                tail = (tail + piece)[-len(last):]
            seconds = time.perf_counter() - begin
            sender.join()
            return seconds

    def clear(self):
        """Forgets all keys."""
        with socket.create_connection(("127.0.0.1", self.port)) as link:
            link.sendall(streams.request(b"FLUSHALL"))
            link.recv(100)

    def stop(self):
        self.server.terminate()
        self.server.wait()


def measure(kind, members, options, feed, redis, stick):
    """Times one kind of stream over that many members and prints its line."""
    first, data = streams.stream(kind, options.seed, options.requests, members)
    requests = streams.length(kind, options.requests, members)
    feed.take(first, data)
    times = {"zqueue": [], "redis": [], "yardstick": []}
    for _ in range(options.rounds):
        times["zqueue"].append(feed.seconds("program", ROOT / "crates" / "zqueue" / "out" / "zqueue", "pipe"))
        if redis:
            redis.clear()
            times["redis"].append(feed.seconds("port", redis.port))
        # The yardstick keeps nothing, and answers no PING, by which the loader knows the end of a first stream.
        times["yardstick"].append(feed.seconds("stick", stick, first=feed.nothing))
    medians = {name: statistics.median(all) for name, all in times.items() if all}
    fastest = {name: min(all) for name, all in times.items() if all}
    line = f"{kind} over {members} members: {requests} requests, {len(data)} bytes"
    for name, seconds in medians.items():
        line += f"; {name} {seconds:.3f} s, {requests / seconds:,.0f} requests/s, at best {requests / fastest[name]:,.0f}"
    for name in ("redis", "yardstick"):
        if name in medians:
            line += f"; zqueue's rate is {medians[name] / medians['zqueue']:.2f} of {name}'s"
            line += f", at best {fastest[name] / fastest['zqueue']:.2f}"
    print(line, flush=True)


def numbers(text):
    """The numbers that stand between commas."""
    return [int(word) for word in text.split(",")]


def main():
    parser = argparse.ArgumentParser(description=__doc__.split("\n\n")[0])
    parser.add_argument("--seed", type=int, default=1)
    parser.add_argument("--requests", type=int, default=300000)
    parser.add_argument("--members", type=numbers, default=[1000])
    parser.add_argument("--rounds", type=int, default=5)
    parser.add_argument("kinds", nargs="*", metavar="KIND", help=" ".join(streams.KINDS))
    options = parser.parse_args()
    for kind in options.kinds:
        if kind not in streams.KINDS:
            parser.error(f"{kind}: no such kind of stream")
    run_program([ROOT / "zqueue", "pipe"], b"")
    with tempfile.TemporaryDirectory() as folder:
        feed, stick = Feed(folder), compiled("yardstick", folder)
        redis = Redis(folder) if shutil.which("redis-server") else None
        if redis is None:
            print("redis-server is not there (Debian's package redis-server): no ratio to it")
        try:
            for members in options.members:
                for kind in options.kinds or streams.KINDS:
                    measure(kind, members, options, feed, redis, stick)
        finally:
            if redis:
                redis.stop()
    return 0


if __name__ == "__main__":
    sys.exit(main())

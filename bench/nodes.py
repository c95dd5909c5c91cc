#!/usr/bin/env python3
"""Times how a node catches up with another one, by `zq_bench node`, in alternation with redis-server's full
synchronisation of the same set to a new replica on loopback, and prints medians of several rounds and their ratios.

    whole    all operations are made first: the node is told whole heaps
    bit by bit    it catches up after each few operations: it is told operations

Both nodes are in one process, and each frame is written, read and taken there, one after the other. A replica has a
process and a thread of its own. Its time is that from REPLICAOF until its link is up and it has all members. Numbers
are of one run on one machine: only the ratios are worth a comparison.

Usage: bench/nodes.py [--operations N] [--few N] [--rounds N]
"""
import argparse
import pathlib
import re
import shutil
import statistics
import subprocess
import sys
import tempfile
import time

import dump
import pipe

ROOT = pathlib.Path(__file__).resolve().parent.parent
CRATE = ROOT / "crates" / "zq_bench"
PROGRAM = CRATE / "out" / "zq_bench"
# Members that one ZADD adds to redis-server.
BATCH = 1000
# Seconds between two looks at a replica.
PAUSE = 0.002


def build():
    """Proves and builds the program."""
    rt = subprocess.run([ROOT / "tools" / "find-rt"], stdout=subprocess.PIPE, check=True, text=True).stdout.strip()
    done = subprocess.run([rt, "run", "--", "node", "1"], cwd=CRATE, stdin=subprocess.DEVNULL, capture_output=True, text=True)
    if done.returncode:
        sys.exit(done.stdout + done.stderr)


def catch_up(operations, few):
    """What the program measured of so many operations, caught up after each few of them."""
    command = [PROGRAM, "node", str(operations), str(few)]
    done = subprocess.run(command, stdin=subprocess.DEVNULL, capture_output=True, check=True, text=True)
    if done.stdout.strip() != f"{operations} and {operations} members, vectors are equal":
        sys.exit(f"nodes.py: {done.stdout}{done.stderr}")
    return {kind: int(number) for kind, number in map(str.split, done.stderr.splitlines())}


def fill(link, operations):
    """Fills a sorted set with the members that the program adds."""
    for first in range(0, operations, BATCH):
        turns = range(first, min(first + BATCH, operations))
        pairs = [(b"%d" % ((turn * 7919 & 0xFFFFFFFF) % 1000003), b"member:%d" % turn) for turn in turns]
        link.ask(b"ZADD", b"board", *[word for pair in pairs for word in pair])


def is_there(link, operations):
    """Whether a replica's link is up, and it has so many members."""
    try:
        if b"master_link_status:up" not in link.ask(b"INFO", b"replication")[1]:
            return False
        return link.ask(b"ZCARD", b"board")[1] == b"%d" % operations
    except RuntimeError:
        # It loads the set, and answers nothing else meanwhile.
        return False


def synchronise(port, operations):
    """The nanoseconds in which a new replica has all of the server at a port."""
    with dump.Server() as replica:
        begin = time.perf_counter()
        replica.ask(b"REPLICAOF", b"127.0.0.1", b"%d" % port)
        while not is_there(replica, operations):
            time.sleep(PAUSE)
        return (time.perf_counter() - begin) * 1e9


def main():
    parser = argparse.ArgumentParser()
    parser.add_argument("--operations", type=int, default=1000000)
    parser.add_argument("--few", type=int, default=1000)
    parser.add_argument("--rounds", type=int, default=3)
    options = parser.parse_args()
    operations, rounds = options.operations, options.rounds
    build()
    times = {"whole": [], "bit by bit": [], "redis-server": []}
    bytes_of = {}
    with tempfile.TemporaryDirectory() as folder:
        redis = pipe.Redis(folder) if shutil.which("redis-server") else None
        if redis:
            link = dump.Link(redis.port)
            # A server waits for further replicas first, where it is not told otherwise.
            link.ask(b"CONFIG", b"SET", b"repl-diskless-sync-delay", b"0")
            fill(link, operations)
        for _ in range(rounds):
            for name, few in (("whole", operations), ("bit by bit", options.few)):
                measured = catch_up(operations, few)
                times[name].append(measured["catch-up"])
                bytes_of[name] = measured["bytes"]
            if redis:
                times["redis-server"].append(synchronise(redis.port, operations))
        if redis:
            stats = link.ask(b"INFO", b"stats")[1]
            if int(re.search(rb"sync_full:(\d+)", stats).group(1)) != rounds:
                sys.exit("nodes.py: redis-server made another number of full synchronisations")
            redis.stop()
    theirs = statistics.median(times["redis-server"]) if redis else None
    for name, each in times.items():
        if each:
            took = statistics.median(each)
            size = f", {bytes_of[name]} bytes" if name in bytes_of else ""
            ratio = f", {theirs / took:.2f} of redis-server's rate" if redis and name in bytes_of else ""
            print(f"{name}: {operations} operations in {took / 1e9:.3f} s, {operations * 1e9 / took:.0f} a second"
                  f"{size}{ratio}")


if __name__ == "__main__":
    main()

#!/usr/bin/env python3
"""Nanoseconds that DUMP and RESTORE of a sorted set take in redis-server, over the members and scores of
`zq_bench image`, and the bytes of what DUMP gives: `dump` of the set as it was filled, in no order of its members,
`restore` of that, and `redump` of the set as it was restored. Each as the server's INFO commandstats has it, and, with
`-wall` behind its name, as the other end of a loopback connection sees it.

Usage: bench/dump.py MEMBERS [ROUNDS]
"""
import re
import socket
import sys
import tempfile
import threading
import time

import pipe
import streams

BATCH = 1000


class Link:
    """A connection on which requests are sent, and replies read, one by one."""

    def __init__(self, port):
        self.socket = socket.create_connection(("127.0.0.1", port))
        self.replies = self.socket.makefile("rb", buffering=1 << 20)

    def ask(self, *words):
        """The seconds from a request to the end of its reply, and the reply: a status, a number or a bulk."""
        request = streams.request(*words)
        begin = time.perf_counter()
        sender = threading.Thread(target=self.socket.sendall, args=(request,))
        sender.start()
        line = self.replies.readline()
        if line.startswith(b"-"):
            raise RuntimeError(line.decode())
        reply = self.replies.read(int(line[1:]) + 2)[:-2] if line.startswith(b"$") else line[1:-2]
        seconds = time.perf_counter() - begin
        sender.join()
        return seconds, reply

    def time(self, *words):
        """The nanoseconds of a request in the server and at this end, and the reply."""
        self.ask(b"CONFIG", b"RESETSTAT")
        seconds, reply = self.ask(*words)
        pattern = rb"cmdstat_%s:calls=1,usec=(\d+)" % words[0].lower()
        inside = re.search(pattern, self.ask(b"INFO", b"commandstats")[1])
        return int(inside.group(1)) * 1000, round(seconds * 1e9), reply


def fill(link, members):
    """Fills a sorted set with so many members."""
    link.ask(b"FLUSHALL")
    for first in range(0, members, BATCH):
        turns = range(first, min(first + BATCH, members))
        pairs = [(b"%d" % (turn * 7919 % 1000003), b"member:%08d" % (turn * 7919 % members)) for turn in turns]
        link.ask(b"ZADD", b"board", *[word for pair in pairs for word in pair])


def one_round(link, members):
    """The nanoseconds of each kind of step of one round, and the bytes of the dump."""
    fill(link, members)
    times = {}
    times["dump"], times["dump-wall"], payload = link.time(b"DUMP", b"board")
    link.ask(b"DEL", b"board")
    times["restore"], times["restore-wall"], _ = link.time(b"RESTORE", b"board", b"0", payload)
    times["redump"], times["redump-wall"], _ = link.time(b"DUMP", b"board")
    return times, len(payload)


class Server:
    """A redis-server for so many rounds."""

    def __enter__(self):
        self.folder = tempfile.TemporaryDirectory()
        self.redis = pipe.Redis(self.folder.name)
        return Link(self.redis.port)

    def __exit__(self, *_):
        self.redis.stop()
        self.folder.cleanup()


def main():
    members, rounds = ([int(word) for word in sys.argv[1:]] + [3])[:2]
    with Server() as link:
        for _ in range(rounds):
            times, size = one_round(link, members)
            print(f"{size} bytes:", ", ".join(f"{kind} {time}" for kind, time in times.items()), flush=True)


if __name__ == "__main__":
    main()

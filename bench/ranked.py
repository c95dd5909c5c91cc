#!/usr/bin/env python3
"""Nanoseconds a step of redis-server's sorted sets over loopback, in pipelined streams, with the protocol's part taken
out: from each stream's time that of as many PINGs, each as long as its request, is subtracted. Prints lines as
`redis insert 900`, the least of several rounds. Where there are few pairs they are put into several sets, so that a
stream is long enough to be timed. Prints nothing where redis-server is not there.

Usage: bench/ranked.py PAIRS [STEPS [ROUNDS]]
"""
import random
import shutil
import socket
import sys
import tempfile
import threading
import time

import pipe
import streams

LAST = b"the-end-!"


def ping_like(request):
    """A PING of as many bytes as a request, or nearly so."""
    spare = len(request) - len(streams.request(b"PING", b""))
    while len(streams.request(b"PING", b"x" * spare)) > len(request):
        spare -= 1
    return streams.request(b"PING", b"x" * spare)


def seconds(link, data):
    """Seconds from the first byte sent to the last reply."""
    tail = b""
    last = b"$%d\r\n%s\r\n" % (len(LAST), LAST)
    begin = time.perf_counter()
    sender = threading.Thread(target=link.sendall, args=(data + streams.request(b"PING", LAST),))
    sender.start()
    while not tail.endswith(last):
        piece = link.recv(1 << 18)
        if not piece:
            raise RuntimeError("redis-server closed the connection")
        tail = (tail + piece)[-len(last):]
    taken = time.perf_counter() - begin
    sender.join()
    return taken


def kinds(pairs, steps):
    """Each kind of step with its requests, in the order in which they are taken."""
    draw = random.Random(1)
    member = [b"member:%08d" % number for number in range(pairs)]

    boards = [b"board%d" % number for number in range(max(1, steps // pairs))]

    def add(board, number):
        return streams.request(b"ZADD", board, b"%d" % draw.randrange(1 << 32), member[number])

    def ten():
        place = draw.randrange(pairs)
        return streams.request(b"ZRANGE", boards[0], b"%d" % place, b"%d" % (place + 9))

    half = pairs // 2
    yield "insert", [add(board, number) for board in boards for number in range(pairs)]
    yield "rank", [streams.request(b"ZRANK", boards[0], draw.choice(member)) for _ in range(steps)]
    yield "ten", [ten() for _ in range(steps)]
    yield "change", [add(boards[0], draw.randrange(pairs)) for _ in range(steps)]
    yield "remove", [streams.request(b"ZREM", board, member[number]) for board in boards for number in range(half)]
    yield "pop", [streams.request(b"ZPOPMIN", board) for board in boards for _ in range(pairs - half)]


def main():
    given = [int(word) for word in sys.argv[1:]]
    pairs, steps, rounds = given + [1000, 200000, 3][len(given):]
    if shutil.which("redis-server") is None:
        return
    least = {}
    with tempfile.TemporaryDirectory() as folder:
        redis = pipe.Redis(folder)
        try:
            with socket.create_connection(("127.0.0.1", redis.port)) as link:
                for _ in range(rounds):
                    for kind, requests in kinds(pairs, steps):
                        bare = seconds(link, b"".join(ping_like(request) for request in requests))
                        net = seconds(link, b"".join(requests)) - bare
                        each = round(net / len(requests) * 1e9)
                        least[kind] = min(least.get(kind, each), each)
        finally:
            redis.stop()
    for kind, each in least.items():
        print("redis", kind, each)


if __name__ == "__main__":
    main()

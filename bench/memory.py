#!/usr/bin/env python3
"""Bytes a member of one key that `./zqueue pipe` takes, without an index of the key and with one, and redis-server, where
it is there: members of 15 bytes, each added once. What counts is the resident memory of the process with the members less
that of the process before them. The index is made by one reading of a member's place after the members were added.

Usage: bench/memory.py [MEMBERS ..]. The default is 100000 and 1000000.
"""
import pathlib
import re
import shutil
import subprocess
import sys
import tempfile
import threading

import pipe
import served
import streams

ROOT = pathlib.Path(__file__).resolve().parent.parent
BATCH = 10000


def resident(pid):
    """The resident memory of a process, in bytes."""
    text = pathlib.Path(f"/proc/{pid}/status").read_text()
    return int(re.search(r"VmRSS:\s*(\d+) kB", text).group(1)) * 1024


def requests(count):
    """ZADDs of that many members, in batches, each batch with the number of its replies' bytes."""
    for begin in range(0, count, BATCH):
        members = range(begin, min(begin + BATCH, count))
        adds = b"".join(streams.request(b"ZADD", b"board", b"%d" % (m * 7919 % 1000003), b"member:%08d" % m) for m in members)
        yield adds, len(members) * len(b":1\r\n")


def of_zqueue(count):
    """Bytes that the members take in `./zqueue pipe`, without an index and with one."""
    program = ROOT / "crates" / "zqueue" / "out" / "zqueue"
    with subprocess.Popen([program, "pipe"], stdin=subprocess.PIPE, stdout=subprocess.PIPE, env=served.ENVIRONMENT) as process:
        def call(data, size):
            sender = threading.Thread(target=lambda: (process.stdin.write(data), process.stdin.flush()))
            sender.start()
            process.stdout.read(size)
            sender.join()

        call(streams.request(b"PING"), len(b"+PONG\r\n"))
        before = resident(process.pid)
        for data, size in requests(count):
            call(data, size)
        after = resident(process.pid)
        # The first member that was added has the least score.
        call(streams.request(b"ZRANK", b"board", b"member:%08d" % 0), len(b":0\r\n"))
        indexed = resident(process.pid)
        process.stdin.close()
    return after - before, indexed - before


def of_redis(count, folder):
    """The same of redis-server."""
    redis = pipe.Redis(folder)
    try:
        redis.run(streams.request(b"PING"))
        before = resident(redis.server.pid)
        redis.run(b"".join(data for data, _ in requests(count)))
        return resident(redis.server.pid) - before
    finally:
        redis.stop()


def main():
    counts = [int(word) for word in sys.argv[1:]] or [100000, 1000000]
    pipe.run_program([ROOT / "zqueue", "pipe"], b"")
    for count in counts:
        plain, indexed = (taken / count for taken in of_zqueue(count))
        line = f"{count} members of 15 bytes: zqueue {plain:.0f} bytes a member, {indexed:.0f} with an index"
        if shutil.which("redis-server"):
            with tempfile.TemporaryDirectory() as folder:
                line += f", redis-server {of_redis(count, folder) / count:.0f}"
        print(line, flush=True)
    return 0


if __name__ == "__main__":
    sys.exit(main())

#!/usr/bin/env python3
"""Feeds a megabyte of good and bad requests to `./zqueue pipe` whole and cut anywhere, and compares what is written.

Usage: bench/cuts.py [SEED ..]. Status 1 where a cut changes a byte or the status.
"""
import random
import subprocess
import sys
import threading

from pipe import ROOT
import streams

SIZES = [1, 2, 3, 7, 100, 5000, 70000]


def fed(data, pieces):
    """What the program writes, and its status, when the data comes in these pieces."""
    program = subprocess.Popen([ROOT / "zqueue", "pipe"], stdin=subprocess.PIPE, stdout=subprocess.PIPE)
    written = []
    reader = threading.Thread(target=lambda: written.append(program.stdout.read()))
    reader.start()
    at = 0
    for size in pieces:
        if at >= len(data):
            break
        program.stdin.write(data[at:at + size])
        program.stdin.flush()
        at += size
    program.stdin.close()
    reader.join()
    return written[0], program.wait()


def cut(seed):
    """Sizes of pieces without end."""
    draw = random.Random(seed)
    while True:
        yield draw.choice(SIZES)


def main():
    data = streams.stream("mixed", 7, 30000, 500)[1][:1 << 20]
    whole = fed(data, iter([len(data)]))
    seeds = [int(word) for word in sys.argv[1:]] or [1, 2, 3]
    differ = [seed for seed in seeds if fed(data, cut(seed)) != whole]
    for seed in differ:
        print(f"cuts: seed {seed}: the replies differ", file=sys.stderr)
    print(f"{len(seeds) - len(differ)} of {len(seeds)} cuts answer the same {len(whole[0])} bytes, status {whole[1]}")
    return 1 if differ else 0


if __name__ == "__main__":
    sys.exit(main())

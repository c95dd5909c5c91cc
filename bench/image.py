#!/usr/bin/env python3
"""Times `zq_bench image`, and prints medians of several rounds and their ratios.

    merge   a merge of two shards of 100,000 members, half of them shared, beside a copy of one
    book    a book's makes over 100,000 members beside a shard's, and the memory that its tail takes
    frame   the state of 1,000,000 members written and read, beside memcpy and redis-server's DUMP and RESTORE, where
            that is there

Numbers are of one run on one machine: only the ratios are worth a comparison.

Usage: bench/image.py [--members N] [--rounds N] [merge|book|frame ..]. The default is all three.
"""
import argparse
import collections
import pathlib
import re
import shutil
import statistics
import subprocess
import sys

import dump

ROOT = pathlib.Path(__file__).resolve().parent.parent
CRATE = ROOT / "crates" / "zq_bench"
PROGRAM = CRATE / "out" / "zq_bench"
MAKES = 1000000
# A site's tail is cut to its newer half when it has so many records.
LONG = 4096


def build():
    """Proves and builds the program."""
    rt = subprocess.run([ROOT / "tools" / "find-rt"], stdout=subprocess.PIPE, check=True, text=True).stdout.strip()
    command = [rt, "run", "--", "image", "merge", "2"]
    done = subprocess.run(command, cwd=CRATE, stdin=subprocess.DEVNULL, capture_output=True, text=True)
    if done.returncode:
        sys.exit(done.stdout + done.stderr)


def run(*words):
    """What the program says, and the nanoseconds of each kind of step."""
    command = [PROGRAM, "image", *map(str, words)]
    done = subprocess.run(command, stdin=subprocess.DEVNULL, capture_output=True, check=True, text=True)
    return done.stdout.strip(), {kind: int(time) for kind, time in map(str.split, done.stderr.splitlines())}


class Medians(collections.defaultdict):
    """The times of each kind of step of several rounds, of which a median is read."""

    def __init__(self):
        super().__init__(list)

    def add(self, times, name=""):
        for kind, time in times.items():
            self[name + kind].append(time)

    def of(self, kind):
        return statistics.median(self[kind])


def resident(*words):
    """The bytes that the program keeps in memory while it waits for the end of its input."""
    command = [PROGRAM, "image", *map(str, words)]
    with subprocess.Popen(command, stdin=subprocess.PIPE, stdout=subprocess.PIPE, stderr=subprocess.DEVNULL) as process:
        process.stdout.readline()
        text = pathlib.Path(f"/proc/{process.pid}/status").read_text()
        process.stdin.close()
    return int(re.search(r"VmRSS:\s*(\d+) kB", text).group(1)) * 1024


def merge(members, rounds):
    """Times a merge beside a copy."""
    times = Medians()
    for _ in range(rounds):
        said, took = run("merge", members)
        times.add(took)
    copied, merged = times.of("copy"), times.of("merge")
    print(f"merge of two shards of {members} members: {merged / 1e6:.1f} ms, copy of one {copied / 1e6:.1f} ms, "
          f"ratio {merged / copied:.2f}, {said} after it")


def book(members, rounds):
    """Times makes of a shard and of books, and looks at their memory."""
    tails = {"shard": ["shard", members, MAKES], "book without a tail": ["book", members, MAKES, 1],
             f"book, tail below {LONG}": ["book", members, MAKES, LONG]}
    times = Medians()
    for _ in range(rounds):
        for name, words in tails.items():
            times.add(run(*words)[1], name)
    for name in tails:
        adds, changes = times.of(name + "adds"), times.of(name + "changes")
        print(f"{name}: {adds / members:.0f} ns a make that adds, {changes / MAKES:.0f} over {members} members; ratios "
              f"{adds / times.of('shardadds'):.2f}, {changes / times.of('shardchanges'):.2f}")
    for makes in (MAKES // 10, MAKES):
        state = resident("shard", members, makes)
        for long in (1, LONG, 16 * LONG):
            more = resident("book", members, makes, long) - state
            each = f", {more / long:.0f} a record" if long > 1 else ""
            print(f"after {makes} makes over them, beside the state of {state} bytes: {more} with a tail below "
                  f"{long}{each}")


def frame(members, rounds):
    """Times the frame of a state, beside memcpy and redis-server."""
    times = Medians()
    for _ in range(rounds):
        said, took = run("frame", members)
        times.add(took)
    size = int(said.split()[2])

    def line(name, kind, size):
        took = times.of(kind)
        print(f"{name}: {size * 1e3 / took:.1f} MB and {members * 1e3 / took:.3f} million members a second")

    print(f"{members} members, {size} bytes")
    line("memcpy", "copy", size)
    for name, kind in [("write", "write"), ("read", "read"), ("write of what was read", "rewrite")]:
        line(name, kind, size)
    if shutil.which("redis-server"):
        with dump.Server() as link:
            for _ in range(rounds):
                took, theirs = dump.one_round(link, members)
                times.add(took)
        print(f"redis-server: {theirs} bytes")
        for name, kind, ours in [("DUMP", "dump", "write"), ("RESTORE", "restore", "read"),
                                 ("DUMP of what was restored", "redump", "rewrite")]:
            line(name, kind, theirs)
            line(name + ", at the other end", kind + "-wall", theirs)
            rate = size / times.of(ours) / (theirs / times.of(kind))
            each = times.of(kind) / times.of(ours)
            print(f"    {ours} is at {rate:.2f} of its bytes a second, and {each:.2f} of its members")


def main():
    parser = argparse.ArgumentParser()
    parser.add_argument("--members", type=int)
    parser.add_argument("--rounds", type=int, default=5)
    parser.add_argument("what", nargs="*")
    options = parser.parse_args()
    build()
    for what in options.what or ["merge", "book", "frame"]:
        {"merge": merge, "book": book, "frame": frame}[what](
            options.members or (1000000 if what == "frame" else 100000), options.rounds)


if __name__ == "__main__":
    main()

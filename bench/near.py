#!/usr/bin/env python3
"""How far from the first member those are that ZPOPNEAR takes, and how many pops it makes a second beside ZPOPMIN, by
`zq_bench pops`. A key has N members, spread over the heaps of a site, and half of them are popped.

A pop's rank error is the number of members with a lesser score that are there when it is made; pops follow one another by
the stamps of their calls. Beside it stands what Rihani, Sanders and Dementiev (2015) expect of the first pop of two drawn
queues of n, over which the members lie by chance: the least member is in one of the two with probability 2/n, else the next
one, so n/2 - 1 in the mean. Later pops have a greater error, since heaps that were drawn seldom keep lesser members.

Rates swing; the errors of one pass do not. Usage: bench/near.py [--members N] [--rounds N] [--program FILE]
Status 1 where a pop of ZPOPMIN is not the first member, or the first test of the reckoning fails.
"""
import argparse
import pathlib
import statistics
import subprocess
import sys

ROOT = pathlib.Path(__file__).resolve().parent.parent
CRATE = ROOT / "crates" / "zq_bench"


def build():
    """Proves and builds the program, and gives its path."""
    rt = subprocess.run([ROOT / "tools" / "find-rt"], stdout=subprocess.PIPE, check=True, text=True).stdout.strip()
    command = [rt, "run", "--", "pops", "ZPOPMIN", "2", "2", "1"]
    done = subprocess.run(command, cwd=CRATE, stdin=subprocess.DEVNULL, capture_output=True, text=True)
    if done.returncode:
        sys.exit(done.stdout + done.stderr)
    return CRATE / "out" / "zq_bench"


def errors(scores, members):
    """For each score, in the order in which they are removed, how many lesser ones are there yet. The scores at first are
    0, 1, 2 and so on."""
    # a binary indexed tree of what was removed
    removed = [0] * (members + 1)
    found = []
    for score in scores:
        lesser, at = score, score
        while at > 0:
            lesser -= removed[at]
            at -= at & -at
        found.append(lesser)
        at = score + 1
        while at <= members:
            removed[at] += 1
            at += at & -at
    return found


def run(program, pop, members, heaps, passes):
    """The pops a second, and the rank error of each pop."""
    command = [program, "pops", pop, *map(str, (members, heaps, passes))]
    done = subprocess.run(command, stdin=subprocess.DEVNULL, capture_output=True, check=True, text=True)
    first, *lines = done.stderr.splitlines()
    pops = sorted(tuple(map(int, line.split())) for line in lines)
    if len(pops) != members // 2 // passes * passes:
        sys.exit(f"near.py: {len(pops)} pops by {passes} passes of {members} members")
    return int(first.split()[1]), errors([score for _, score in pops], members)


def tell_errors(program, members):
    print(f"{members} members, half of them popped: rank errors of ZPOPNEAR")
    print("heaps  passes  expected at first   mean  median   p99    most")
    for heaps in (2, 4, 8, 16):
        for passes in (1, 4):
            found = sorted(run(program, "ZPOPNEAR", members, heaps, passes)[1])
            mean, median = statistics.fmean(found), statistics.median(found)
            p99 = found[len(found) * 99 // 100]
            print(f"{heaps:5} {passes:7} {heaps / 2 - 1:18.1f} {mean:6.2f} {median:7.0f} {p99:5} {found[-1]:7}", flush=True)


def tell_rates(program, members, rounds):
    print(f"pops a second, medians of {rounds}, and of ZPOPNEAR's to ZPOPMIN's")
    print("heaps  passes    ZPOPMIN   ZPOPNEAR  ratio")
    for heaps in (2, 4, 8, 16):
        for passes in (1, 2, 4):
            rates = {"ZPOPMIN": [], "ZPOPNEAR": []}
            for _ in range(rounds):
                for pop, found in rates.items():
                    rate, ranks = run(program, pop, members, heaps, passes)
                    found.append(rate)
                    if pop == "ZPOPMIN" and any(ranks):
                        sys.exit(f"near.py: a ZPOPMIN of {passes} passes over {heaps} heaps was not of the first member")
            least, near = (statistics.median(it) for it in rates.values())
            print(f"{heaps:5} {passes:7} {least:10.0f} {near:10.0f} {near / least:6.2f}", flush=True)


def main():
    parser = argparse.ArgumentParser(description=__doc__, formatter_class=argparse.RawDescriptionHelpFormatter)
    parser.add_argument("--members", type=int, default=100000)
    parser.add_argument("--rounds", type=int, default=5)
    parser.add_argument("--program", type=pathlib.Path)
    words = parser.parse_args()
    if errors([2, 0, 3, 1], 4) != [2, 0, 1, 0]:
        sys.exit("near.py: rank errors are reckoned wrong")
    program = words.program or build()
    tell_errors(program, words.members)
    tell_rates(program, words.members, words.rounds)


if __name__ == "__main__":
    main()

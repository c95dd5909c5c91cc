#!/usr/bin/env python3
"""Plays drawn worlds of sites that push to each other, by `mesh_trials`, on all processors, and prints the seed of each
world that goes wrong, and what is wrong with it, and then the sums of what was counted. The status is 1 where a world went
wrong. A world is played alone by `mesh_trials 1 SEED`. With --record the sums go to bench/results/meshes.csv, of this form of
the code, as "proved program".

Usage: bench/meshes.py [--worlds N] [--first SEED] [--jobs N] [--record FORM] [--program PATH]
       bench/meshes.py --self-test
"""
import argparse
import multiprocessing
import pathlib
import subprocess
import sys

import meshes_tried
import recording
import served

# How many worlds a process plays.
SHARE = 1000
# The line that has the greatest number of all worlds, where the others have sums.
GREATEST = "the most beats"
# The line that says how many worlds went wrong.
WRONG = "worlds that went wrong"


def play(share):
    """What the program writes of a share of the worlds."""
    program, first, worlds = share
    command = [program, str(worlds), str(first)]
    done = subprocess.run(command, stdin=subprocess.DEVNULL, capture_output=True, text=True)
    if done.returncode not in (0, 1) or WRONG not in done.stdout:
        raise RuntimeError(f"{command}: status {done.returncode}\n{done.stdout}{done.stderr}")
    return done.stdout.splitlines()


def play_all(program, first, worlds, jobs, tell):
    """The sums of what was counted in so many worlds. Each line of one that went wrong is told."""
    end = first + worlds
    shares = [(program, begin, min(SHARE, end - begin)) for begin in range(first, end, SHARE)]
    sums = {}
    with multiprocessing.Pool(jobs) as pool:
        for lines in pool.imap_unordered(play, shares):
            for line in lines:
                if line.startswith("seed "):
                    tell(line)
                    continue
                name, number = line.rsplit(": ", 1)
                if name == GREATEST:
                    sums[name] = max(sums.get(name, 0), int(number))
                else:
                    sums[name] = sums.get(name, 0) + int(number)
    return sums


def figures(first, worlds, sums):
    """The sums of so many worlds as figures."""
    units = {GREATEST: "seconds that are played"}
    return [(f"{worlds:,} worlds from {first} on", name, number, units.get(name, ""), "") for name, number in sums.items()]


def status(sums, worlds):
    """0 where so many worlds were played, and none of them went wrong."""
    return 0 if sums.get(WRONG) == 0 and sums.get("worlds") == worlds else 1


def main():
    reader = argparse.ArgumentParser(description=__doc__, formatter_class=argparse.RawDescriptionHelpFormatter)
    reader.add_argument("--worlds", type=int, default=100_000)
    reader.add_argument("--first", type=int, default=1_000_000)
    reader.add_argument("--jobs", type=int, default=multiprocessing.cpu_count())
    reader.add_argument("--record", metavar="FORM")
    reader.add_argument("--program", type=pathlib.Path)
    reader.add_argument("--self-test", action="store_true")
    given = reader.parse_args()
    if given.self_test:
        found = meshes_tried.faults()
        for line in found:
            print(f"meshes: {line}", file=sys.stderr)
        return 1 if found else 0
    program = given.program.resolve() if given.program else served.built_crate("mesh_trials")
    sums = play_all(program, given.first, given.worlds, given.jobs, lambda line: print(line, flush=True))
    for name, number in sums.items():
        print(f"{name}: {number}")
    if given.record:
        recording.record("meshes.csv", given.record, figures(given.first, given.worlds, sums))
    return status(sums, given.worlds)


if __name__ == "__main__":
    sys.exit(main())

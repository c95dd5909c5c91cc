#!/usr/bin/env python3
"""Counts the instructions that counting an answer takes: a small program of the crate zq_metrics does what a worker does for each
answer and at the end of each turn, and valgrind counts its instructions. Needs valgrind and the toolchain, which proves the
program first, in a minute or more.

Usage: bench/counting.py [--rounds N] [NAME ..]
The names are those that a client writes; without any it takes some in great, in small and in mixed letters. A figure is the
instructions of N answers that are counted less those of as many that are not, since there are no counters, for each answer. So
the call that counts is in it, and the step of the loop around it.
"""
import argparse
import pathlib
import re
import shutil
import subprocess
import sys
import tempfile

ROOT = pathlib.Path(__file__).resolve().parent.parent
NAMES = ("ZADD", "ZPOPMIN", "ZSCORE", "ZREVRANK", "zadd", "zpopmin", "Zadd")
PROGRAM = """//! Counts so many answers, and ends so many turns.
#![tactic(auto)]

use std::alloc::{{AllocError, Global}};
use zq_metrics::{{Command, Counters, WorkerCounters, command_of}};

const NAME: &[u8] = b"{name}";

const ANSWERS: u64 = {answers};

const TURNS: u64 = {turns};

const COUNTS: bool = {counts};

#[inline(never)]
fn count(own: Option<&WorkerCounters>, words: &[Vec<u8>], is_error: bool) {{
    if let Some(own) = own {{
        own.count(named(words), is_error);
    }}
}}

fn named(words: &[Vec<u8>]) -> Command {{
    match words {{
        [name, ..] => command_of(name),
        [] => Command::Other,
    }}
}}

#[inline(never)]
fn end_turn(own: &WorkerCounters, nanoseconds: u64) {{
    let requests = own.untimed();
    if requests > 0 {{
        own.time(requests, nanoseconds);
    }}
}}

fn words_of(alloc: Global) -> Result<Vec<Vec<u8>>, AllocError> {{
    let mut words = Vec::new(alloc);
    words.push(Vec::from_slice(alloc, NAME)?)?;
    Ok(words)
}}

fn count_all(own: Option<&WorkerCounters>, words: &[Vec<u8>]) {{
    for _ in 0..ANSWERS {{
        count(own, words, false);
    }}
}}

fn end_all(own: &WorkerCounters) {{
    for _ in 0..TURNS {{
        own.count(Command::Ping, false);
        end_turn(own, 40_000);
    }}
}}

fn main(rt: HostRuntime) {{
    let alloc = rt.alloc();
    if let (Ok(counters), Ok(words)) = (Counters::new(alloc, 1), words_of(alloc)) {{
        let own = if COUNTS {{ counters.give() }} else {{ None }};
        count_all(own, &words);
        if let Some(own) = own {{
            end_all(own);
            let _ = println!(rt; "{{}}", own.untimed());
        }}
    }}
}}
"""


def instructions(folder, rt, name, answers, turns, counts):
    """The instructions of a program that makes so many answers of this name, and ends so many turns, and counts them or not."""
    crate = folder / "crates" / "ticks"
    (crate / "src" / "main.rt").write_text(PROGRAM.format(name=name, answers=answers, turns=turns, counts=str(counts).lower()))
    made = subprocess.run([rt, "run"], cwd=crate, capture_output=True, text=True, check=False)
    if made.returncode:
        sys.exit(f"counting.py: the program was not proved or built:\n{made.stdout}{made.stderr}")
    command = ["valgrind", "--tool=callgrind", "--callgrind-out-file=/dev/null", crate / "out" / "ticks"]
    said = subprocess.run(command, capture_output=True, text=True, check=True).stderr
    return int(re.search(r"refs:\s+([\d,]+)", said)[1].replace(",", ""))


def main():
    parser = argparse.ArgumentParser(description=__doc__, formatter_class=argparse.RawDescriptionHelpFormatter)
    parser.add_argument("--rounds", type=int, default=100_000)
    parser.add_argument("names", nargs="*", metavar="NAME")
    options = parser.parse_args()
    if shutil.which("valgrind") is None:
        sys.exit("counting.py: there is no valgrind")
    rt = subprocess.run([ROOT / "tools" / "find-rt"], capture_output=True, text=True, check=True).stdout.strip()
    with tempfile.TemporaryDirectory() as room:
        folder = pathlib.Path(room)
        shutil.copytree(ROOT / "crates" / "zq_metrics", folder / "crates" / "zq_metrics")
        (folder / "crates" / "ticks" / "src").mkdir(parents=True)
        (folder / "crates.txt").write_text("zq_metrics:\nticks: zq_metrics\n")
        for name in options.names or NAMES:
            spent = instructions(folder, rt, name, options.rounds, 0, True) - instructions(folder, rt, name, options.rounds, 0, False)
            print(f"{name}: {spent / options.rounds:.1f} instructions an answer")
        spent = instructions(folder, rt, "PING", 0, options.rounds, True) - instructions(folder, rt, "PING", 0, options.rounds, False)
        print(f"a turn of one answer: {spent / options.rounds:.1f} instructions, its counter with them, and a reading of the clock")


if __name__ == "__main__":
    main()

#!/usr/bin/env python3
"""Feeds drawn and mutated requests to `./zqueue pipe` and compares what is written, byte for byte, with a plain model
(plain_model.py). It shows nothing that is not tried: the proofs are what carries the promises.

    words   long streams in which words of requests are changed: numbers, flags and names that are none, words left out
    bytes   short streams of which bytes are changed, left out, put in or cut off

Usage: bench/fuzz.py [--seed N] [--requests N] [--sessions N]
       bench/fuzz.py --serve [--seed N] [--sessions N] [--program PATH]
       bench/fuzz.py --texts N [--seed N] [--program PATH]
       bench/fuzz.py --arguments N [--seed N] [--program PATH]
It prints how much was tried. Where a stream is answered otherwise than by the model it is kept in fuzz-SEED-PART.bin, and
the status is 1. With --serve the short streams go to `zqueue serve`, from 200 clients of all manners at once (crowd.py). With
--texts so many drawn texts are read as settings by `zq_hostile texts`, of which the program is; with --arguments so many drawn
command lines are given to the program. Both are judged by a reading of their own (texts.py), and what is read otherwise is
printed.
"""
import argparse
import multiprocessing
import pathlib
import random
import subprocess
import sys
import time

import crowd
import plain_model
import served
import streams
import texts

ROOT = pathlib.Path(__file__).resolve().parent.parent
KEYS = [b"q", b"board", b"", b"a\r\nb"]
NUMBERS = [b"0", b"1", b"-1", b"+7", b"007", b"3.0", b"-2.000", b"1.5", b"", b"+", b".0", b"1.", b"nan", b"inf", b"-INF", b"(3",
           b"((3", b"(-inf", b"9007199254740992", b"9007199254740993", b"-9007199254740992", b"9223372036854775807",
           b"9223372036854775808", b"-9223372036854775808", b"1e3", b" 1", b"99999999999999999999999"]
WORDS = [b"NX", b"xx", b"Gt", b"LT", b"ch", b"INCR", b"BYSCORE", b"rev", b"LIMIT", b"withscores", b"WITHSCORE", b"*", b"$1"]
# How many requests a long stream has.
STREAM = 20000
# How many of the texts or command lines that are read otherwise are shown.
MOST_SHOWN = 20


def drawn_member(draw):
    return b"m%d" % draw.randrange(60) if draw.randrange(20) else bytes(draw.randrange(256) for _ in range(draw.randrange(40)))


def drawn_score(draw):
    return b"%d" % draw.randrange(-20, 20) if draw.randrange(8) else draw.choice(NUMBERS)


def drawn_bound(draw):
    return draw.choice([b"", b"("]) + drawn_score(draw) if draw.randrange(4) else draw.choice([b"-inf", b"+inf", b"inf"])


def drawn_range(draw):
    if draw.randrange(2):
        words = [drawn_bound(draw), drawn_bound(draw), b"BYSCORE"]
        if draw.randrange(2):
            words += [b"LIMIT", drawn_score(draw), drawn_score(draw)]
    else:
        words = [drawn_score(draw), drawn_score(draw)]
    return words + [word for word in (b"REV", b"WITHSCORES") if draw.randrange(2)]


def drawn_flags(draw):
    return [word for word in (b"NX", b"XX", b"GT", b"LT", b"CH", b"INCR") if draw.randrange(7) == 0]


def drawn_pairs(draw):
    return [word for _ in range(1 + draw.randrange(3)) for word in (drawn_score(draw), drawn_member(draw))]


def drawn_words(draw, keys=KEYS):
    """The words of a request, most of them of one that is served."""
    key = draw.choice(keys)
    name = draw.choice([b"ZADD"] * 8 + [b"ZINCRBY", b"ZREM", b"ZSCORE", b"ZCARD", b"ZCOUNT", b"ZRANK", b"ZREVRANK", b"ZRANGE", b"ZRANGE",
                                        b"ZPOPMIN", b"ZPOPNEAR", b"DEL", b"PING"])
    rest = {
        b"ZADD": lambda: [key, *drawn_flags(draw), *drawn_pairs(draw)],
        b"ZINCRBY": lambda: [key, drawn_score(draw), drawn_member(draw)],
        b"ZREM": lambda: [key, *(drawn_member(draw) for _ in range(1 + draw.randrange(3)))],
        b"ZSCORE": lambda: [key, drawn_member(draw)],
        b"ZCARD": lambda: [key],
        b"ZCOUNT": lambda: [key, drawn_bound(draw), drawn_bound(draw)],
        b"ZRANK": lambda: [key, drawn_member(draw)],
        b"ZREVRANK": lambda: [key, drawn_member(draw)],
        b"ZRANGE": lambda: [key, *drawn_range(draw)],
        b"ZPOPMIN": lambda: [key] + [drawn_score(draw)] * draw.randrange(2),
        b"ZPOPNEAR": lambda: [key],
        b"DEL": lambda: [draw.choice(keys) for _ in range(1 + draw.randrange(2))] if draw.randrange(8) == 0 else [b"none"],
        b"PING": lambda: [drawn_member(draw)] * draw.randrange(3),
    }[name]()
    return [draw.choice([name, name.lower()]), *rest]


def mutated_words(draw, words):
    """The same words, of which sometimes one is changed, left out, doubled or put in."""
    if draw.randrange(6):
        return words
    at = draw.randrange(len(words))
    kind = draw.randrange(4)
    if kind == 0:
        return words[:at] + [draw.choice(NUMBERS + WORDS)] + words[at + 1:]
    if kind == 1:
        return words[:at] + words[at + 1:]
    if kind == 2:
        return words[:at] + [words[at]] + words[at:]
    return words[:at] + [draw.choice(NUMBERS + WORDS)] + words[at:]


def mutated_bytes(draw, data):
    """The same bytes with a few of them changed, left out, put in, or all cut off from one on."""
    data = bytearray(data)
    for _ in range(draw.randrange(4)):
        if not data:
            break
        at = draw.randrange(len(data))
        kind = draw.randrange(5)
        if kind == 0:
            data[at] = draw.randrange(256)
        elif kind == 1:
            del data[at]
        elif kind == 2:
            data.insert(at, draw.choice(b"*$\r\n0123456789-+"))
        elif kind == 3:
            data[at] ^= 1 << draw.randrange(8)
        else:
            del data[at:]
    return bytes(data)


def stream_of(draw, requests):
    return b"".join(streams.request(*mutated_words(draw, drawn_words(draw))) for _ in range(requests))


def answered(data):
    """What the program writes for this input, and its status."""
    done = subprocess.run([ROOT / "zqueue", "pipe"], input=data, stdout=subprocess.PIPE)
    return done.stdout, done.returncode


def tried(part):
    """How many bytes one part is, and where they are kept if the program answers otherwise than the model."""
    seed, number, requests = part
    draw = random.Random(f"{seed} {number}")
    data = stream_of(draw, requests) if requests else mutated_bytes(draw, stream_of(draw, 1 + draw.randrange(20)))
    if answered(data) == plain_model.served(data):
        return len(data), None
    path = ROOT / f"fuzz-{seed}-{number}.bin"
    path.write_bytes(data)
    return len(data), path.name


def own_words(draw, prefix):
    """The words of a request of which every key begins so, with ZPOPMIN for ZPOPNEAR, whose draws a model does not know."""
    words = drawn_words(draw, [prefix + key for key in KEYS])
    for each in (mutated_words(draw, words), words):
        name = each[0].upper() if each else b"ZPOPNEAR"
        keys = each[1:] if name == b"DEL" else each[1:2]
        if name != b"ZPOPNEAR" and (name == b"PING" or all(key.startswith(prefix) for key in keys)):
            return each
    return [b"ZPOPMIN", prefix]


def own_stream(draw, prefix):
    """A short stream with keys of its own, of which bytes are mutated."""
    requests = (streams.request(*own_words(draw, prefix)) for _ in range(1 + draw.randrange(20)))
    return mutated_bytes(draw, b"".join(requests))


def served_to_a_crowd(asked):
    """The status of a run of crowd.py, whose lines it prints."""
    program = asked.program.resolve() if asked.program else served.built()
    told, kept = crowd.run(program, asked.seed, asked.sessions, own_words, own_stream)
    for name, data in kept:
        path = ROOT / f"fuzz-{asked.seed}-{name}.bin"
        path.write_bytes(data)
        print(f"fuzz: otherwise than the model: {path.name}", file=sys.stderr)
    print(f"{told}: {len(kept)} answered otherwise")
    return 1 if kept else 0


def printed(what, wrong):
    """The status of a run of so much, of which this was read otherwise, with what was owed and what was told."""
    for drawn, owed, told in wrong[:MOST_SHOWN]:
        print(f"fuzz: {drawn!r}: {told!r} where {owed!r} is owed", file=sys.stderr)
    print(f"{what}: {len(wrong)} read otherwise")
    return 1 if wrong else 0


def texts_read(asked):
    """The status of a run of so many texts of settings."""
    started = time.monotonic()
    draw = random.Random(f"texts {asked.seed}")
    drawn = [texts.drawn_settings(draw) for _ in range(asked.texts)]
    program = asked.program.resolve() if asked.program else served.built_crate("zq_hostile")
    done = subprocess.run([program, "texts"], input="".join(f"{data.hex()}\n" for data in drawn).encode(), stdout=subprocess.PIPE, check=True)
    told = done.stdout.decode().splitlines()
    owed = [texts.settings_owed(data) for data in drawn]
    wrong = [each for each in zip(drawn, owed, told) if not texts.is_settings_told(*each[1:])]
    if len(told) != len(drawn):
        wrong.append(("all texts", f"{len(drawn)} lines", f"{len(told)} lines"))
    taken = sum(line.startswith("settings ") for line in told)
    return printed(f"{len(drawn)} texts, {sum(map(len, drawn))} bytes, {taken} of them settings, in {time.monotonic() - started:.0f} s", wrong)


def arguments_read(asked):
    """The status of a run of so many command lines."""
    started = time.monotonic()
    draw = random.Random(f"arguments {asked.seed}")
    program = asked.program.resolve() if asked.program else served.built()
    drawn = [words for words in (texts.drawn_words(draw) for _ in range(asked.arguments)) if texts.is_short(words)]
    wrong, taken = [], 0
    for words in drawn:
        done = subprocess.run([program, *words], stdin=subprocess.DEVNULL, stdout=subprocess.PIPE, stderr=subprocess.DEVNULL)
        statuses, begins = texts.words_owed(words)
        taken += 3 not in statuses
        if done.returncode not in statuses or not done.stdout.startswith(begins):
            wrong.append((words, (statuses, begins), (done.returncode, done.stdout[:80])))
    return printed(f"{len(drawn)} command lines, {taken} of them commands, in {time.monotonic() - started:.0f} s", wrong)


def main():
    words = argparse.ArgumentParser(description=__doc__, formatter_class=argparse.RawDescriptionHelpFormatter)
    words.add_argument("--seed", type=int, default=1)
    words.add_argument("--requests", type=int, default=1000000, help="in long streams (1,000,000)")
    words.add_argument("--sessions", type=int, default=2000, help="short streams (2,000)")
    words.add_argument("--serve", action="store_true")
    words.add_argument("--texts", type=int, help="so many texts of settings")
    words.add_argument("--arguments", type=int, help="so many command lines")
    words.add_argument("--program", type=pathlib.Path, help="in place of the one that is built here")
    asked = words.parse_args()
    if asked.texts:
        return texts_read(asked)
    if asked.arguments:
        return arguments_read(asked)
    if asked.serve:
        return served_to_a_crowd(asked)
    started = time.monotonic()
    longs = [min(STREAM, asked.requests - first) for first in range(0, asked.requests, STREAM)]
    parts = [(asked.seed, number, requests) for number, requests in enumerate(longs + [0] * asked.sessions)]
    with multiprocessing.Pool() as pool:
        ended = pool.map(tried, parts, chunksize=1)
    kept = [name for _, name in ended if name]
    for name in kept:
        print(f"fuzz: otherwise than the model: {name}", file=sys.stderr)
    print(f"{asked.requests} requests in long streams and {asked.sessions} short ones, {sum(size for size, _ in ended)} bytes, in "
          f"{time.monotonic() - started:.0f} s: {len(kept)} answered otherwise")
    return 1 if kept else 0


if __name__ == "__main__":
    sys.exit(main())

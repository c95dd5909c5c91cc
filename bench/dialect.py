#!/usr/bin/env python3
"""Asks `zqueue site` and redis-server the same drawn requests, and compares their replies byte for byte: of an error the first word.
Four connections ask in turn, each one to some requests at once, of few keys and members: the commands that both have, older names of
them, numbers in other spellings, the further requests on keys, and transactions, while other connections change what is watched.
Nothing is drawn for which the two differ on purpose (docs/COMMANDS.md): scores are whole, no command has more words than it takes, no
UNWATCH waits for EXEC, and in a key that may be watched no member is put at the score that it has.

Usage: bench/dialect.py [--seed N] [--requests N] [--program PATH]
       bench/dialect.py --self-test
Each 200 requests begin with fresh keys and connections. It prints how many transactions were run, not run as what was watched had
changed, and refused. Where requests are answered otherwise it prints their seed, both replies, and the requests that lead there, as
tools/dialect.tsv writes them and without those that can be left out; status 1. Needs redis-server, and takes half a minute at most.
With --self-test both servers are played.
"""
import argparse
import collections
import contextlib
import io
import pathlib
import random
import shutil
import socket
import sys
import tempfile
import time

import pipe
import served
import streams
from apart import Client
from members import Members

CONNECTIONS = 4
LENGTH = 200
# Keys that are watched, and others that never are.
WATCHED, FREE = [b"q", b"jobs", b"a\r\nb"], [b"free", b""]
MEMBERS = [b"a", b"b", b"B", b"ab", b"", b"-ERR\r\nx", b"\xff\x00", b"more-than-16-bytes"]
# Scores of what is watched lie so far apart that no increments of a sequence bring one to another, or to 0.
APART = 10000
STEP = 3
# How many of a hundred requests stay at the connection of the one before, whatever is drawn.
SAME = 50
# How many of a hundred requests, scores, places and ranges are such as both refuse.
WRONG = 3
# How many of the sequences that are answered otherwise are shown.
MOST_SHOWN = 5
# Texts that are no number to either server, and no place.
NO_SCORES, NO_PLACES = [b"x", b"nan", b"1x", b"--1"], [b"x", b"", b"1.0", b"9223372036854775808"]
FAR_PLACES = [b"9223372036854775807", b"-9223372036854775808"]
# What is sent in a transaction, and outside of one, with its share of a hundred; else it is a command. Without a name the client leaves.
INSIDE = {b"EXEC": 25, b"DISCARD": 2, b"MULTI": 1, b"WATCH": 1, b"RESET": 1}
OUTSIDE = {b"MULTI": 14, b"WATCH": 14, b"UNWATCH": 1, b"EXEC": 1, b"DISCARD": 1, b"RESET": 1, b"QUIT": 1, None: 1}
COMMANDS = [b"ZADD"] * 16 + [b"ZINCRBY"] * 3 + [b"ZRANGE"] * 4 + [
    b"ZREM", b"ZREM", b"ZSCORE", b"ZCARD", b"ZCOUNT", b"ZRANK", b"ZREVRANK", b"ZPOPMIN", b"DEL", b"PING", b"ZREVRANGE", b"ZRANGEBYSCORE",
    b"ZREVRANGEBYSCORE", b"UNLINK", b"ZMSCORE", b"EXISTS", b"TYPE", b"ZPOPMAX", b"ZREMRANGEBYSCORE", b"ZREMRANGEBYRANK", b"ECHO"]
# Those that are refused at once where they stand alone. (zqueue has an ECHO wait for EXEC, whatever its words are.)
LACKING = sorted({*COMMANDS} - {b"PING", b"ECHO"})


class Words:
    """The requests of a sequence, drawn one after the other."""

    def __init__(self, draw):
        self.draw, self.given = draw, collections.defaultdict(set)

    def chance(self, share):
        return self.draw.randrange(100) < share

    def key(self):
        return self.draw.choice(WATCHED if self.chance(75) else FREE)

    def member(self):
        return self.draw.choice(MEMBERS)

    def several(self, draw_one, most=3):
        return [draw_one() for _ in range(self.draw.randrange(1, most + 1))]

    def near(self, key):
        """A number among the scores of a key."""
        if key in FREE:
            return self.draw.randrange(-12, 13)
        return self.draw.randrange(-6, 7) * APART + APART // 2 + self.draw.randrange(-1, 2)

    def fresh(self, key, member):
        """A score for a member: where the key may be watched, one that it was not given before."""
        if key in FREE:
            return self.near(key)
        given = self.given[key, member]
        while (score := self.draw.randrange(-5 - len(given), 6 + len(given)) * APART + APART // 2) in given:
            pass
        given.add(score)
        return score

    def increment(self, key):
        step = self.draw.randrange(-STEP, STEP + 1)
        return step if step or key in FREE else STEP

    def spelled(self, number):
        """A text of a number."""
        if self.chance(WRONG):
            return self.draw.choice(NO_SCORES)
        form = self.draw.choice(["{}"] * 8 + ["{}.00", "{}e0", "{}0e-1", "{}.0E+0"])
        return form.format(number).encode()

    def bound(self, key):
        if self.chance(20):
            return self.draw.choice([b"-inf", b"+inf", b"inf", b"-INF", b"(-inf", b"(+inf", b"-9007199254740992", b"9007199254740992"])
        text = self.spelled(self.near(key)) if self.chance(80) else b"%d.5" % self.near(key)
        return b"(" + text if self.chance(30) else text

    def place(self):
        if self.chance(WRONG):
            return self.draw.choice(NO_PLACES)
        return self.draw.choice(FAR_PLACES) if self.chance(5) else b"%d" % self.draw.randrange(-7, 8)

    def count(self):
        return [b"%d" % self.draw.choice([0, 1, 1, 2, 3, 20, -1])] if self.chance(50) else []

    def zadd(self, key):
        flags = [flag for flag in (b"NX", b"XX", b"GT", b"LT", b"CH", b"INCR") if self.chance(10)]
        words = [key, *(flag.lower() if self.chance(30) else flag for flag in flags)]
        for member in self.several(self.member, 1 if b"INCR" in flags and self.chance(90) else 3):
            words += [self.spelled(self.increment(key) if b"INCR" in flags else self.fresh(key, member)), member]
        return words[:-1] if self.chance(WRONG) else words

    def options(self, *known):
        """Options behind a range, of these that both servers know."""
        found = [[word] for word in known if word != b"LIMIT" and self.chance(40)]
        found += [[b"LIMIT", self.place(), self.place()]] if b"LIMIT" in known and self.chance(40) else []
        found += [[b"FOO"]] if self.chance(WRONG) else []
        self.draw.shuffle(found)
        return [word for option in found for word in option]

    def zrange(self, key):
        if self.chance(50):
            return [key, self.bound(key), self.bound(key), b"BYSCORE", *self.options(b"REV", b"WITHSCORES", b"LIMIT")]
        return [key, self.place(), self.place(), *self.options(b"REV", b"WITHSCORES")]

    def by_bounds(self, key):
        return [key, self.bound(key), self.bound(key)]

    def by_member(self, key):
        return [key, self.member()]

    def command(self):
        """A command that both servers take, as a rule with words that it takes."""
        name, key = self.draw.choice(COMMANDS), self.key()
        rest = {
            b"ZADD": lambda: self.zadd(key),
            b"ZINCRBY": lambda: [key, self.spelled(self.increment(key)), self.member()],
            b"ZREM": lambda: [key, *self.several(self.member)],
            b"ZSCORE": lambda: self.by_member(key),
            b"ZCARD": lambda: [key],
            b"ZCOUNT": lambda: self.by_bounds(key),
            b"ZRANK": lambda: self.by_member(key),
            b"ZREVRANK": lambda: self.by_member(key),
            b"ZRANGE": lambda: self.zrange(key),
            b"ZPOPMIN": lambda: [key, *self.count()],
            b"DEL": lambda: self.several(self.key, 2),
            b"PING": lambda: self.several(self.member, 1) if self.chance(50) else [],
            b"ZREVRANGE": lambda: [key, self.place(), self.place(), *self.options(b"WITHSCORES")],
            b"ZRANGEBYSCORE": lambda: [*self.by_bounds(key), *self.options(b"WITHSCORES", b"LIMIT")],
            b"ZREVRANGEBYSCORE": lambda: [*self.by_bounds(key), *self.options(b"WITHSCORES", b"LIMIT")],
            b"UNLINK": lambda: self.several(self.key, 2),
            b"ZMSCORE": lambda: [key, *self.several(self.member)],
            b"EXISTS": lambda: self.several(self.key),
            b"TYPE": lambda: [key],
            b"ZPOPMAX": lambda: [key, *self.count()],
            b"ZREMRANGEBYSCORE": lambda: self.by_bounds(key),
            b"ZREMRANGEBYRANK": lambda: [key, self.place(), self.place()],
            b"ECHO": lambda: [self.member()],
        }[name]()
        return [name.lower() if self.chance(30) else name, *rest]

    def control(self, shares):
        """A request of these shares, or `None` where it is to be a command."""
        at = self.draw.randrange(100)
        for name, share in shares.items():
            at -= share
            if at < 0:
                keys = self.several(lambda: self.draw.choice(WATCHED), 2) if name == b"WATCH" else []
                return [name, *keys] if name else []
        return None

    def wrong(self):
        """A request whose name is none, or that lacks its words."""
        return [b"NOSUCH", self.member()] if self.chance(30) else [self.draw.choice(LACKING)]


def drawn(seed):
    """The requests of this seed, each with the number of its connection. One without words is that the client leaves."""
    draw = random.Random(seed)
    words, place, inside, requests = Words(draw), 0, [False] * CONNECTIONS, []
    for _ in range(LENGTH):
        place = place if words.chance(SAME) else draw.randrange(CONNECTIONS)
        request = words.control(INSIDE if inside[place] else OUTSIDE)
        if request is None:
            request = words.wrong() if words.chance(WRONG) else words.command()
        inside[place] = is_inside(inside[place], request)
        requests.append((place, request))
    return requests


def is_inside(was_inside, words):
    """Whether a connection is in a transaction behind this request."""
    return words == [b"MULTI"] or (was_inside and words not in ([b"EXEC"], [b"DISCARD"], [b"RESET"]) and not is_end(words))


def is_end(words):
    """Whether the connection ends by this request."""
    return words in ([b"QUIT"], [])


def runs(requests):
    """Requests that are sent at once, with the place of the first and their connection: all until another one sends, or it ends."""
    begin = 0
    for behind, (place, words) in enumerate(requests, 1):
        if behind == len(requests) or requests[behind][0] != place or is_end(words):
            yield begin, place, [words for _, words in requests[begin:behind]]
            begin = behind


def is_fair(requests):
    """Whether both servers have to answer alike: zqueue does not let an UNWATCH wait."""
    inside = [False] * CONNECTIONS
    for place, words in requests:
        if inside[place] and words == [b"UNWATCH"]:
            return False
        inside[place] = is_inside(inside[place], words)
    return True


class Asked(Client):
    """A connection of whose errors the first word counts. That it ends is a reply too."""

    def __init__(self, port):
        super().__init__(port)
        self.link.setsockopt(socket.IPPROTO_TCP, socket.TCP_NODELAY, 1)

    def send(self, requests):
        self.link.sendall(b"".join(streams.request(*words) for words in requests))

    def reply(self):
        reply = super().reply()
        return reply.split(b" ")[0] if reply.startswith(b"-") else reply

    def told(self):
        try:
            return self.reply()
        except (OSError, RuntimeError) as fault:
            return repr(fault).encode()


class Counting(Asked):
    """A connection to nobody: a request has the answer to its name and to how many of this name were sent."""

    def __init__(self, answer):
        self.answer, self.seen = answer, collections.Counter()

    def send(self, requests):
        self.replies = io.BytesIO(b"".join(self.next_answer(words[0].upper()) for words in requests))

    def next_answer(self, name):
        self.seen[name] += 1
        return self.answer(name, self.seen[name])

    def __exit__(self, *_):
        pass


class Both:
    """Two servers that are asked the same, with what opens a connection to each. `ends` is how often an EXEC had each kind of reply."""

    def __init__(self, *opens):
        self.opens, self.ends = opens, collections.Counter()

    def opened(self, held):
        return [held.enter_context(open_one()) for open_one in self.opens]

    def parting(self, requests):
        """The place of the first request that the two answer otherwise, with both replies, or `None`."""
        with contextlib.ExitStack() as held:
            pairs = [self.opened(held) for _ in range(CONNECTIONS)]
            for each in pairs[0]:
                each.send([[b"DEL", *WATCHED, *FREE]])
                each.told()
            for begin, place, run in runs(requests):
                for each in pairs[place]:
                    each.send(filter(None, run))
                for at, words in enumerate(run, begin):
                    one, other = [each.told() if words else b"" for each in pairs[place]]
                    if one != other:
                        return at, one, other
                    if words == [b"EXEC"]:
                        self.ends["not run" if one == b"*-1\r\n" else "run" if one[:1] == b"*" else "refused"] += 1
                if is_end(run[-1]):
                    for each in pairs[place]:
                        each.__exit__()
                    pairs[place] = self.opened(held)
        return None

    def shrunk(self, requests):
        """The requests up to the first one that is answered otherwise, without those that can be left out, and what `parting` says of
        them. Where they are answered alike as they are played again nothing is left out."""
        size, found = len(requests), None
        while size:
            at = 0
            while at < len(requests):
                fewer = requests[:at] + requests[at + size:]
                parting = self.parting(fewer) if is_fair(fewer) else None
                if parting:
                    requests, found = fewer[:parting[0] + 1], parting
                else:
                    at += size
            size //= 2
        return requests, found


def text_of(word):
    """A word as tools/dialect.tsv writes it."""
    return repr(word)[2:-1].replace(" ", "\\x20") or "\\e"


def line_of(place, words):
    return (f"{'abcd'[place]}> " if place else "") + (" ".join(map(text_of, words)) or "(the client leaves)")


def compare(both, seeds, tell):
    """How many of these seeds have requests that are answered otherwise. What leads there is told of the first of them."""
    otherwise = 0
    for seed in seeds:
        requests = drawn(seed)
        found = both.parting(requests)
        if not found:
            continue
        otherwise += 1
        if otherwise <= MOST_SHOWN:
            fewer, again = both.shrunk(requests[:found[0] + 1])
            _, one, other = again or found
            tell(f"seed {seed}, request {found[0]}: zqueue {one!r}, redis-server {other!r}")
            for request in fewer:
                tell(f"  {line_of(*request)}")
    return otherwise


def self_test():
    """A server whose errors have other texts is taken for a right one, and servers that answer otherwise are not; and what is drawn is
    what both servers have to answer alike."""
    def answer(name, count, error=b"-ERR one text\r\n"):
        return {b"NOSUCH": error, b"EXEC": b"*3\r\n$3\r\n-x \r\n" + error + b":%d\r\n" % count}.get(name, b":%d\r\n" % count)

    wrong, told = [], []

    def beside(other):
        return Both(lambda: Counting(answer), lambda: Counting(other))

    both = beside(lambda name, count: answer(name, count, b"-ERR another text\r\n"))
    if compare(both, range(3), told.append) or not both.ends["run"]:
        wrong.append(f"a server whose errors have other texts: {told}, {both.ends}")
    for what, other, wanted in (
            ("miscounts", lambda name, count: answer(name, 0 if (name, count) == (b"ZADD", 3) else count), [b"ZADD"] * 3),
            ("has another error", lambda name, count: answer(name, count, b"-OOM one text\r\n"), [b"EXEC"]),
            ("ends", lambda name, count: b"" if (name, count) == (b"EXEC", 2) else answer(name, count), [b"EXEC"] * 2)):
        told = []
        otherwise = compare(beside(other), [0], told.append)
        names = [text.split("> ")[-1].split()[0].encode().upper() for text in told[1:]]
        if otherwise != 1 or names != wanted:
            wrong.append(f"a server that {what}: {otherwise}, {told}")
    sequences = [drawn(seed) for seed in range(100)]
    names = {words[0].upper() for requests in sequences for _, words in requests if words}
    missing = {*COMMANDS, *INSIDE, *OUTSIDE, b"NOSUCH"} - names - {None}
    wrong += [f"never drawn: {missing}"] if missing else []
    wrong += [] if sequences[0] == drawn(0) != drawn(1) else ["a seed draws several sequences, or all the same"]
    sent = [[(place, words) for _, place, run in runs(requests) for words in run] for requests in sequences]
    wrong += [] if sent == sequences else ["requests are not sent"]
    wrong += [] if all(map(is_fair, sequences)) else ["an UNWATCH waits"]
    wrong += [] if not is_fair([(0, [b"MULTI"]), (0, [b"UNWATCH"])]) else ["an UNWATCH that waits is not seen"]
    for it in wrong:
        print(f"dialect: {it}", file=sys.stderr)
    return 1 if wrong else 0


def main():
    words = argparse.ArgumentParser(description=__doc__, formatter_class=argparse.RawDescriptionHelpFormatter)
    words.add_argument("--seed", type=int, default=1)
    words.add_argument("--requests", type=int, default=100000, help="100,000")
    words.add_argument("--program", type=pathlib.Path, help="in place of the one that is built here")
    words.add_argument("--self-test", action="store_true")
    asked = words.parse_args()
    if asked.self_test:
        return self_test()
    if shutil.which("redis-server") is None:
        sys.exit("dialect.py: redis-server is not there (Debian's package redis-server)")
    program = asked.program.resolve() if asked.program else served.built()
    started, sequences = time.monotonic(), -(-asked.requests // LENGTH)
    with tempfile.TemporaryDirectory() as folder, Members(program) as group, contextlib.ExitStack() as held:
        redis = pipe.Redis(folder)
        held.callback(redis.stop)
        site = group.start(0, alone=0)
        both = Both(lambda: Asked(site.port), lambda: Asked(redis.port))
        otherwise = compare(both, (f"{asked.seed} {number}" for number in range(sequences)), print)
    ends = ", ".join(f"{both.ends[each]} {each}" for each in ("run", "not run", "refused"))
    print(f"{sequences * LENGTH} requests in {time.monotonic() - started:.0f} s, transactions: {ends}; "
          f"{otherwise} of {sequences} sequences answered otherwise")
    return 1 if otherwise else 0


if __name__ == "__main__":
    sys.exit(main())

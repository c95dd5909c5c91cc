"""What apart.py finds of plain servers (stand.py) in the sites' place, and what it makes of seeds that were made by hand."""
import contextlib

import reckoned
import recording
from reckoned import unless
from relay import Relay
from stand import Stand

DONE = {"cut": 1, "stall": 2, "delay": 3, "heal": 4}


def put(apart, port, members, score=b"1"):
    with apart.Client(port) as client:
        for member in members:
            client.ask(b"ZADD", apart.KEYS[0], score, member)


def servers_found(apart):
    """Servers that share all, that have the same by themselves, that lack a member, or have another score of it."""
    with Stand() as one, Stand(beside=one) as two, Stand() as same, Stand() as lacking, Stand() as other:
        for stand in (one, same, other):
            put(apart, stand.port, [b"m1", b"m2"])
        put(apart, lacking.port, [b"m1"])
        put(apart, other.port, [b"m2"], b"2")
        for what, third, wanted in (("servers with the same", same, True), ("a server that lacks a member", lacking, False),
                                    ("a server with another score", other, False)):
            yield unless(what, apart.seconds_until_alike([one.port, two.port, third.port], 0.1) is not None, wanted)
        with Relay(one.port) as relay:
            yield unless("a server over a relay", apart.seconds_until_alike([one.port, relay.port], 0.1) is not None, True)
            relay.cut()
            with contextlib.suppress(RuntimeError, OSError), apart.Client(relay.port) as client:
                client.ask(b"PING")
                yield "a relay that is cut carries"


def seeds_found(apart):
    """Which seeds are well, what is told of them, the status that all come to, and their figures."""
    well = apart.Seed(1, 10, DONE, 4, True, 0.5)
    slow, never = apart.Seed(2, 20, DONE, 5, False, 1.5), apart.Seed(3, 30, DONE, 6, True, None)
    ended = apart.Seed(4, 40, DONE, 7, True, 0.7, ("a site ended",))
    yield unless("seeds that are well", [each.is_well() for each in (well, slow, never, ended)], [True, True, False, False])
    yield "" if "never alike" in never.told() and "a site ended" in ended.told() else "a seed that is not well is told as one that is"
    for what, seeds, rate, wanted in (("all is well", [well, slow], 9.0, 0), ("a seed is never alike", [well, never], 9.0, 1),
                                      ("a site ended", [ended, well], 9.0, 1), ("a site does not catch up", [well], None, 1)):
        yield unless(what, apart.conclude(seeds, 100, rate), wanted)
    rows = {measure: value for _, measure, value, _, _ in apart.figures([well, slow, never, ended], 100, 9.4)}
    yield unless("figures", rows, {"changes": 100, "alike after healing": 2, "from healing until alike, median": 1.0,
                                   "from healing until alike, longest": 1.5, "caught up": 9})
    rows = {measure: value for _, measure, value, _, _ in apart.figures([never], 100, None)}
    yield unless("figures where nothing is well", rows, {"changes": 30, "alike after healing": 0, "caught up": "never"})


def check(apart):
    return [line for part in (servers_found, seeds_found) for line in part(apart)]


# Each of these would take sites that differ for alike, or a seed that is not well for one that is.
BREACHES = [
    ("all(each == answers[0] for each in answers)", "all(each[:1] == answers[0][:1] for each in answers)"),
    ("return [client.reply() for _ in asked]", "return [len(client.reply()) > 0 for _ in asked]"),
    ("self.took is not None and not self.failures", "self.took is not None"),
    ("self.took is not None and not self.failures", "not self.failures"),
    ("all(each.is_well() for each in seeds)", "any(each.is_well() for each in seeds)"),
    ("0 if rate is not None and are_well else 1", "0 if are_well else 1"),
    ("[each for each in seeds if each.is_well()]", "seeds"),
    ("round(max(times), 2)", "round(min(times), 2)"),
]


def faults():
    return reckoned.faults("apart", check, BREACHES) + recording.faults()

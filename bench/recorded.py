#!/usr/bin/env python3
"""Records what two sites of this program say to each other, for the tests that a later program has to pass: site 5 dials site 1
through a relay on loopback, and what each of them said is printed as lists of bytes, its greeting and then its frames.

Usage: bench/recorded.py [--program PATH]
Without --program this repository's is proved and built first, as `./zqueue` does it.
"""
import argparse
import pathlib
import socket
import sys
import threading

sys.dont_write_bytecode = True
import served
import streams
from apart import Client
from members import Members, are_alike, holds

# How often `a` is put, so that the operations of its heap are more than a log of the least size holds.
PUTS, LEAST = 60_000, 1_048_576


def greeting_length(said):
    """How many bytes a greeting has that begins so."""
    told = 12 if said[8] != 0 else 14 + 16 + 8 + 8 * said[12]
    return told + 1 + 16 * said[told]


def parts_of(said):
    """The greeting and the frames that these bytes are, each frame behind its length."""
    length = greeting_length(said)
    parts, rest = [said[:length]], said[length:]
    while rest:
        length = 4 + int.from_bytes(rest[:4], "big")
        parts.append(rest[:length])
        rest = rest[length:]
    return parts


class Relay:
    """Passes one connection on to a port, and keeps what went each way."""

    def __init__(self, to):
        self.to, self.said = to, [b"", b""]
        self.listener = socket.create_server(("127.0.0.1", 0))
        self.port = self.listener.getsockname()[1]
        threading.Thread(target=self.run, daemon=True).start()

    def run(self):
        dialler, _ = self.listener.accept()
        acceptor = socket.create_connection(("127.0.0.1", self.to))
        for way, (one, other) in enumerate(((dialler, acceptor), (acceptor, dialler))):
            threading.Thread(target=self.carry, args=(way, one, other), daemon=True).start()

    def carry(self, way, one, other):
        while data := one.recv(65536):
            self.said[way] += data
            other.sendall(data)


def put_often(member):
    """Has the site put `a` by each number from 1."""
    with Client(member.port) as client:
        client.link.sendall(b"".join(streams.request(b"ZADD", b"q", b"%d" % number, b"a") for number in range(1, PUTS + 1)))
        for _ in range(PUTS):
            client.reply()


def printed(name, parts):
    print(f"pub const {name}: [&[u8]; {len(parts)}] = [")
    for part in parts:
        print('    b"' + "".join(f"\\x{byte:02x}" for byte in part) + '",')
    print("];")


def main():
    words = argparse.ArgumentParser(description=__doc__, formatter_class=argparse.RawDescriptionHelpFormatter)
    words.add_argument("--program", type=pathlib.Path)
    asked = words.parse_args()
    program = asked.program.resolve() if asked.program else served.built()
    with Members(program, heaps=2) as group:
        first = group.start(1, alone=0, link_backlog=LEAST)
        put_often(first)
        relay = Relay(first.listen)
        group.listens[1] = relay.port
        second = group.start(5, [1])
        if not holds(lambda: second.ask(b"ZADD", b"q", b"4", b"b") == b":1\r\n") or not are_alike([first, second]):
            raise RuntimeError("the sites do not meet")
        for request in ((b"ZINCRBY", b"q", b"2", b"b"), (b"ZADD", b"q", b"7", b"c"), (b"ZADD", b"q", b"8", b"d")):
            first.ask(*request)
        if not are_alike([first, second]):
            raise RuntimeError("the sites stay apart")
    for name, said in zip(("DIALLED", "ACCEPTED"), relay.said):
        printed(name, parts_of(said))


if __name__ == "__main__":
    main()

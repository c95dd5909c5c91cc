"""A server of plain sorted sets in one thread, which stands in zqueue's place where tools/try-connections is tried itself. It
keeps the settings that limit clients, but does one thing wrong, which the first word names: a key of FAULTS, or `none`.

Usage: python3 bench/stand_loop.py FAULT serve|site FILE
"""
import contextlib
import os
import queue
import select
import socket
import sys
import threading
import time
import tomllib

import plain_model

FAULTS = {
    "forgetting": "the beginning of a request is lost where its end comes later",
    "hasty": "a connection is closed with what it is owed once its client writes no more",
    "mute": "bytes that are no request are not answered, only closed",
    "collective": "bytes that are no request close all connections",
    "few": "a fifth connection waits until another one ends",
    "open": "there may be any number of connections",
    "curt": "a connection past the limit is closed without a word",
    "uncounted": "a connection past the limit does not count",
    "spinning": "it accepts over and over where there are no descriptors",
    "given-up": "it accepts no more once there were no descriptors",
    "hoarding": "all that was read is answered at once, however much waits",
    "blocking": "nobody is answered while a connection takes nothing",
    "patient": "no connection is closed for what it does not do",
    "quiet": "what closes a connection is not told",
    "impatient": "busy connections are closed as if they were silent",
    "unlimited": "any number of bytes may wait",
    "unjust": "where too much waits the connection is closed that is owed least",
    "leaking": "what a connection took is not given back",
    "endless": "it does not end after its last connection",
    "failing": "it ends with status 1",
    "waiting": "nobody is served while standard output takes nothing",
}
FULL = b"-ERR max number of clients reached\r\n"
MOST_OWED = 65536
# Seconds between two looks at what has waited too long, and without an accept where there were no descriptors.
TURN = 0.05


class Client:
    """A connection: what was heard of it and is not answered yet, and what it is owed."""

    def __init__(self, link):
        self.link, self.heard, self.owed = link, b"", b""
        # Whether nothing more comes, whether it is closed once nothing is owed, and whether what was heard is no whole request.
        self.is_last, self.is_closing, self.has_part = False, False, True
        self.came = self.heard_at = self.taken_at = time.monotonic()

    def events(self):
        wants_more = not self.is_last and self.has_part and len(self.owed) < MOST_OWED
        return (select.EPOLLIN if wants_more else 0) | (select.EPOLLOUT if self.owed else 0)

    def is_over(self):
        return not self.owed and (self.is_closing or (self.is_last and self.has_part))


class Server:
    """The port, its connections by their descriptors, and the sets."""

    def __init__(self, fault, settings):
        self.fault, self.plain, self.clients, self.kept = fault, plain_model.Plain(), {}, []
        self.limits = {"clients": 10000, "timeout": 0, "write_timeout": 60, "output": 1 << 28, "connections": 0, **settings}
        self.left = self.limits["connections"] or -1
        self.poll = select.epoll()
        # What is looked for on each connection, however much it is owed: where its client writes no more it is closed.
        self.always = select.EPOLLRDHUP if fault == "hasty" else 0
        self.listener = socket.create_server(("127.0.0.1", settings["port"]), backlog=1024)
        self.listener.setblocking(False)
        # The lines that are told, which a thread of its own writes.
        self.lines = queue.SimpleQueue()
        threading.Thread(target=self.write_lines, daemon=True).start()
        # When it accepts again where it pauses, and whether a connection broke the protocol.
        self.resume_at, self.is_broken = 0.0, False

    def run(self):
        while self.left or self.clients or self.fault == "endless":
            now = time.monotonic()
            if self.resume_at is not None and now >= self.resume_at:
                self.resume_at = None
                self.poll.register(self.listener, select.EPOLLIN)
            for place, events in self.poll.poll(TURN):
                if place == self.listener.fileno():
                    self.accept()
                elif place in self.clients:
                    self.serve(self.clients[place], events)
            self.sweep(time.monotonic())
        return self.fault == "failing"

    def write_lines(self):
        while True:
            os.write(1, self.lines.get())

    def tell(self, line):
        if self.fault == "waiting":
            os.write(1, f"{line}\n".encode())
        elif self.fault != "quiet" or line == "site 0 protocol fault":
            self.lines.put(f"{line}\n".encode())

    def pause(self, seconds):
        self.poll.unregister(self.listener)
        self.resume_at = time.monotonic() + seconds

    def accept(self):
        if self.left == 0 or (self.fault == "few" and len(self.clients) >= 4):
            self.pause(TURN)
            return
        try:
            link, _ = self.listener.accept()
        except OSError:
            if self.fault != "spinning":
                self.pause(1e9 if self.fault == "given-up" else TURN)
            return
        is_full = len(self.clients) >= self.limits["clients"] and self.fault != "open"
        self.left -= not (is_full and self.fault == "uncounted")
        if is_full:
            with link, contextlib.suppress(OSError):
                link.sendall(b"" if self.fault == "curt" else FULL)
            return
        link.setblocking(False)
        self.clients[link.fileno()] = Client(link)
        self.poll.register(link, select.EPOLLIN | self.always)

    def serve(self, client, events):
        if events & self.always:
            client.owed, client.is_closing = b"", True
        elif events & ~select.EPOLLOUT:
            self.read(client)
        self.answer(client)
        self.write(client)
        if client.is_over():
            self.close(client)
        if client.link.fileno() in self.clients:
            self.poll.modify(client.link, client.events() | self.always)

    def read(self, client):
        if client.is_last or not client.has_part:
            return
        try:
            piece = client.link.recv(1 << 14)
        except OSError:
            client.owed, client.is_closing = b"", True
            return
        client.is_last = not piece
        client.heard_at = time.monotonic()
        client.heard = piece if self.fault == "forgetting" and client.has_part else client.heard + piece

    def answer(self, client):
        client.has_part = client.is_closing
        while not client.is_closing and (len(client.owed) < MOST_OWED or self.fault == "hoarding"):
            try:
                words, end = plain_model.request_at(client.heard, 0)
            except plain_model.Part:
                client.has_part = True
                return
            except plain_model.Fault:
                self.refuse(client)
                return
            client.owed += self.plain.answer(words) if words else b""
            client.heard = client.heard[end:]

    def refuse(self, client):
        self.tell("site 0 protocol fault")
        client.is_closing = client.is_last = True
        client.owed = b"" if self.fault == "mute" else client.owed + plain_model.CLOSING
        self.is_broken = True

    def write(self, client):
        is_again = True
        while client.owed and is_again:
            client.link.settimeout(20 if self.fault == "blocking" else 0)
            try:
                count = client.link.send(client.owed)
                client.owed, client.taken_at = client.owed[count:], time.monotonic()
            except BlockingIOError:
                return
            except OSError:
                client.owed, client.is_closing = b"", True
            is_again = self.fault == "blocking"
            self.answer(client)

    def close(self, client, told=""):
        if self.clients.pop(client.link.fileno(), None) is None:
            return
        self.poll.unregister(client.link)
        if self.fault == "leaking":
            client.link.shutdown(socket.SHUT_RDWR)
            self.kept.append(client.link)
        else:
            client.link.close()
        if told:
            self.tell(told)

    def sweep(self, now):
        for client in list(self.clients.values()) if self.is_broken and self.fault == "collective" else []:
            self.close(client)
        timeout, write_timeout = self.limits["timeout"], self.limits["write_timeout"]
        for client in list(self.clients.values()) if self.fault != "patient" else []:
            since = client.came if self.fault == "impatient" else max(client.heard_at, client.taken_at)
            if timeout and not client.owed and now - since >= timeout:
                self.close(client)
            elif write_timeout and client.owed and now - client.taken_at >= write_timeout:
                self.close(client, "site 0 unread replies")
        while self.fault != "unlimited" and sum(len(client.owed) for client in self.clients.values()) > self.limits["output"]:
            owing = [client for client in self.clients.values() if client.owed]
            self.close((min if self.fault == "unjust" else max)(owing, key=lambda client: len(client.owed)), "site 0 output limit")


def main():
    fault, kind, path = sys.argv[1:]
    with open(path, "rb") as file:
        settings = tomllib.load(file)
    if kind == "serve":
        settings["port"] = settings["ports"][0]
    server = Server(fault, settings)
    print(f"site 0 port {settings['port']}" + (f" peers {settings['listen']}" if kind == "site" else ""), flush=True)
    return server.run()


if __name__ == "__main__":
    sys.exit(main())

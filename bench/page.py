#!/usr/bin/env python3
"""Looks at the page of an admin port in a headless browser, and reads numbers off it.

Usage: bench/page.py [--program PATH] [--seconds S] [--picture PNG] [--dark]
       bench/page.py --mock [--seconds S] [--picture PNG] [--dark]
       bench/page.py --url URL [--token TOKEN] [--seconds S] [--picture PNG] [--dark]
Of the program three sites are started, of which one is looked at and written to, and another has gone, so that the page has
something to warn of; where no path is given it is proved and built first. With --mock the page is served beside numbers that are made up, and with
--url it is that of a site that runs already. Each breach goes to standard error; status 1 where there is one, and 0 with a line
that says so where there is no browser (Debian's `chromium`).
"""
import argparse
import contextlib
import http.server
import json
import pathlib
import sys
import threading
import time

ROOT = pathlib.Path(__file__).resolve().parent.parent
sys.dont_write_bytecode = True
sys.path.insert(0, str(ROOT / "bench"))

import devtools
import served
from apart import Client
from members import KEY, Members, holds

TOKEN = "a-token-of-the-page-0123456789"
# Seconds within which the page shows the site.
SHOWS = 30


def mock_metrics(seconds):
    """Numbers of a site that does some 5,000 commands a second."""
    lines = ['zqueue_build_info{version="0.4.0"} 1', f"zqueue_uptime_seconds {86400 * 3 + seconds}", "process_resident_memory_bytes 412876800", "zqueue_ready 1",
             "zqueue_connections 412", f"zqueue_connections_accepted_total {9120 + int(seconds)}", "zqueue_connections_refused_total 3", "zqueue_memory_full 0",
             'zqueue_connections_closed_total{reason="idle"} 8701', "zqueue_backlog_bytes 18874368", "zqueue_backlog_operations 213001", "zqueue_parked_operations 17",
             "zqueue_dropped_frames_total 0"]
    for cmd, each in (("zadd", 2900), ("zpopmin", 1400), ("zincrby", 620), ("zrange", 88), ("ping", 12), ("zrem", 0)):
        lines.append(f'zqueue_commands_total{{cmd="{cmd}"}} {1000000 * (each > 0) + int(each * seconds)}')
        lines.append(f'zqueue_command_errors_total{{cmd="{cmd}"}} {int(each * seconds / 5000)}')
    count = 0
    for bound, share in (("0.0001", 0.4), ("0.00025", 0.82), ("0.0005", 0.95), ("0.001", 0.985), ("0.0025", 0.996), ("0.01", 1), ("+Inf", 1)):
        count = int(5020 * seconds * share)
        lines.append(f'zqueue_request_duration_seconds_bucket{{le="{bound}"}} {count}')
    lines += [f"zqueue_request_duration_seconds_sum {seconds * 1.2}", f"zqueue_request_duration_seconds_count {count}"]
    for heap in range(4):
        lines += [f'zqueue_operations_made_total{{heap="{heap}"}} {250000 + int(1230 * seconds)}', f'zqueue_operations_taken_total{{heap="{heap}"}} {90000 + int(310 * seconds)}',
                  f'zqueue_vector_operations{{heap="{heap}"}} {340000 + int(1540 * seconds)}']
    for peer, up, lag in ((0, 1, 212), (2, 1, 0), (3, 0, 40211)):
        lines += [f'zqueue_link_up{{peer="{peer}"}} {up}', f'zqueue_link_lag_operations{{peer="{peer}"}} {lag}', f'zqueue_link_last_frame_seconds{{peer="{peer}"}} {0.21 if up else 381.2}']
        for direction, each in (("in", 81000), ("out", 240000)):
            lines += [f'zqueue_link_bytes_total{{peer="{peer}",direction="{direction}"}} {int(up * each * seconds)}', f'zqueue_link_frames_total{{peer="{peer}",direction="{direction}"}} {int(up * each / 900 * seconds)}']
    return "\n".join(lines) + "\n"


MOCK_PEERS = {"site": 1, "peers": [{"site": 0, "address": "queue-0.example:7101", "dials": True, "up": True}, {"site": 2, "address": "10.0.4.12:7101", "dials": False, "up": True},
                                   {"site": 3, "address": "10.0.4.13:7101", "dials": False, "up": False}]}
MOCK_KEYS = {"keys": [{"key": name, "members": members, "cut": False} for name, members in (
    ("jobs", 412876), ("mail:outgoing", 120044), ("thumbnails", 88012), ("jobs:retry", 20911), ("sessions:expiring", 9100), ("caf\u00e9", 811),
    ("report:2026-11", 420), ("\\xff\\x00raw", 12), ("a-key-with-a-name-that-is-much-longer-than-any-table-of-a-page-for-people-is-wide", 7))],
    "parts": 20806, "age_ms": 3100, "took_ms": 210, "whole": True, "walking": False}


class Mock(http.server.BaseHTTPRequestHandler):
    """The pages of an admin port, with numbers that are made up. It asks for the token, as a site does that has one."""

    def do_GET(self):
        page = self.path.split("?")[0]
        known = self.headers.get("Authorization") == "Bearer " + TOKEN
        if page != "/" and not known:
            return self.give(401, "text/plain", "this takes the header Authorization: Bearer TOKEN\n")
        text = {"/": ("text/html; charset=utf-8", (ROOT / "crates/zq_admin/src/page.html").read_text()), "/readyz": ("text/plain", "ready\n"),
                "/metrics": ("text/plain; version=0.0.4", mock_metrics(time.monotonic() - self.server.began)),
                "/peers": ("application/json", json.dumps(MOCK_PEERS)), "/keys": ("application/json", json.dumps(MOCK_KEYS))}[page]
        self.give(200, *text)

    def give(self, status, kind, text):
        data = text.encode()
        self.send_response(status)
        self.send_header("Content-Type", kind)
        self.send_header("Content-Length", str(len(data)))
        self.end_headers()
        self.wfile.write(data)

    def log_message(self, *_):
        pass


@contextlib.contextmanager
def mocked():
    server = http.server.ThreadingHTTPServer(("127.0.0.1", 0), Mock)
    server.began = time.monotonic() - 600
    threading.Thread(target=server.serve_forever, daemon=True).start()
    try:
        yield f"http://127.0.0.1:{server.server_port}/"
    finally:
        server.shutdown()


def feed(member, stop):
    """Adds members of some keys, and pops some, until it is told to stop."""
    with Client(member.port) as client:
        number = 0
        while not stop.is_set():
            for key, each in ((b"jobs", 8), (b"mail", 3), (b"caf\xc3\xa9", 1)):
                client.ask(b"ZADD", key, *[word for n in range(each) for word in (b"%d" % number, b"m%d-%d" % (number, n))])
            if number % 4 == 0:
                client.ask(b"ZPOPMIN", b"jobs")
            if number % 50 == 0:
                client.ask(b"ZADD", b"jobs", b"no-number", b"m")
            number += 1


@contextlib.contextmanager
def sites(program, faults):
    """Three sites, of which the last is looked at and written to. The first has gone."""
    with Members(program) as group:
        admin = served.free_ports(1)[0]
        gone, other = group.start(0, alone=0), group.start(1, [0], alone=0)
        last = group.start(2, [0, 1], admin=f'"127.0.0.1:{admin}"', admin_token=f'"{TOKEN}"', alone=0)
        gone.adds(b"a", 10)
        if not holds(lambda: last.ask(b"ZCARD", KEY) == b":10\r\n" and other.ask(b"ZCARD", KEY) == b":10\r\n"):
            faults.append("the sites do not meet")
        gone.kill()
        stop = threading.Event()
        feeder = threading.Thread(target=feed, args=(last, stop), daemon=True)
        feeder.start()
        try:
            yield f"http://127.0.0.1:{admin}/"
        finally:
            stop.set()
            feeder.join(10)


def look(url, token, words, faults):
    """Looks at the page for some seconds, and gives what it shows."""
    def wrong(text):
        faults.append(text)

    with devtools.Page(url, dark=words.dark) as page:
        end = time.monotonic() + SHOWS
        if token:
            while time.monotonic() < end and page.value("document.getElementById('ask')?.hidden") is not False:
                time.sleep(0.2)
            if page.value("document.getElementById('ask')?.hidden") is not False:
                wrong("the page does not ask for the token")
            page.faults = [fault for fault in page.faults if "401" not in fault]
            page.value(f"document.getElementById('token').value = {json.dumps(token)}; document.querySelector('#ask button').click()")
        while time.monotonic() < end and not page.value("document.body && document.body.dataset.turns"):
            time.sleep(0.2)
        before = int(page.value("document.body.dataset.turns") or 0)
        time.sleep(words.seconds)
        shown = {name: page.text(name) for name in ("title", "ready", "about", "state", "warnings", "links", "keys", "commands", "heaps",
                                                    "value-commands", "value-errors", "value-time", "value-clients", "value-memory", "value-lag", "value-backlog")}
        turns = int(page.value("document.body.dataset.turns") or 0)
        if words.picture:
            page.picture(words.picture)
        if not before:
            wrong("the page shows nothing")
        elif turns < min(30, before + words.seconds // 2):
            wrong(f"the page was made new {turns - before} times in {words.seconds} s")
        abroad = [asked for asked in page.asked if not asked.startswith((url, "data:", "about:"))]
        if abroad:
            wrong(f"the page asks for {abroad[:3]}")
        if page.faults:
            wrong(f"the page has faults: {page.faults[:3]}")
        return shown


def number(text):
    """The number that a text begins with."""
    digits = "".join(letter for letter in (text or "").split(" ")[0] if letter in "0123456789.")
    return float(digits) if digits.strip(".") else None


def main():
    asked = argparse.ArgumentParser(description=__doc__, formatter_class=argparse.RawDescriptionHelpFormatter)
    asked.add_argument("--program", type=pathlib.Path)
    asked.add_argument("--mock", action="store_true")
    asked.add_argument("--url")
    asked.add_argument("--token")
    asked.add_argument("--seconds", type=int, default=10)
    asked.add_argument("--picture", type=pathlib.Path)
    asked.add_argument("--dark", action="store_true")
    words = asked.parse_args()
    if not devtools.browser():
        print("page: left out, since there is no browser")
        return 0
    faults = []
    with contextlib.ExitStack() as held:
        if words.url:
            url, token = words.url, words.token
        elif words.mock:
            url, token = held.enter_context(mocked()), TOKEN
        else:
            program = words.program.resolve() if words.program else served.built()
            url, token = held.enter_context(sites(program, faults)), TOKEN
        shown = look(url, token, words, faults)
    for name, text in shown.items():
        print(f"page: {name}: {' | '.join((text or '').split(chr(10)))}")
    if not words.url:
        if shown["ready"] != "ready":
            faults.append(f"the site is {shown['ready']!r}")
        if "jobs" not in (shown["keys"] or ""):
            faults.append("the largest key is not shown")
        if "up" not in (shown["links"] or ""):
            faults.append("no link is shown")
        if "no link to site" not in (shown["warnings"] or ""):
            faults.append("a link that is down is not warned of")
    if words.mock and not 4000 < (number(shown["value-commands"].replace(",", "")) or 0) < 6000:
        faults.append(f"commands a second: {shown['value-commands']!r}")
    for fault in faults:
        print(f"page: {fault}", file=sys.stderr)
    return 1 if faults else 0


if __name__ == "__main__":
    sys.exit(main())

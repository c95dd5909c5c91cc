"""A site whose link thread is held as if it had much to do, and a peer of it that only listens. On loopback."""
import contextlib
import ctypes
import os
import pathlib
import socket
import subprocess
import tempfile
import time

import served

HEAPS = 2
# A frame of no operations, behind its length: what keeps a link up.
HEARTBEAT = b"\0\0\0\5\2\0\0\0\0"
# Seconds of silence before which a heartbeat comes, and seconds without a byte after which a link is at rest.
SILENCE, REST = 7, 0.3
# What the system calls its means for debuggers.
SEIZE, INTERRUPT, DETACH, ANY_THREAD = 0x4206, 0x4207, 17, 0x40000000


def greeting(site):
    """Of a peer that speaks versions 1 and 2 and has no secret, and nothing."""
    return b"zq-peer\n" + bytes([0, 1, 2, site, HEAPS, 0]) + bytes(16 + 8 + 8 * HEAPS + 1)


def rest(link, seconds=REST):
    """What comes until nothing has come for so long."""
    came = b""
    link.settimeout(seconds)
    with contextlib.suppress(TimeoutError):
        while piece := link.recv(65536):
            came += piece
    return came


def first(link, count, seconds):
    """The first bytes that come within so many seconds, as many as that or fewer."""
    came, end = b"", time.monotonic() + seconds
    with contextlib.suppress(TimeoutError):
        while len(came) < count and (left := end - time.monotonic()) > 0:
            link.settimeout(left)
            if not (piece := link.recv(count - len(came))):
                return came + b" and then the link ended"
            came += piece
    return came


@contextlib.contextmanager
def linked(program):
    """A site 0 and the link of its peer 1, which has greeted it: the site's process and the link."""
    with tempfile.TemporaryDirectory(prefix="zqueue-held-") as folder:
        port, listen, other = served.free_ports(3)
        file = pathlib.Path(folder) / "site.toml"
        file.write_text(f'site = 0\nport = {port}\nlisten = "127.0.0.1:{listen}"\nheaps = {HEAPS}\n'
                        f'[[peers]]\nsite = 1\naddress = "127.0.0.1:{other}"\n')
        words = served.guarded([program, "site", file])
        with subprocess.Popen(words, stdin=subprocess.DEVNULL, stdout=subprocess.PIPE, env=served.ENVIRONMENT) as site:
            try:
                site.stdout.readline()
                with socket.create_connection(("127.0.0.1", listen), timeout=served.OPENING) as link:
                    link.sendall(greeting(1))
                    yield site, link
            finally:
                site.kill()


@contextlib.contextmanager
def held(site):
    """Holds the site's link thread, the fourth that it starts: the first one writes what is said, the second serves the site, and the
    third takes what the site makes into its logs. False where the system does not let us."""
    system = ctypes.CDLL(None, use_errno=True)
    thread = sorted(map(int, os.listdir(f"/proc/{site.pid}/task")))[4]
    if system.ptrace(SEIZE, thread, None, None) or system.ptrace(INTERRUPT, thread, None, None):
        yield False
        return
    os.waitpid(thread, ANY_THREAD)
    try:
        yield True
    finally:
        system.ptrace(DETACH, thread, None, None)


def breaches(link, seconds=SILENCE):
    """What is wrong with a link over which a heartbeat has to come, and nothing else."""
    came = first(link, len(HEARTBEAT), seconds)
    return [] if came == HEARTBEAT else [f"a heartbeat has to come within {seconds} s of silence: {came!r} came"]


def try_heartbeat(program):
    """A link whose site's link thread is held carries a heartbeat, and stays."""
    with linked(program) as (site, link):
        if not rest(link):
            return ["the site says nothing to its peer"]
        with held(site) as is_held:
            if not is_held:
                print("try-clients: heartbeats left out, for want of leave to hold a thread")
                return []
            return breaches(link)

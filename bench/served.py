"""A `zqueue serve` of a run's own, on free ports of the loopback."""
import contextlib
import os
import pathlib
import re
import shutil
import socket
import subprocess
import sys
import tempfile
import time

ROOT = pathlib.Path(__file__).resolve().parent.parent
# Seconds within which all ports have to be listened on.
OPENING = 20
# What `./zqueue` tells the C library of memory.
TUNABLES = re.search(r"GLIBC_TUNABLES=.*}(.*)\"", (ROOT / "zqueue").read_text())[1]
# The environment in which it starts the program.
ENVIRONMENT = {**os.environ, "GLIBC_TUNABLES": TUNABLES}


def built():
    """The path of the program, which is proved and built first where it is not yet."""
    subprocess.run([ROOT / "zqueue", "pipe"], stdin=subprocess.DEVNULL, stdout=subprocess.DEVNULL, check=True)
    return ROOT / "crates" / "zqueue" / "out" / "zqueue"


def rt_command():
    """The toolchain's command."""
    return subprocess.run([ROOT / "tools" / "find-rt"], stdout=subprocess.PIPE, text=True, check=True).stdout.strip()


def built_crate(name):
    """The path of the program of that crate, which is proved and built first where it is not yet, and run over no input."""
    folder = ROOT / "crates" / name
    subprocess.run([rt_command(), "run"], cwd=folder, stdin=subprocess.DEVNULL, stdout=sys.stderr, check=True)
    return folder / "out" / name


def free_ports(count):
    """So many ports on which nobody listens."""
    with contextlib.ExitStack() as held:
        sockets = [held.enter_context(socket.socket()) for _ in range(count)]
        for each in sockets:
            each.bind(("127.0.0.1", 0))
        return [each.getsockname()[1] for each in sockets]


def guarded(words):
    """The words that start a program which the system ends where this process is killed, if it can."""
    return ["setpriv", "--pdeathsig", "KILL", *words] if shutil.which("setpriv") else words


def settings_of(ports, values):
    """A settings file's text."""
    return "".join(f"{key} = {value}\n" for key, value in {"ports": ports, "connections": 0, **values}.items())


class Served:
    """A server of so many sites, which serves without end. It ends with the `with` that it is used in, or, where this
    process is killed, by the system's hand."""

    def __init__(self, program, sites=1, **values):
        self.room, self.server = tempfile.TemporaryDirectory(prefix="zqueue-served-"), None
        try:
            # A port that was free may be somebody's a moment later: then others are tried.
            for is_last in (False, False, True):
                self.ports = free_ports(sites)
                self.start(program, settings_of(self.ports, values))
                if self.is_open(is_last):
                    return
        except BaseException:
            self.__exit__()
            raise

    def start(self, program, settings):
        folder = pathlib.Path(self.room.name)
        (folder / "settings.toml").write_text(settings)
        self.written, self.complaints = folder / "written", folder / "complaints"
        words = guarded([program, "serve", folder / "settings.toml"])
        with open(self.written, "wb") as out, open(self.complaints, "wb") as errors:
            self.server = subprocess.Popen(words, stdin=subprocess.DEVNULL, stdout=out, stderr=errors, env=ENVIRONMENT)

    def is_open(self, is_last):
        """Whether all ports are listened on. Where not, the server is gone; the last time that is an error."""
        wanted = [f"site {number} port {port}" for number, port in enumerate(self.ports)]
        end = time.monotonic() + OPENING
        while time.monotonic() < end and self.server.poll() is None:
            if self.lines()[:len(wanted)] == wanted:
                return True
            time.sleep(0.01)
        self.end()
        if is_last:
            raise RuntimeError(f"zqueue did not serve: {self.lines()} {self.complaints.read_text(errors='replace')!r}")
        return False

    def lines(self):
        """What the server has written to standard output."""
        return self.written.read_text(errors="replace").splitlines()

    def warnings(self):
        """What it has written after its ports."""
        return self.lines()[len(self.ports):]

    def is_alive(self):
        return self.server.poll() is None

    def memory(self):
        """The most memory that the server has had so far, in kilobytes, or None."""
        with contextlib.suppress(OSError):
            for line in pathlib.Path(f"/proc/{self.server.pid}/status").read_text().splitlines():
                if line.startswith("VmHWM:"):
                    return int(line.split()[1])
        return None

    def end(self):
        if self.server is None:
            return
        self.server.terminate()
        try:
            self.server.wait(10)
        except subprocess.TimeoutExpired:
            self.server.kill()
            self.server.wait()

    def __enter__(self):
        return self

    def __exit__(self, *_):
        try:
            self.end()
        finally:
            self.room.cleanup()

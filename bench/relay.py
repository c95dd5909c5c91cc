"""A relay between a peer that dials and one that listens, whose link can be cut, stalled and delayed."""
import collections
import contextlib
import selectors
import socket
import threading
import time

# Bytes that are taken at once, and bytes that wait for one end at most: past it nothing more is taken for it.
PIECE = 1 << 16
WAITING = 1 << 22


class Way:
    """One direction of a link: what came from one end, each piece with the time at which it may go to the other."""

    def __init__(self, source, target):
        self.source, self.target = source, target
        self.pieces, self.size, self.has_ended = collections.deque(), 0, False

    def take(self, due):
        """Takes what has come. Whether the end that sends is still there."""
        try:
            piece = self.source.recv(PIECE)
        except BlockingIOError:
            return True
        except OSError:
            return False
        if not piece:
            self.has_ended = True
            return True
        self.pieces.append((due, piece))
        self.size += len(piece)
        return True

    def give(self, now):
        """Sends what is due, as far as it is taken. Whether the end that is sent to is still there."""
        while self.pieces and self.pieces[0][0] <= now:
            due, piece = self.pieces.popleft()
            try:
                sent = self.target.send(piece)
            except BlockingIOError:
                sent = 0
            except OSError:
                return False
            self.size -= sent
            if sent < len(piece):
                self.pieces.appendleft((due, piece[sent:]))
                break
        return not self.has_ended or bool(self.pieces)


class Relay:
    """Listens on a port of its own and connects each link on to another port. It runs in a thread until its `with` ends.

    - `cut()` ends all links, and each new one at once, until `heal()`.
    - `stall()` carries nothing more, and keeps the links, until `heal()`.
    - `delay` is how many seconds each piece waits.
    """

    def __init__(self, onward):
        self.onward, self.delay = onward, 0.0
        self.is_cut = self.is_stalled = self.is_over = False
        self.listener = socket.create_server(("127.0.0.1", 0))
        self.listener.setblocking(False)
        self.port = self.listener.getsockname()[1]
        self.links, self.carried, self.accepted = [], 0, 0
        self.thread = threading.Thread(target=self.run, daemon=True)

    def cut(self):
        self.is_cut, self.is_stalled = True, False

    def stall(self):
        self.is_cut, self.is_stalled = False, True

    def heal(self):
        self.is_cut = self.is_stalled = False

    def accept(self):
        with contextlib.suppress(BlockingIOError):
            while True:
                dialled, _ = self.listener.accept()
                self.accepted += 1
                if self.is_cut:
                    dialled.close()
                    continue
                try:
                    onward = socket.create_connection(("127.0.0.1", self.onward), timeout=5)
                except OSError:
                    dialled.close()
                    continue
                for end in (dialled, onward):
                    end.setblocking(False)
                    end.setsockopt(socket.IPPROTO_TCP, socket.TCP_NODELAY, 1)
                self.links.append((Way(dialled, onward), Way(onward, dialled)))

    def end(self, link):
        self.links.remove(link)
        for way in link:
            way.source.close()

    def carry(self, link, ready):
        """Carries what there is to carry both ways."""
        now = time.monotonic()
        for way in link:
            before = way.size
            is_there = True
            if way.source in ready and way.size < WAITING and not way.has_ended:
                is_there = way.take(now + self.delay)
            self.carried += max(way.size - before, 0)
            if not is_there or not way.give(now):
                self.end(link)
                return

    def wait(self):
        """The ends from which something has come, after some milliseconds at most."""
        if self.is_stalled:
            time.sleep(0.002)
            return set()
        with selectors.DefaultSelector() as selector:
            selector.register(self.listener, selectors.EVENT_READ)
            for way in (way for link in self.links for way in link):
                if way.size < WAITING and not way.has_ended:
                    selector.register(way.source, selectors.EVENT_READ)
            return {key.fileobj for key, _ in selector.select(0.002)}

    def run(self):
        while not self.is_over:
            ready = self.wait()
            if self.is_cut:
                for link in list(self.links):
                    self.end(link)
            self.accept()
            if not self.is_stalled:
                for link in list(self.links):
                    self.carry(link, ready)

    def __enter__(self):
        self.thread.start()
        return self

    def __exit__(self, *_):
        self.is_over = True
        self.thread.join()
        for link in list(self.links):
            self.end(link)
        self.listener.close()

"""A server of one heap's sorted sets by the plain model, to stand in zqueue's place where a tool is tried itself."""
import contextlib
import socketserver
import threading

import plain_model


class Stand(socketserver.ThreadingTCPServer):
    """A plain server in zqueue's place, whose reply to one command is wrong."""

    daemon_threads = True

    def __init__(self, wrong=None, spoil=None, beside=None):
        super().__init__(("127.0.0.1", 0), Talk)
        self.wrong, self.spoil = wrong, spoil
        self.plain, self.lock = (beside.plain, beside.lock) if beside else (plain_model.Plain(), threading.Lock())

    def __enter__(self):
        threading.Thread(target=self.serve_forever, kwargs={"poll_interval": 0.01}, daemon=True).start()
        return self

    def __exit__(self, *_):
        self.shutdown()
        self.server_close()

    @property
    def port(self):
        return self.server_address[1]

    def answer(self, words):
        with self.lock:
            reply = self.plain.answer(words)
        return self.spoil(reply) if words[0].upper() == self.wrong else reply


class Talk(socketserver.BaseRequestHandler):
    """One connection to a plain server."""

    def handle(self):
        data = b""
        with contextlib.suppress(ConnectionError):
            while piece := self.request.recv(1 << 16):
                replies, data, is_over = self.answered(data + piece)
                self.request.sendall(replies)
                if is_over:
                    return

    def answered(self, data):
        """The replies to the requests of these bytes, the bytes behind them, and whether they begin no request."""
        replies = b""
        try:
            while data:
                words, end = plain_model.request_at(data, 0)
                replies += self.server.answer(words)
                data = data[end:]
        except plain_model.Part:
            return replies, data, False
        except plain_model.Fault:
            return replies + plain_model.CLOSING, data, True
        return replies, data, False

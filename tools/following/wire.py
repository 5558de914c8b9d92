"""A client's connections to a server, on which requests are sent before others are replied to."""
import re
import socket
import time
from dataclasses import dataclass

LENGTH = re.compile(rb"\r\nContent-Length: *(\d+)\r\n", re.I)
TAG = re.compile(rb'\r\nETag: *"([^"]*)"\r\n', re.I)
AT_ONCE = 32
# In seconds: a server ends a connection that is silent for 10, or that is 300 old.
SILENT, OLD = 2, 120


class Broken(Exception):
    """A connection ended before the reply to a request that was sent on it."""


@dataclass
class Reply:
    head: bytes
    body: bytes

    @property
    def status(self):
        return int(self.head[9:12])

    @property
    def tag(self):
        found = TAG.search(self.head)
        return found and found[1].decode()

    @property
    def closes(self):
        return b"\r\nconnection: close\r\n" in self.head.lower()

    @property
    def is_success(self):
        return self.status in (200, 201)


def split(text):
    """The first reply of these bytes and the rest; None while it isn't whole."""
    head, is_whole, rest = text.partition(b"\r\n\r\n")
    if not is_whole:
        return None
    head += b"\r\n\r\n"
    found = LENGTH.search(head)
    length = int(found[1]) if found else 0
    if len(rest) < length:
        return None
    return Reply(head, rest[:length]), rest[length:]


def replies_in(text):
    """The replies that these bytes are, one after the other; and what is left."""
    replies = []
    while found := split(text):
        reply, text = found
        replies.append(reply)
    return replies, text


class Wire:
    """Connections to one port of the loopback, one at a time."""

    def __init__(self, port):
        self.port = port
        self.line = None
        self.held = b""
        self.begun = self.used = 0

    def close(self):
        if self.line is not None:
            self.line.close()
            self.line = None
        self.held = b""

    def send(self, requests):
        now = time.monotonic()
        if now - self.used > SILENT or now - self.begun > OLD:
            self.close()
        if self.line is None:
            self.line = socket.create_connection(("127.0.0.1", self.port), timeout=60)
            self.line.setsockopt(socket.IPPROTO_TCP, socket.TCP_NODELAY, 1)
            self.begun = now
        self.used = now
        self.line.sendall(b"".join(requests))

    def receive(self):
        while not (found := split(self.held)):
            more = self.line.recv(1 << 16)
            if not more:
                raise Broken
            self.held += more
        reply, self.held = found
        return reply

    def ask(self, request):
        """The reply to a request."""
        try:
            self.send([request])
            reply = self.receive()
        except OSError as fault:
            raise Broken from fault
        if reply.closes:
            self.close()
        return reply

    def ask_all(self, requests):
        """The replies to requests that change nothing, sent again after a reply that closes."""
        replies = []
        while len(replies) < len(requests):
            sent = requests[len(replies) : len(replies) + AT_ONCE]
            try:
                self.send(sent)
                for _ in sent:
                    replies.append(self.receive())
                    if replies[-1].closes:
                        self.close()
                        break
            except OSError as fault:
                raise Broken from fault
        return replies

"""Clients on connections of their own, which ask all the time, in a process of their own."""
import multiprocessing
import selectors
import socket
import time
from dataclasses import dataclass

USER = "sip:joe@example.com"
PATH = f"/xcap/resource-lists/users/{USER}/index"
LISTS = "application/resource-lists+xml"


def request(method, path=PATH, body=b"", *fields):
    """The bytes of a request on a connection that goes on."""
    lines = [f"{method} {path} HTTP/1.1", "Host: 127.0.0.1", f"X-XCAP-User: {USER}", *fields]
    if body:
        lines += [f"Content-Type: {LISTS}", f"Content-Length: {len(body)}"]
    return "\r\n".join([*lines, "", ""]).encode() + body


def contact_list(entries):
    """A document with this many entries."""
    each = "".join(
        f'<entry uri="sip:friend{n}@example.com"><display-name>Friend {n}</display-name></entry>'
        for n in range(entries)
    )
    text = f'<list name="friends">{each}</list>'
    return f'<resource-lists xmlns="urn:ietf:params:xml:ns:resource-lists">{text}</resource-lists>'


def connect(port, receive=None):
    """A connection, whose system takes at most so many bytes that aren't read yet."""
    line = socket.socket()
    if receive:
        line.setsockopt(socket.SOL_SOCKET, socket.SO_RCVBUF, receive)
    line.settimeout(30)
    line.connect(("127.0.0.1", port))
    return line


def length_of(reply):
    """The length of the whole reply, once its head is there."""
    head, found, _ = reply.partition(b"\r\n\r\n")
    if not found:
        return None
    for field in head.split(b"\r\n")[1:]:
        name, _, value = field.partition(b":")
        if name.lower() == b"content-length":
            return len(head) + 4 + int(value)
    return len(head) + 4


def ask(line, asked):
    """The status and the bytes of the reply, or None where the connection ended before."""
    line.sendall(asked)
    reply = b""
    while length_of(reply) is None or len(reply) < length_of(reply):
        more = line.recv(65_536)
        if not more:
            return None
        reply += more
    return int(reply[9:12]), reply


@dataclass
class Asked:
    """What came of many requests: the times that they took, in seconds, and what went wrong."""

    seconds: float
    times: list
    wrong: int

    @property
    def rate(self):
        return len(self.times) / self.seconds

    def slowest(self, of=1.0):
        """The slowest of this part of the requests, in milliseconds."""
        times = sorted(self.times)
        return times[min(len(times), max(1, round(len(times) * of))) - 1] * 1000 if times else 0.0

    def __str__(self):
        wrong = f", {self.wrong} wrong" if self.wrong else ""
        return (
            f"{self.rate:,.0f} a second, 99 of 100 within {self.slowest(0.99):.1f} ms, "
            f"the slowest {self.slowest():.1f} ms{wrong}"
        )


class _Busy:
    """A connection that asks again as soon as it is answered."""

    def __init__(self, port, asked):
        self.line = connect(port)
        self.asked = asked
        self.reply = b""

    def send(self):
        self.reply = b""
        self.since = time.perf_counter()
        self.line.sendall(self.asked)

    def read(self):
        """The time that the request took, once its reply is whole."""
        more = self.line.recv(65_536)
        if not more:
            raise ConnectionResetError
        self.reply += more
        length = length_of(self.reply)
        if length is None or len(self.reply) < length:
            return None
        return time.perf_counter() - self.since


def _ask_on(port, connections, seconds, asked, pipe):
    chosen = selectors.DefaultSelector()
    busy = [_Busy(port, asked) for _ in range(connections)]
    for one in busy:
        chosen.register(one.line, selectors.EVENT_READ, one)
    times, wrong, begun = [], 0, time.perf_counter()
    for one in busy:
        one.send()
    while time.perf_counter() < begun + seconds and chosen.get_map():
        for key, _ in chosen.select(1):
            try:
                took = key.data.read()
            except OSError:
                wrong += 1
                chosen.unregister(key.fileobj)
                continue
            if took is not None:
                times.append(took)
                wrong += key.data.reply[9:10] != b"2"
                # A connection ends after 1,000 requests.
                if b"Connection: close" in key.data.reply:
                    chosen.unregister(key.fileobj)
                    key.data.line.close()
                    key.data.line = connect(port)
                    chosen.register(key.data.line, selectors.EVENT_READ, key.data)
                key.data.send()
    pipe.send(Asked(time.perf_counter() - begun, times, wrong))


class Asking:
    """Clients that ask from now on for some seconds; `result` waits for what came of it."""

    def __init__(self, port, connections, seconds, asked=None):
        self.pipe, theirs = multiprocessing.Pipe(False)
        words = (port, connections, seconds, asked or request("GET"), theirs)
        self.process = multiprocessing.Process(target=_ask_on, args=words, daemon=True)
        self.process.start()
        theirs.close()

    def result(self):
        result = self.pipe.recv()
        self.process.join()
        return result

"""The standard streams of a run: what is fed to its input, and what its outputs take."""
import errno
import functools
import os
import selectors
import socket
import tempfile
import time

from casing.network import unsent

AT_ONCE = 65_536
DRAINING = 0.0005
MOST_TAKEN = 16_777_216
LATE = "it ran for too long"


def pipe_of(pieces):
    """An input that is a pipe, and what feeds it."""
    end, ours = os.pipe()
    os.set_blocking(ours, False)
    write, close = functools.partial(os.write, ours), functools.partial(os.close, ours)
    return end, Feeder(ours, pieces, write, close)


def packets_of(pieces, fails):
    """An input of which each read gives one piece. After the last it ends, or reads fail."""
    end, ours = socket.socketpair(socket.AF_UNIX, socket.SOCK_SEQPACKET)
    ours.setblocking(False)
    if fails:
        end.send(b"unread")
    feeder = Feeder(ours.fileno(), pieces, ours.send, ours.close)
    feeder.is_drained = (lambda: unsent(ours) == 0) if fails else (lambda: True)
    return end.detach(), feeder


def failing_of(pieces):
    """An input of which reads fail after these bytes: a socket closed with bytes unread."""
    end, ours = socket.socketpair(socket.AF_UNIX, socket.SOCK_STREAM)
    ours.setblocking(False)
    end.send(b"unread")
    return end.detach(), Feeder(ours.fileno(), pieces, ours.send, ours.close)


def input_of(run, cut):
    """The input of a run, and what feeds it."""
    given = run.input()
    fails = run.reads_fail_at is not None
    pieces = cut.pieces(given[: run.reads_fail_at] if fails else given)
    if not cut.is_whole():
        return packets_of(pieces, fails)
    return failing_of(pieces) if fails else pipe_of(pieces)


class Feeder:
    """Writes pieces as they are taken, and then closes."""

    def __init__(self, fd, pieces, write, close):
        self.fd, self.write, self.close = fd, write, close
        self.pieces = list(reversed(pieces))
        self.is_drained = lambda: True
        self.is_closed = False

    def step(self):
        """Writes what is taken at once; whether all was taken."""
        try:
            while self.pieces:
                self.take(self.write(self.pieces[-1]))
        except BlockingIOError:
            return False
        except OSError as fault:
            if fault.errno not in (errno.EPIPE, errno.ECONNRESET):
                raise
        return True

    def take(self, count):
        piece = self.pieces.pop()
        if count < len(piece):
            self.pieces.append(piece[count:])

    def end(self):
        if not self.is_closed:
            self.is_closed = True
            self.close()


class Piped:
    """An output that is a pipe, whose reader may be gone from the start."""

    def __init__(self, broken=False):
        self.fd, self.end = os.pipe()
        self.taken = bytearray()
        if broken:
            os.close(self.fd)
            self.fd = None

    def read(self):
        """Reads what came; whether there may be more."""
        piece = os.read(self.fd, AT_ONCE)
        self.taken += piece
        return bool(piece)

    def close(self):
        if self.fd is not None:
            os.close(self.fd)
            self.fd = None

    def bytes(self):
        return bytes(self.taken)


class Filed:
    """An output that is a file, that takes this many bytes, by a limit of the process."""

    def __init__(self, room, limit):
        self.file = tempfile.TemporaryFile(buffering=0)
        self.begin = limit - room
        self.fd, self.end = None, os.dup(self.file.fileno())
        os.lseek(self.end, self.begin, os.SEEK_SET)

    def bytes(self):
        self.file.seek(self.begin)
        return self.file.read()

    def close(self):
        self.file.close()


def outputs_of(run):
    """The output and the stream for errors, and the limit on files, if there is one."""
    errors_room = run.audit_room if run.errors_room is None else run.errors_room
    rooms = [room for room in (run.room, errors_room) if room is not None]
    limit = max(rooms, default=None)
    made = [
        Piped(run.broken == name) if room is None else Filed(room, limit)
        for name, room in [("output", run.room), ("errors", errors_room)]
    ]
    return made, limit


def carry(feeder, outputs, until):
    """Feeds the input and reads the outputs until these end. Why that is given up, if it is."""
    selector = selectors.DefaultSelector()
    for output in outputs:
        if output.fd is not None:
            selector.register(output.fd, selectors.EVENT_READ, output)
    if feeder.step():
        end_when_drained(feeder)
    if not feeder.is_closed:
        selector.register(feeder.fd, selectors.EVENT_WRITE, feeder)
    with selector:
        return carry_on(selector, feeder, until)


def carry_on(selector, feeder, until):
    """Does so for what is registered."""
    while selector.get_map():
        left = until - time.monotonic()
        if left <= 0:
            return LATE
        for key, _ in selector.select(left):
            if key.data is feeder:
                if feeder.step():
                    selector.unregister(feeder.fd)
                    end_when_drained(feeder)
            elif not key.data.read():
                selector.unregister(key.fd)
            elif len(key.data.taken) > MOST_TAKEN:
                return f"it wrote more than {MOST_TAKEN:,} bytes"
    return ""


def end_when_drained(feeder):
    """Closes the input, once it was read where its end is to be seen after the last byte."""
    until = time.monotonic() + 5
    while not feeder.is_drained() and time.monotonic() < until:
        time.sleep(DRAINING)
    feeder.end()

"""The loopback: addresses of a run's own, and connections as a client and as a peer."""
import array
import contextlib
import fcntl
import random
import select
import socket
import struct
import termios
import time

WRITTEN = b"127.0.0.1:8080"
AT_ONCE = 65_536
RETRY = 0.002
ARRIVING = 1
CHANCE = random.SystemRandom()


def own_address():
    """An address of the loopback that nothing uses, as long as the one in cases."""
    while True:
        host = ".".join(["127", *(str(CHANCE.randint(1, 9)) for _ in range(3))])
        port = CHANCE.randint(2_000, 9_999)
        with contextlib.suppress(OSError), socket.socket() as tried:
            tried.bind((host, port))
            return host, port


def replaced(given, address):
    """The bytes with the address in place of the one in cases."""
    return given.replace(WRITTEN, f"{address[0]}:{address[1]}".encode())


def listening(address):
    """A socket that listens at an address."""
    listener = socket.socket()
    listener.setsockopt(socket.SOL_SOCKET, socket.SO_REUSEADDR, 1)
    listener.bind(address)
    listener.listen(16)
    return listener


def connected(address, until, is_running):
    """A connection to an address, once something listens there; none where the process ended."""
    while time.monotonic() < until:
        sock = socket.socket()
        try:
            sock.connect(address)
            return at_once(sock)
        except OSError:
            sock.close()
        if not is_running():
            return None
        time.sleep(RETRY)
    return None


def unsent(sock):
    """How much of what was sent on a socket didn't arrive, or wasn't read on one of the system."""
    count = array.array("i", [0])
    fcntl.ioctl(sock, termios.TIOCOUTQ, count)
    return count[0]


def at_once(sock):
    """A connection on which each piece is sent by itself."""
    sock.setsockopt(socket.IPPROTO_TCP, socket.TCP_NODELAY, 1)
    return sock


def reset(sock):
    """Ends a connection by a reset, once all that was sent has arrived: it drops the rest."""
    until = time.monotonic() + ARRIVING
    while unsent(sock) and time.monotonic() < until:
        time.sleep(RETRY)
    sock.setsockopt(socket.SOL_SOCKET, socket.SO_LINGER, struct.pack("ii", 1, 0))
    sock.close()


class Line:
    """A connection: pieces are sent as they are taken, and what comes is kept."""

    def __init__(self, sock, until):
        self.sock, self.until = sock, until
        self.came = bytearray()
        self.is_open = True
        sock.setblocking(False)

    def send(self, pieces):
        """Sends the pieces, and reads what comes meanwhile."""
        for piece in pieces:
            while piece and self.is_open:
                piece = piece[self.send_some(piece) :]

    def send_some(self, piece):
        """How much of a piece was taken, after a wait for that or for bytes that come."""
        try:
            return self.sock.send(piece)
        except BlockingIOError:
            self.wait(writes=True)
            return 0
        except OSError:
            return len(piece)

    def wait(self, writes=False):
        """Waits until bytes come, or can be sent, and takes those that came."""
        left = max(0, self.until - time.monotonic())
        written = [self.sock] if writes else []
        can_read, can_write, _ = select.select([self.sock], written, [], left)
        if can_read:
            self.take()
        if not can_read and not can_write:
            self.is_open = False

    def take(self):
        """Takes what came, which is nothing where the connection ended."""
        try:
            piece = self.sock.recv(AT_ONCE)
        except BlockingIOError:
            return
        except OSError:
            piece = b""
        self.came += piece
        self.is_open = bool(piece)

    def read(self, most=None):
        """Reads until this many bytes came, or the connection ended."""
        while self.is_open and (most is None or len(self.came) < most):
            self.wait()

    def half_close(self):
        with contextlib.suppress(OSError):
            self.sock.shutdown(socket.SHUT_WR)

    def close(self):
        self.sock.close()

    def reset(self):
        reset(self.sock)

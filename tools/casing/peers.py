"""The peers of a client that a run is: a scripted one, and a server that the program is."""
import subprocess
import threading
import time

from casing import network
from casing.pieces import WHOLE

QUIET = 0.05
MOST_CONNECTIONS = "1000"


class Peer(threading.Thread):
    """Takes the connections of a run as a peer, gives its replies, and keeps what came."""

    def __init__(self, run, cut, address, until):
        super().__init__(daemon=True)
        self.cut, self.address, self.until = cut, address, until
        most = len(run.peers) if run.connect_fails_at is None else run.connect_fails_at - 1
        self.exchanges = run.peers[:most]
        self.came = [b"" for _ in run.peers]
        self.is_over = False
        self.listener = network.listening(address) if self.exchanges else None

    def run(self):
        """Takes the connections, and listens no more after the last."""
        for index, exchange in enumerate(self.exchanges):
            sock = self.next()
            if sock is None:
                return
            if index + 1 == len(self.exchanges):
                self.listener.close()
            line = network.Line(sock, self.until)
            self.answer(line, exchange)
            self.came[index] = bytes(line.came)

    def next(self):
        """The next connection; none where the run is over."""
        self.listener.settimeout(QUIET)
        while not self.is_over and time.monotonic() < self.until:
            try:
                return network.at_once(self.listener.accept()[0])
            except OSError:
                continue
        return None

    def answer(self, line, exchange):
        """Reads as much as has to come, gives the reply, and reads what comes beyond."""
        line.read(len(network.replaced(exchange.wanted, self.address)))
        given = network.replaced(exchange.given, self.address)
        line.send(self.cut.pieces(given[: exchange.reset_after]))
        if exchange.reset_after is not None:
            line.reset()
            return
        line.half_close()
        line.read()
        line.close()

    def end(self):
        self.is_over = True
        self.join()
        if self.listener:
            self.listener.close()


class Served:
    """The program as a server: the bytes of a run are served to it, and it is the peer."""

    def __init__(self, program, run, address, until):
        self.given = network.replaced(run.texts["served input"], address)
        self.address, self.until = address, until
        at = f"{address[0]}:{address[1]}"
        root = network.replaced(run.words.split(" ")[2].encode(), address).decode()
        self.process = subprocess.Popen(
            [program, "serve", at, root, MOST_CONNECTIONS],
            stdin=subprocess.DEVNULL,
            stdout=subprocess.DEVNULL,
            stderr=subprocess.DEVNULL,
        )
        self.came = []

    def start(self):
        """Serves the bytes."""
        sock = network.connected(self.address, self.until, lambda: self.process.poll() is None)
        if sock is None:
            return
        line = network.Line(sock, self.until)
        line.send(WHOLE.pieces(self.given))
        line.half_close()
        line.read()
        line.close()

    def end(self):
        self.process.kill()
        self.process.wait()

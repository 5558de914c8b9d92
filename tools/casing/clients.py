"""The client of a server that a run is: one connection after the other."""
import os
import resource
import threading
import time

from casing import network

# The descriptors of a server that listens: its streams, and a socket.
LISTENING = 4


class Client(threading.Thread):
    """Makes the connections of a run, and keeps what came on each."""

    def __init__(self, run, cut, address, process, until):
        super().__init__(daemon=True)
        self.run_of, self.cut, self.address = run, cut, address
        self.process, self.until = process, until
        self.came = [b"" for _ in run.connections]

    def run(self):
        """Makes the connections; those that can't be made are answered by nothing."""
        for index, exchange in enumerate(self.run_of.connections):
            sock = network.connected(self.address, self.until, self.is_running)
            if sock is None:
                return
            line = network.Line(sock, self.until)
            if self.run_of.next_fails_at == index + 2:
                self.forbid_more()
            self.converse(line, exchange)
            self.came[index] = bytes(line.came)

    def end(self):
        self.join()

    def is_running(self):
        return self.process.poll() is None

    def converse(self, line, exchange):
        """Sends what comes on a connection, and reads the replies."""
        given = network.replaced(exchange.given, self.address)
        if exchange.reset_after is not None:
            self.break_off(line, exchange, given[: exchange.reset_after], b"")
        elif exchange.lost_after is not None:
            place = exchange.lost_after
            self.break_off(line, exchange, given[:place], given[place:])
        else:
            line.send(self.cut.pieces(given))
            line.half_close()
            line.read()
            line.close()

    def break_off(self, line, exchange, first, rest):
        """Reads the replies to what is sent first, sends the rest, and resets the connection."""
        line.send(self.cut.pieces(first))
        line.read(len(network.replaced(exchange.wanted, self.address)))
        line.send([rest])
        line.reset()

    def forbid_more(self):
        """Leaves the server no descriptor for the next connection, once it has this one."""
        held = f"/proc/{self.process.pid}/fd"
        while time.monotonic() < self.until and len(os.listdir(held)) <= LISTENING:
            time.sleep(network.RETRY)
        _, hard = resource.prlimit(self.process.pid, resource.RLIMIT_NOFILE)
        resource.prlimit(self.process.pid, resource.RLIMIT_NOFILE, (LISTENING, hard))

"""Deadlines, and what a peer gets of a reply after which its connection ends."""
import socket
import time

from hosting.clients import ask, connect, request
from hosting.crowds import HALF, put_list
from hosting.server import Host

LARGE = 300_000


def ends_after(line, most):
    """After how many seconds the server ends the connection, or None if it doesn't."""
    line.settimeout(most)
    begun = time.monotonic()
    try:
        line.recv(1)
    except socket.timeout:
        return None
    except OSError:
        pass
    return time.monotonic() - begun


def deadlines(report, program):
    """How long it waits for a peer."""
    report.part("Silent peers")
    with Host(program) as host:
        put_list(host.port)
        with connect(host.port) as line:
            line.sendall(HALF)
            took = ends_after(line, 15)
            there = took is not None and 9 < took < 13
            report.holds("one within a request is dropped after 10 s", there, f"{took}")
        with connect(host.port) as line:
            ask(line, request("GET"))
            took = ends_after(line, 70)
            there = took is not None and 55 < took < 66
            report.holds("one between two requests is dropped after 60 s", there, f"{took}")


def last_replies(report, program):
    """A reply to a request that is too long, of which more comes."""
    report.part("Replies after which the connection ends")
    with Host(program) as host:
        arrived = sum(_gets_413(host.port) for _ in range(50))
        report.holds("a 413 arrives though the body isn't read", arrived == 50, f"{arrived} of 50")


def _gets_413(port):
    with connect(port) as line:
        head = request("PUT", body=b"x" * LARGE)
        try:
            line.sendall(head)
        except OSError:
            pass
        try:
            return line.recv(65_536)[9:12] == b"413"
        except OSError:
            return False

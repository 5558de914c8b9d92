"""Crowds of connections: what 50 busy clients see of them."""
import multiprocessing
import socket
import time

from hosting.clients import Asking, ask, connect, contact_list, request
from hosting.server import Host

BUSY = 50
SECONDS = 5
# The slowest request of the busy clients, in milliseconds, and the least part of the rate of one
# connection that they have together.
SLOWEST = 5
LEAST_PART = 0.9
HALF = b"GET /xcap/resource-lists HTTP/1.1\r\nX-XC"


def put_list(port, entries=20):
    with connect(port) as line:
        status, _ = ask(line, request("PUT", body=contact_list(entries).encode()))
    return status


def alone(report, program):
    """The rate of one connection, and that of 50."""
    report.part(f"Nobody else: the GET of a list of 20 entries, for {SECONDS} s")
    with Host(program) as host:
        report.holds("the list is put", put_list(host.port) == 201)
        one = Asking(host.port, 1, SECONDS).result()
        many = Asking(host.port, BUSY, SECONDS).result()
        report.note(f"one connection: {one}")
        enough = many.rate >= LEAST_PART * one.rate and not many.wrong
        report.holds(f"{BUSY} connections have 0.9 of that rate together", enough, str(many))


def silent(report, program):
    """A thousand connections that are idle, or silent within a request."""
    report.part("1,000 silent connections, half of them within a request")
    with Host(program, "connections=1100") as host:
        put_list(host.port)
        free = host.memory()
        lines = [connect(host.port) for _ in range(1000)]
        for line in lines[:500]:
            line.sendall(HALF)
        time.sleep(1)
        spent = host.processor_time()
        report.note(f"they take {(host.memory() - free) / 1e6:.1f} MB")
        time.sleep(2)
        report.note(f"and {(host.processor_time() - spent) / 2:.3f} of a processor")
        seen = Asking(host.port, BUSY, SECONDS).result()
        report.holds(f"{BUSY} busy clients are answered", not seen.wrong, str(seen))
        for line in lines:
            line.close()


def _flood(port, seconds, pipe):
    until, made = time.monotonic() + seconds, 0
    while time.monotonic() < until:
        try:
            socket.create_connection(("127.0.0.1", port), 1).close()
            made += 1
        except OSError:
            pass
    pipe.send(made)


def flood(report, program):
    """Connections that come and go as fast as one process makes them."""
    report.part("A flood of connections")
    with Host(program) as host:
        put_list(host.port)
        pipe, theirs = multiprocessing.Pipe(False)
        words = (host.port, SECONDS + 1, theirs)
        process = multiprocessing.Process(target=_flood, args=words, daemon=True)
        process.start()
        seen = Asking(host.port, BUSY, SECONDS).result()
        made = pipe.recv()
        report.note(f"{made / (SECONDS + 1):,.0f} connections a second came and went")
        report.holds(f"{BUSY} busy clients are answered", not seen.wrong, str(seen))
        report.holds("it goes on", host.is_there())


def slow_readers(report, program):
    """Clients that ask for a large document and read it slowly."""
    report.part("50 clients that read 220 KB slowly")
    with Host(program) as host:
        put_list(host.port, 2_500)
        free = host.memory()
        lines = [connect(host.port, 4_096) for _ in range(50)]
        for line in lines:
            line.sendall(request("GET"))
        time.sleep(0.5)
        path = "/xcap/xcap-caps/global/index"
        seen = Asking(host.port, BUSY, SECONDS, request("GET", path)).result()
        report.note(f"they take {(host.memory() - free) / 1e6:.1f} MB")
        report.holds(f"{BUSY} busy clients are answered", not seen.wrong, str(seen))
        whole = sum(_reads_whole(line) for line in lines)
        report.holds("each slow one gets its whole reply then", whole == 50, f"{whole}")


def _reads_whole(line):
    try:
        status, _ = ask(line, b"")
    except (OSError, TypeError):
        return False
    finally:
        line.close()
    return status == 200


def burst(report, program):
    """Many new connections at one moment."""
    report.part("300 connections that begin at one moment")
    with Host(program) as host:
        put_list(host.port)
        lines = [socket.socket() for _ in range(300)]
        for line in lines:
            line.setblocking(False)
            line.connect_ex(("127.0.0.1", host.port))
        begun = time.perf_counter()
        answered = 0
        for line in lines:
            line.settimeout(10)
            answered += _is_answered(line)
        took = (time.perf_counter() - begun) * 1000
        report.holds("each is answered", answered == 300, f"{answered}, in {took:.0f} ms")


def _is_answered(line):
    try:
        answer = ask(line, request("GET"))
    except OSError:
        return False
    finally:
        line.close()
    return answer is not None and answer[0] == 200


def no_descriptors(report, program):
    """More clients than the system gives descriptors for."""
    report.part("No descriptor is left: 64 in all, 100 clients")
    with Host(program, descriptors=64) as host:
        put_list(host.port)
        lines = [connect(host.port) for _ in range(100)]
        time.sleep(0.5)
        spent = host.processor_time()
        time.sleep(1)
        busy = host.processor_time() - spent
        report.holds("it waits without turning in a circle", busy < 0.5, f"{busy:.2f} s of 1 s")
        answered = sum(_is_answered(line) for line in lines)
        report.note(f"{answered} of them are answered, as the idlest go for those that come")
        late = connect(host.port)
        report.holds("one that comes after them is answered", _is_answered(late))
        report.holds("it goes on", host.is_there())


def full(report, program):
    """More clients than it has places for."""
    report.part("All places are taken: 4 in all")
    with Host(program, "connections=4") as host:
        put_list(host.port)
        lines = [connect(host.port) for _ in range(4)]
        for line in lines:
            ask(line, request("GET"))
        late = connect(host.port)
        report.holds("a fifth is answered, as the idlest goes", _is_answered(late))
        for line in lines:
            line.close()

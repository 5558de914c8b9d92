"""Clients that are silent or slow, and what is too much."""
import base64
import concurrent.futures
import time

from deployment.asking import Client, LISTS, connected, friends, home, seconds_until_closed
from deployment.stage import HOST, PASSWORD

LARGE = friends(*(f"friend{n}" for n in range(2_000)))


def head(method, name, *fields):
    secret = base64.b64encode(f"joe:{PASSWORD}".encode()).decode()
    known = (f"Host: {HOST}", f"Authorization: Basic {secret}")
    return "\r\n".join([f"{method} /xcap{name} HTTP/1.1", *known, *fields, "", ""]).encode()


def silent(stage):
    """says nothing"""
    return connected(stage)


def half_a_head(stage):
    """stops in the middle of a head"""
    line = connected(stage)
    line.sendall(head("GET", home("joe"))[:40])
    return line


def half_a_body(stage):
    """stops in the middle of a body"""
    line = connected(stage)
    fields = (f"Content-Type: {LISTS}", "Content-Length: 1000")
    line.sendall(head("PUT", home("joe"), *fields) + b"<resource-lists")
    return line


def reads_nothing(stage):
    """takes no reply"""
    line = connected(stage, room=4_096)
    line.sendall(head("GET", home("joe")))
    return line


def byte_by_byte(stage):
    """Puts a list, a byte of it at a time, and returns the status and the seconds that it took."""
    began = time.monotonic()
    body = friends("bob").encode()
    with connected(stage) as line:
        fields = (f"Content-Type: {LISTS}", f"Content-Length: {len(body)}", "Connection: close")
        line.sendall(head("PUT", home("joe"), *fields))
        for byte in body:
            line.sendall(bytes([byte]))
            time.sleep(0.05)
        status = int(line.recv(65_536).split()[1])
    return status, time.monotonic() - began


def others(report, stage):
    """What another user finds meanwhile. The first request comes after the large replies."""
    ann = Client(stage, "ann")
    first, *answers = [ann.put(home("ann"), friends(f"friend{n}")) for n in range(21)]
    report.holds("another user's request", first.status == 200, f"{first.status}")
    report.each("20 more of his", {it.status for it in answers}, 200)
    longest = max(it.seconds for it in answers)
    report.holds("they wait for nobody", longest < 3, f"the slowest took {longest:.2f} s")


def slow_clients(report, stage):
    report.part("Clients that are silent or slow don't stop others")
    joe = Client(stage, "joe")
    report.status("joe puts a list of 2,000 entries", joe.put(home("joe"), LARGE), 200)
    kinds = (silent, half_a_head, half_a_body)
    lines = {kind: [kind(stage) for _ in range(25)] for kind in kinds}
    lines[reads_nothing] = [reads_nothing(stage) for _ in range(5)]
    report.note(
        "now 25 clients are silent, 25 stop in a head, 25 in a body, 5 take no reply, and one sends"
        " a byte at a time"
    )
    with concurrent.futures.ThreadPoolExecutor(len(kinds) + 1) as pool:
        waits = {kind: pool.submit(seconds_until_closed, lines[kind][-1]) for kind in kinds}
        slow = pool.submit(byte_by_byte, stage)
        others(report, stage)
        status, seconds = slow.result()
        seen = f"{status} after {seconds:.0f} s"
        report.holds("the one that sends a byte at a time", status == 200, seen)
        for kind, wait in waits.items():
            until = wait.result()
            seen = f"after {until:.0f} s" if until >= 0 else "never"
            report.holds(f"the proxy closes one that {kind.__doc__}", 0 <= until < 30, seen)
    for line in (it for kind in lines.values() for it in kind):
        line.close()


PROXY, XCAPD = "the proxy", "xcapd"


def limits(report, stage):
    report.part("The limits are the proxy's")
    joe = Client(stage, "joe")

    def says(who, status, what, answer):
        answered = PROXY if stage.last_request()[1] == "-" else XCAPD
        is_so = (answer.status, answered) == (status, who)
        report.holds(what, is_so, f"{answer.status}, by {answered}")

    def asks(query="", *fields):
        return joe.get(home("joe") + query, *fields)

    def fields(number, length):
        return [f"X-Field-{n}: {'a' * length}" for n in range(number)]

    most = friends("bob").ljust(262_144)
    chunked = "Transfer-Encoding: chunked"
    says(XCAPD, 200, "a body of 262,144 bytes", joe.put(home("joe"), most))
    says(PROXY, 413, "a body of 262,145 bytes", joe.put(home("joe"), most + " "))
    says(PROXY, 413, "the same in chunks", joe.put(home("joe"), most + " ", chunked))
    says(XCAPD, 400, "an address of 13,000 bytes that means nothing", asks(f"?{'a' * 13_000}"))
    says(PROXY, 414, "an address of 15,000 bytes", asks(f"?{'a' * 15_000}"))
    says(XCAPD, 200, "a head of 13 fields of 1,000 bytes", asks("", *fields(13, 1_000)))
    says(PROXY, 400, "a head of 15 such fields", asks("", *fields(15, 1_000)))
    says(XCAPD, 400, "a head of 70 fields, which nginx doesn't count", asks("", *fields(70, 1)))

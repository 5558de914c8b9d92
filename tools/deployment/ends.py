"""How the program ends, and what it does where the system fails it."""
import os
import signal
import socket
import struct
import subprocess
import time

from deployment.asking import LISTS, curl, friends, home, sip
from deployment.stage import free_port

ME = f"X-XCAP-User: {sip('joe')}"


def put_directly(port, *more):
    """A PUT past the proxy."""
    to = f"http://127.0.0.1:{port}/xcap{home('joe')}"
    fields = ("-H", ME, "-H", f"Content-Type: {LISTS}")
    return curl("-X", "PUT", *fields, *more, to, sent=friends("bob"))


def ended(report, what, process, status, words):
    """It ends by itself with this status and these words."""
    told, _ = process.communicate(timeout=20)
    seen = f"{process.returncode}, {told.strip()!r}"
    report.holds(what, process.returncode == status and told == words, seen)


def commands(report, stage):
    report.part("How it ends")
    told = {"stdout": subprocess.PIPE, "stderr": subprocess.STDOUT, "text": True}
    helped = stage.start([stage.program, "--help"], **told)
    line, _ = helped.communicate(timeout=20)
    is_usage = helped.returncode == 2 and line.startswith("usage: xcapd ")
    report.holds("--help", is_usage, f"{helped.returncode}, {line.strip()!r}")
    with socket.create_server(("127.0.0.1", 0)) as taken:
        address = f"127.0.0.1:{taken.getsockname()[1]}"
        words = [stage.program, "serve", address, "http://xcap.example.com/xcap", "1"]
        ended(report, "a port that is taken", stage.start(words, **told), 5, "network failed\n")
    port = free_port()
    one = stage.serve(port, subprocess.DEVNULL, count=1)
    put_directly(port)
    ended(report, "after as many connections as it was told", one, 0, "served 1\n")


def by_a_signal(report, stage):
    port = free_port()
    served = stage.serve(port, subprocess.DEVNULL)
    waiting = socket.create_connection(("127.0.0.1", port))
    began = time.monotonic()
    status = stage.end(served)
    seconds = time.monotonic() - began
    at_once = status == -signal.SIGTERM and seconds < 1
    seen = f"{signal.Signals(-status).name} after {seconds:.2f} s" if status < 0 else f"{status}"
    report.holds("SIGTERM ends it, in the middle of a connection too", at_once, seen)
    waiting.close()
    again = stage.serve(port, subprocess.DEVNULL)
    report.holds("its port is free at once", again.poll() is None)
    stage.end(again)


def failing_audits(report, stage):
    report.part("Where its audit can't be written")
    port = free_port()
    with open("/dev/full", "w") as full:
        served = stage.serve(port, full)
    report.status("a full disk: a list is put", put_directly(port), 201)
    report.status("and put again", put_directly(port), 200)
    report.holds("it goes on without an audit, and tells nobody", served.poll() is None)
    stage.end(served)
    port, (reader, writer) = free_port(), os.pipe()
    served = stage.serve(port, writer)
    os.close(reader)
    os.close(writer)
    report.status("a pipe whose reader is gone: a list is put", put_directly(port), 201)
    report.holds("it goes on too", served.poll() is None)
    stage.end(served)


def reset(port):
    """A connection that is broken before it is taken, since another one is served."""
    line = socket.create_connection(("127.0.0.1", port))
    line.setsockopt(socket.SOL_SOCKET, socket.SO_LINGER, struct.pack("ii", 1, 0))
    line.close()


def without_a_proxy(report, stage):
    report.part("Why a proxy stands in front")
    port = free_port()
    served = stage.serve(port, subprocess.DEVNULL)
    with socket.create_connection(("127.0.0.1", port)) as silent:
        silent.sendall(b"GET ")
        waits = put_directly(port, "-m", "3").status == 0
        seen = "no reply in 3 s" if waits else "a reply"
        report.holds("while a client of its own port is silent, others wait", waits, seen)
        for _ in range(50):
            reset(port)
        began = time.monotonic()
        answer = put_directly(port, "-m", "20")
        seconds = time.monotonic() - began
        seen = f"{answer.status} after {seconds:.1f} s more"
        what = "it is dropped 10 s after its last byte, and they are served, after 50 that broke"
        report.holds(what, answer.status == 200 and seconds < 10, seen)
    stage.end(served)

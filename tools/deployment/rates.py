"""How fast it is, by wrk where that is there."""
import base64
import re
import shutil

from deployment.asking import entry, sip
from deployment.stage import HOST, PASSWORD

RATE = re.compile(r"Requests/sec: +([\d.]+)")
SLOWEST = re.compile(r"99% +(\S+)")
WRONG = re.compile(r"Non-2xx.*|Socket errors.*")


def measured(report, stage, what, to, *fields):
    words = [word for field in fields for word in ("-H", field)]
    told = stage.run("wrk", "-t2", "-c20", "-d5s", "--latency", *words, to)
    wrong, each = WRONG.search(told), SLOWEST.search(told).group(1)
    seen = f"{float(RATE.search(told).group(1)):.0f} a second, 99 of 100 within {each}"
    report.holds(what, not wrong, f"{wrong.group(0)}, {seen}" if wrong else seen)


def rates(report, stage, port):
    """What wrk measures of the GET of an entry, through the proxy and at a process of xcapd."""
    report.part("How fast it is: the GET of an entry, asked over 20 connections for 5 s")
    if not shutil.which("wrk"):
        report.note("wrk isn't there, so nothing was measured")
        return
    path = f"/xcap{entry('joe', 'bob')}"
    secret = base64.b64encode(f"joe:{PASSWORD}".encode()).decode()
    fields = (f"Host: {HOST}", f"Authorization: Basic {secret}")
    to = f"https://127.0.0.1:{stage.port}{path}"
    measured(report, stage, "through the proxy, by a password", to, *fields)
    fields = (f"X-XCAP-User: {sip('joe')}", "Connection: close")
    to = f"http://127.0.0.1:{port}{path}"
    measured(report, stage, "past the proxy, a connection each", to, *fields)

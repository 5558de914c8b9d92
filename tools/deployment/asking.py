"""Requests by curl, and clients that are slow on purpose."""
import contextlib
import dataclasses
import re
import socket
import ssl
import subprocess
import time

from deployment.stage import HOST, PASSWORD, ROOT

LISTS = "application/resource-lists+xml"
ELEMENT = "application/xcap-el+xml"
NAMESPACE = "urn:ietf:params:xml:ns:resource-lists"
# A head that a further one follows: of 100 (Continue), or of the first 401 of Digest.
INTERIM = re.compile(r"\AHTTP/[\d.]+ (?:100|401)(?s:.*?)\n\n(?=HTTP/)")


@dataclasses.dataclass
class Answer:
    status: int
    seconds: float
    head: str
    body: str


def sip(name):
    return f"sip:{name}@example.com"


def home(name, usage="resource-lists"):
    return f"/{usage}/users/{sip(name)}/index"


def friends(*names):
    entries = "".join(f'<entry uri="{sip(it)}"/>' for it in names)
    shown = f'<list name="friends">{entries}</list>'
    return f'<resource-lists xmlns="{NAMESPACE}">{shown}</resource-lists>'


def entry(name, of):
    """The address of an entry in somebody's list of friends."""
    step = f"list%5B@name=%22friends%22%5D/entry%5B@uri=%22{sip(of)}%22%5D"
    return f"{home(name)}/~~/resource-lists/{step}"


def curl(*words, sent=None):
    told = "%{http_code} %{time_total}"
    command = ["curl", "-s", "-g", "-i", "-m", "30", "-w", f"\n{told}", *words]
    if sent is not None:
        command += ["--data-binary", "@-"]
    ran = subprocess.run(command, input=sent, stdout=subprocess.PIPE, text=True)
    reply, _, told = ran.stdout.rpartition("\n")
    status, seconds = told.split()
    reply = INTERIM.sub("", reply.replace("\r\n", "\n"))
    head, _, body = reply.partition("\n\n")
    return Answer(int(status), float(seconds), head, body)


class Client:
    """A client of the proxy, known by a password, by a certificate, or not at all."""

    def __init__(self, stage, name=None, certificate=None, password=PASSWORD, how=()):
        self.stage = stage
        self.credentials = [*how, "-u", f"{name}:{password}"] if name else []
        self.port = stage.reader_port if certificate == "reader" else stage.port
        if certificate:
            kept = f"{stage.folder}/{certificate}"
            self.credentials = ["--cert", f"{kept}.pem", "--key", f"{kept}.key"]

    def ask(self, method, path, *fields, media=None, body=None):
        fields = [*fields, f"Content-Type: {media}"] if media else [*fields]
        given = [word for field in fields for word in ("-H", field)]
        how = ["--head"] if method == "HEAD" else ["-X", method]
        to = ["--connect-to", f"{HOST}:443:127.0.0.1:{self.port}"]
        trusted = ["--cacert", f"{self.stage.folder}/clients.pem"]
        return curl(*how, *to, *trusted, *self.credentials, *given, ROOT + path, sent=body)

    def get(self, path, *fields):
        return self.ask("GET", path, *fields)

    def put(self, path, body, *fields, media=LISTS):
        return self.ask("PUT", path, *fields, media=media, body=body)

    def delete(self, path, *fields):
        return self.ask("DELETE", path, *fields)


def trusting(stage):
    return ssl.create_default_context(cafile=stage.folder / "clients.pem")


def connected(stage, room=None):
    """A connection to the proxy over which TLS has begun, perhaps with little room for replies."""
    line = socket.socket()
    if room:
        line.setsockopt(socket.SOL_SOCKET, socket.SO_RCVBUF, room)
    line.settimeout(30)
    line.connect(("127.0.0.1", stage.port))
    return trusting(stage).wrap_socket(line, server_hostname=HOST)


def seconds_until_closed(line, within=30):
    """How long the other side keeps a connection open; -1: longer than it was waited for."""
    began = time.monotonic()
    line.settimeout(within)
    with contextlib.suppress(ConnectionError, ssl.SSLError, TimeoutError):
        while line.recv(65_536):
            pass
    waited = time.monotonic() - began
    return waited if waited < within else -1

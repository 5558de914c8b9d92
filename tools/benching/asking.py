"""The requests that are measured, and a client that makes them one after the other."""
import dataclasses
import socket

USER = "sip:joe@example.com"
DOCUMENT = f"/xcap/resource-lists/users/{USER}/index"
NAMESPACE = "urn:ietf:params:xml:ns:resource-lists"
LISTS = "application/resource-lists+xml"
ELEMENT = "application/xcap-el+xml"
# xcapd closes a connection after this many requests.
MOST_REQUESTS = 1_000


@dataclasses.dataclass
class Request:
    """A request that is made again and again; those before it make what it asks for."""

    what: str
    bytes: bytes
    before: list[bytes]


def written(method, path, media=None, body=""):
    head = [f"{method} {path} HTTP/1.1", "Host: 127.0.0.1", f"X-XCAP-User: {USER}"]
    if media:
        head.append(f"Content-Type: {media}")
    head.append(f"Content-Length: {len(body)}")
    return ("\r\n".join(head) + "\r\n\r\n" + body).encode()


def entry(number, name="Friend"):
    shown = f"<display-name>{name} {number:05}</display-name>"
    return f'<entry uri="sip:friend{number:05}@example.com">{shown}</entry>'


def contact_list(count):
    entries = "".join(entry(number) for number in range(count))
    return f'<resource-lists xmlns="{NAMESPACE}"><list name="l">{entries}</list></resource-lists>'


def address(number):
    step = f"entry%5B@uri=%22sip:friend{number:05}@example.com%22%5D"
    return f"{DOCUMENT}/~~/resource-lists/list%5B@name=%22l%22%5D/{step}"


def requests(count):
    """The requests for a list with this many entries."""
    put = written("PUT", DOCUMENT, LISTS, contact_list(count))
    middle = count // 2
    renamed = written("PUT", address(middle), ELEMENT, entry(middle, "Renamed"))
    return [
        Request("PUT of the list over itself", put, [put]),
        Request("GET of the list", written("GET", DOCUMENT), [put]),
        Request("GET of an entry in the middle", written("GET", address(middle)), [put]),
        Request("PUT of that entry over itself", renamed, [put]),
    ]


class Client:
    """It makes requests over a connection, and over a new one where the server has closed it."""

    def __init__(self, port):
        self.port = port
        self.line = None
        self.made = 0

    def __enter__(self):
        return self

    def __exit__(self, *_):
        self.close()

    def close(self):
        if self.line:
            self.line.close()
        self.line = None

    def connect(self):
        self.line = socket.create_connection(("127.0.0.1", self.port), timeout=600)
        self.line.setsockopt(socket.IPPROTO_TCP, socket.TCP_NODELAY, 1)
        self.made = 0

    def ask(self, request):
        """The status of the reply, which is read whole."""
        if self.line is None:
            self.connect()
        self.line.sendall(request)
        head, _, body = self.until_head().partition(b"\r\n\r\n")
        lines = head.lower().split(b"\r\n")
        length = next((int(it[15:]) for it in lines if it.startswith(b"content-length:")), 0)
        missing = length - len(body)
        while missing > 0:
            missing -= len(self.more())
        self.made += 1
        if b"connection: close" in lines or self.made == MOST_REQUESTS:
            self.close()
        return int(head.split(b" ", 2)[1])

    def until_head(self):
        read = b""
        while b"\r\n\r\n" not in read:
            read += self.more()
        return read

    def more(self):
        piece = self.line.recv(1 << 18)
        if not piece:
            raise ConnectionError("the server closed the connection within a reply")
        return piece

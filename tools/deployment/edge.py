"""What no clause says of the calls of the system: where the program listens and connects, and which
socket is which connection. What the kernel knows of its sockets stands in /proc."""
import pathlib
import re
import socket
import struct
import subprocess
import time

from deployment.stage import free_port

LISTENING, ESTABLISHED = 0x0A, 0x01
GET = b"GET /xcap/resource-lists/users/joe/%b HTTP/1.1\r\nHost: h\r\nX-XCAP-User: joe\r\n\r\n"


def address(text):
    """An address of /proc/net/tcp, such as 0100007F:1F90."""
    host, port = text.split(":")
    return socket.inet_ntoa(struct.pack("<I", int(host, 16))), int(port, 16)


def sockets_of(process):
    """The TCP sockets of a process: the state, the local and the remote address of each."""
    folder = pathlib.Path(f"/proc/{process.pid}/fd")
    links = [str(it.readlink()) for it in folder.iterdir()]
    inodes = {it[1] for link in links if (it := re.fullmatch(r"socket:\[(\d+)\]", link))}
    rows = [row.split() for row in pathlib.Path("/proc/net/tcp").read_text().splitlines()[1:]]
    mine = [row for row in rows if row[9] in inodes]
    return [(int(row[3], 16), address(row[1]), address(row[2])) for row in mine]


def those(process, state):
    return [it for it in sockets_of(process) if it[0] == state]


def comes_to(process, state, wanted):
    """Whether the process soon has just these remote addresses in a state."""
    for _ in range(50):
        if [remote for _, _, remote in those(process, state)] == wanted:
            return True
        time.sleep(0.02)
    return False


def listens_there_alone(report, port, served):
    here = ("127.0.0.1", port)
    only = [local for _, local, _ in those(served, LISTENING)] == [here]
    report.holds("the server listens at the address that it was told, and at no other", only)
    with socket.socket() as tried:
        refused = tried.connect_ex(("127.0.0.2", port)) != 0
    report.holds("another address of the machine refuses connections at its port", refused)


def one_socket_a_connection(report, port, served):
    for name in (b"first", b"second"):
        with socket.create_connection(("127.0.0.1", port)) as line:
            own = comes_to(served, ESTABLISHED, [line.getsockname()])
            line.sendall(GET % name)
            answered = line.recv(65_536).startswith(b"HTTP/1.1 404 ")
            what = f"the {name.decode()} connection has a socket of its own, and its reply comes there"
            report.holds(what, own and answered)
    report.holds("no socket is left of a connection that ended", comes_to(served, ESTABLISHED, []))


def connects_there_alone(report, stage):
    """Two listeners have one port at two addresses; the client is told one of them."""
    with socket.create_server(("127.0.0.1", 0)) as other:
        port = other.getsockname()[1]
        with socket.create_server(("127.0.0.2", port)) as told:
            root = f"http://127.0.0.2:{port}/xcap"
            words = [stage.program, "fetch", "joe", root, "resource-lists/users/joe/index"]
            asking = stage.start(words, stdout=subprocess.DEVNULL, stderr=subprocess.DEVNULL)
            told.settimeout(5)
            with told.accept()[0] as line:
                asked = line.recv(65_536).startswith(b"GET /xcap/resource-lists/users/joe/index ")
                alone = len(those(asking, ESTABLISHED)) == 1
            other.settimeout(0.2)
            try:
                other.accept()
                elsewhere = True
            except TimeoutError:
                elsewhere = False
    what = "the client connects to the address of its root, once, and sends its request there"
    report.holds(what, asked and alone and not elsewhere)


def sockets(report, stage):
    report.part("The calls of the system")
    port = free_port()
    served = stage.serve(port, subprocess.DEVNULL)
    listens_there_alone(report, port, served)
    one_socket_a_connection(report, port, served)
    stage.end(served)
    connects_there_alone(report, stage)

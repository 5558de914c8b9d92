"""A folder with certificates and users, and the processes that are tried in it."""
import hashlib
import pathlib
import signal
import socket
import subprocess
import time

from deployment import proxies

TOP = pathlib.Path(__file__).resolve().parent.parent.parent
HOST = "xcap.example.com"
ROOT = f"https://{HOST}/xcap"
PASSWORD = "a password"
USERS = ["joe", "ann", *(f"user{n}" for n in range(20)), "joe@example.com"]


def free_port():
    with socket.create_server(("127.0.0.1", 0)) as found:
        return found.getsockname()[1]


def is_open(port):
    with socket.socket() as tried:
        tried.settimeout(1)
        return tried.connect_ex(("127.0.0.1", port)) == 0


class Stage:
    """What is tried. Every process that it starts has ended when its block has."""

    def __init__(self, folder, program):
        self.folder = pathlib.Path(folder)
        # nginx's workers read here, and may be of another user.
        self.folder.chmod(0o755)
        self.program = pathlib.Path(program).resolve()
        self.started = []
        self.proxy = None
        self.port = self.reader_port = None
        self.users = USERS
        self.free_port = free_port

    def __enter__(self):
        return self

    def __exit__(self, *_):
        for process in self.started:
            self.end(process)

    # ---- what is in the folder

    def run(self, *words, **options):
        streams = {"stdout": subprocess.PIPE, "stderr": subprocess.STDOUT, "text": True}
        ran = subprocess.run(words, cwd=self.folder, **streams, **options)
        if ran.returncode:
            raise SystemExit(f"{' '.join(words)}: {ran.stdout}")
        return ran.stdout

    def make_authority(self, name):
        new = ("-x509", "-newkey", "rsa:2048", "-nodes", "-days", "2", "-subj", f"/CN={name}")
        self.run("openssl", "req", *new, "-keyout", f"{name}.key", "-out", f"{name}.pem")

    def make_certificate(self, name, subject, authority):
        new = ("-newkey", "rsa:2048", "-nodes", "-subj", subject)
        self.run("openssl", "req", *new, "-keyout", f"{name}.key", "-out", f"{name}.csr")
        (self.folder / "names").write_text(f"subjectAltName=DNS:{HOST}\n")
        by = ("-CA", f"{authority}.pem", "-CAkey", f"{authority}.key", "-CAcreateserial")
        signed = ("-days", "2", "-extfile", "names", "-out", f"{name}.pem")
        self.run("openssl", "x509", "-req", "-in", f"{name}.csr", *by, *signed)

    def make_certificates(self):
        for authority in ("clients", "strangers", "readers"):
            self.make_authority(authority)
        self.make_certificate("server", f"/CN={HOST}", "clients")
        both = ((self.folder / f"server.{it}").read_text() for it in ("pem", "key"))
        (self.folder / "haproxy.pem").write_text("".join(both))
        self.make_certificate("joe", "/CN=joe", "clients")
        self.make_certificate("reader", "/CN=a list server", "readers")
        # Which nginx shows from its end, so that it ends in joe's name.
        self.make_certificate("longer", "/CN=joe/O=a company", "clients")
        self.make_certificate("stranger", "/CN=joe", "strangers")

    def make_users(self):
        self.kept = self.run("openssl", "passwd", "-6", PASSWORD).strip()
        (self.folder / "users").write_text("".join(f"{name}:{self.kept}\n" for name in USERS))
        digests = (f"{name}:{HOST}:" for name in USERS)
        known = (it + hashlib.md5(f"{it}{PASSWORD}".encode()).hexdigest() for it in digests)
        (self.folder / "digests").write_text("\n".join(known) + "\n")

    # ---- processes

    def start(self, words, **streams):
        """Starts a process, which is ended at the latest with this."""
        process = subprocess.Popen(words, cwd=self.folder, stdin=subprocess.DEVNULL, **streams)
        self.started.append(process)
        return process

    def serve(self, port, audit, count=1_000_000):
        """Starts xcapd at a port, and waits until it listens there."""
        words = [self.program, "serve", f"127.0.0.1:{port}", ROOT, str(count)]
        process = self.start(words, stdout=subprocess.PIPE, stderr=audit, text=True)
        self.wait_for(lambda: is_listened_at(port), f"xcapd at {port}")
        return process

    def serve_told(self, port):
        """The same with an audit in a file of the folder."""
        with (self.folder / f"audit-{port}").open("w") as audit:
            return self.serve(port, audit)

    def audit(self, port):
        return (self.folder / f"audit-{port}").read_text().splitlines()

    def start_proxy(self, site, ports, **changed):
        """Starts the proxy of a file of deploy/, over processes at these ports."""
        if self.proxy:
            self.end(self.proxy)
        self.port = free_port()
        words = proxies.prepare(self, site, ports, **changed)
        with (self.folder / "proxy.log").open("a") as log:
            self.proxy = self.start(words, stdout=log, stderr=log)
        self.wait_for(lambda: is_open(self.port), site)

    @staticmethod
    def wait_for(holds, what):
        for _ in range(200):
            if holds():
                return
            time.sleep(0.05)
        raise SystemExit(f"{what} doesn't come up")

    @staticmethod
    def end(process, by=signal.SIGTERM):
        """Ends a process, and returns the status that it ended with."""
        if process.poll() is None:
            process.send_signal(by)
        return process.wait(20)

    # ---- what the proxy logged

    def last_request(self):
        """The proxy's status of the last request, and that of xcapd, `-` where it wasn't asked."""
        time.sleep(0.1)
        lines = (self.folder / "requests.log").read_text().splitlines()
        return lines[-1].split()[:2]


def is_listened_at(port):
    """Whether somebody listens at a port of the loopback; no connection is made to find it out."""
    wanted = f"0100007F:{port:04X} 00000000:0000 0A"
    return wanted in pathlib.Path("/proc/net/tcp").read_text()

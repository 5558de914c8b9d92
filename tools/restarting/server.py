"""The program with a journal in a file, and its one client."""
import http.client
import pathlib
import resource
import signal
import subprocess
import time

from following.server import free_port

ROOT = "http://xcap.example.com/xcap"
MOST_REQUESTS = 900


class Ended(Exception):
    """The process ended, or it ended the connection, before it replied."""


class Kept:
    """A process of `keep`. Its old journal is one file, its new one another."""

    def __init__(self, program, old, new, connections=1000, limit=None):
        self.port = free_port()
        self.errors = pathlib.Path(f"{new}.errors")
        words = ["keep", f"127.0.0.1:{self.port}", ROOT, str(connections)]

        def bounded():
            signal.signal(signal.SIGXFSZ, signal.SIG_IGN)
            if limit is not None:
                resource.setrlimit(resource.RLIMIT_FSIZE, (limit, resource.RLIM_INFINITY))

        with open(old, "rb") as source, open(new, "wb") as sink, open(self.errors, "wb") as errors:
            self.process = subprocess.Popen(
                [program, *words],
                stdin=source,
                stdout=sink,
                stderr=errors,
                preexec_fn=bounded,
            )
        self.connection = None
        self.asked = 0

    def connect(self, seconds=120):
        """Waits until it listens, and begins a connection."""
        until = time.monotonic() + seconds
        while time.monotonic() < until:
            if self.process.poll() is not None:
                raise Ended
            try:
                self.connection = http.client.HTTPConnection("127.0.0.1", self.port, timeout=60)
                self.connection.connect()
                self.asked = 0
                return
            except ConnectionRefusedError:
                time.sleep(0.002)
        raise TimeoutError("it doesn't listen")

    def ask(self, method, path, user, body=None, media=None):
        """The status, the tag and the body of the reply."""
        if self.connection is None or self.asked == MOST_REQUESTS:
            self.close()
            self.connect()
        self.asked += 1
        head = {"X-XCAP-User": user}
        if media:
            head["Content-Type"] = f"application/{media}+xml"
        try:
            self.connection.request(method, f"/xcap/{path}", body, head)
            reply = self.connection.getresponse()
            text = reply.read()
        except (OSError, http.client.HTTPException) as fault:
            raise Ended from fault
        if reply.will_close:
            self.close()
        return reply.status, (reply.getheader("ETag") or "").strip('"'), text

    def make_room(self):
        """Its files may grow again."""
        lifted = (resource.RLIM_INFINITY, resource.RLIM_INFINITY)
        resource.prlimit(self.process.pid, resource.RLIMIT_FSIZE, lifted)

    def close(self):
        if self.connection is not None:
            self.connection.close()
            self.connection = None

    def strike(self):
        """Kills it, and doesn't wait for its end."""
        self.process.kill()

    def kill(self):
        self.strike()
        self.process.wait()

    def end(self):
        """Ends it, and returns its status and its messages for errors, except the audit."""
        self.close()
        if self.process.poll() is None:
            self.process.terminate()
        status = self.process.wait()
        return status, self.told()

    def told(self):
        lines = self.errors.read_text(errors="replace").splitlines()
        return [it for it in lines if not it[:1].isdigit()]

"""The command `host`, started for a trial."""
import pathlib
import resource
import select
import subprocess

from deployment.stage import free_port

TICKS = 100


class Host:
    """A process that serves at a port of the loopback until the block ends."""

    def __init__(self, program, *words, descriptors=None):
        self.port = free_port()
        self.root = f"http://127.0.0.1:{self.port}/xcap"
        self.command = [program, "host", f"127.0.0.1:{self.port}", self.root, *words]
        self.descriptors = descriptors

    def __enter__(self):
        self.process = subprocess.Popen(
            self.command, stderr=subprocess.PIPE, text=True, preexec_fn=self._set_limits
        )
        self._wait_until_it_listens()
        return self

    def __exit__(self, *_):
        self.process.kill()
        self.process.wait()

    def _set_limits(self):
        if self.descriptors:
            resource.setrlimit(resource.RLIMIT_NOFILE, (self.descriptors,) * 2)

    def _wait_until_it_listens(self):
        ready, _, _ = select.select([self.process.stderr], [], [], 60)
        line = self.process.stderr.readline() if ready else ""
        if line != f"listening 127.0.0.1:{self.port}\n":
            self.process.kill()
            raise SystemExit(f"{self.command[0]} doesn't listen: {line!r}")

    def is_there(self):
        return self.process.poll() is None

    def memory(self):
        """What it has in memory now, in bytes."""
        status = pathlib.Path(f"/proc/{self.process.pid}/status").read_text()
        lines = dict(line.split(":", 1) for line in status.splitlines())
        return int(lines["VmRSS"].split()[0]) * 1024

    def processor_time(self):
        """The processor time that it took so far, in seconds."""
        told = pathlib.Path(f"/proc/{self.process.pid}/stat").read_text().rpartition(")")[2]
        fields = told.split()
        return (int(fields[11]) + int(fields[12])) / TICKS

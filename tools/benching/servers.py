"""Servers that are started to be measured, each in a folder of its own."""
import pathlib
import re
import shutil
import socket
import subprocess
import time

TOP = pathlib.Path(__file__).resolve().parents[2]
PROGRAM = TOP / "crates" / "xcapd" / "out" / "xcapd"
CONNECTIONS = 1_000_000
TABLES = pathlib.Path("/usr/share/kamailio/dbtext/kamailio")
TICKS = 100
TOTALS = re.compile(r"^(?:totals|summary): (\d+)", re.M)


def free_port():
    with socket.socket() as line:
        line.bind(("127.0.0.1", 0))
        return line.getsockname()[1]


class Server:
    """A process and its children, which listen at a port of the loopback until the block ends."""

    def __init__(self, folder, program, counts=False):
        self.folder = pathlib.Path(folder)
        self.program = program
        self.counts = counts
        self.port = free_port()

    def __enter__(self):
        command = self.command()
        if self.counts:
            counting = f"--callgrind-out-file={self.folder}/counted.%p"
            command = ["valgrind", "--tool=callgrind", counting, *command]
        self.process = subprocess.Popen(
            command, stdout=subprocess.DEVNULL, stderr=subprocess.DEVNULL
        )
        self.wait_until_there()
        return self

    def __exit__(self, *_):
        self.process.terminate()
        self.process.wait()

    def wait_until_there(self):
        until = time.monotonic() + 60
        while time.monotonic() < until:
            try:
                socket.create_connection(("127.0.0.1", self.port)).close()
                return
            except ConnectionRefusedError:
                time.sleep(0.05)
        raise TimeoutError(f"{self.program} doesn't listen")

    def processes(self):
        """The number of the process, and those of its children."""
        number = self.process.pid
        children = pathlib.Path(f"/proc/{number}/task/{number}/children").read_text().split()
        return [number, *map(int, children)]

    def spent(self):
        """The processor time of all of them up to now, in seconds."""
        ticks = 0
        for number in self.processes():
            told = pathlib.Path(f"/proc/{number}/stat").read_text().rpartition(")")[2].split()
            ticks += int(told[11]) + int(told[12])
        return ticks / TICKS

    def instructions(self):
        """How many instructions were counted in all of them, once they have ended."""
        counts = 0
        for file in self.folder.glob("counted.*"):
            found = TOTALS.findall(file.read_text())
            counts += int(found[-1]) if found else 0
        return counts


class Xcapd(Server):
    def command(self):
        root = f"http://127.0.0.1:{self.port}/xcap"
        return [self.program, "serve", f"127.0.0.1:{self.port}", root, str(CONNECTIONS)]


class Kamailio(Server):
    def command(self):
        tables = self.folder / "tables"
        tables.mkdir(exist_ok=True)
        for name in ("version", "xcap"):
            shutil.copy(TABLES / name, tables)
        text = (pathlib.Path(__file__).parent / "kamailio.cfg").read_text()
        file = self.folder / "kamailio.cfg"
        file.write_text(text.replace("PORT", str(self.port)).replace("TABLES", str(tables)))
        return [self.program, "-f", str(file), "-DD", "-m", "256", "-M", "64", "-Y", self.folder]

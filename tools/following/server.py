"""A process of the program that listens on the loopback."""
import itertools
import os
import random
import socket
import subprocess
import time

from following.wire import Wire

# The numbers that each process goes through from a place of its own.
NUMBERS = {}
MOST_CONNECTIONS = "1000000"


def free_port():
    """A port that nothing listens at, and that this process gives no second time. It lies below
    those that the system gives by itself."""
    start = random.SystemRandom().randrange(20_000)
    for number in NUMBERS.setdefault(os.getpid(), itertools.count(start)):
        port = 10_000 + number % 20_000
        with socket.socket() as tried:
            tried.setsockopt(socket.SOL_SOCKET, socket.SO_REUSEADDR, 1)
            try:
                tried.bind(("127.0.0.1", port))
                return port
            except OSError:
                pass


class Ended(Exception):
    """The process ended with a status before it listened."""


class Served:
    """A process of `serve`, or of another command that listens, until the block ends. `around` is
    its environment, where it isn't that of this process."""

    def __init__(self, program, root, command="serve", around=None, **streams):
        self.port = free_port()
        words = [program, command, f"127.0.0.1:{self.port}", root, MOST_CONNECTIONS]
        streams = {"stdin": subprocess.DEVNULL, "stdout": subprocess.DEVNULL, **streams}
        streams.setdefault("stderr", subprocess.DEVNULL)
        self.process = subprocess.Popen(words, env=around, **streams)
        self.wire = Wire(self.port)

    def __enter__(self):
        return self

    def __exit__(self, *_):
        self.wire.close()
        self.process.kill()
        self.process.wait()

    def wait_until_there(self, seconds=60):
        until = time.monotonic() + seconds
        while time.monotonic() < until:
            if self.process.poll() is not None:
                raise Ended(self.process.returncode)
            try:
                self.wire.send([])
                return self
            except ConnectionRefusedError:
                time.sleep(0.002)
        raise TimeoutError("it doesn't listen")

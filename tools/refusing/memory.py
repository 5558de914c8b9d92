"""Requests for memory that are refused, one after the other."""
import contextlib
import os
import pathlib
import struct
import subprocess

SOURCE = pathlib.Path(__file__).parent / "refusing.c"


def build(folder):
    """The library in front of the C library that refuses requests for memory."""
    library = folder / "refusing.so"
    subprocess.run(["cc", "-shared", "-fPIC", "-O2", "-o", library, SOURCE], check=True)
    return library


class Refusing:
    """One run of a process some of whose requests for memory are refused: that of this number, the
    first being 1, and none for 0; or, where `is_one` is false, those of `refused_from`. It has a
    folder of its own."""

    def __init__(self, library, folder, number, is_one=True):
        self.folder, self.number = folder, number
        self.counted = folder / "counted"
        self.counted.write_bytes(bytes(24))
        refused = number if is_one else 0
        names = {"LD_PRELOAD": library, "COUNTED": self.counted, "REFUSED": refused}
        self.around = {**os.environ, **{name: str(value) for name, value in names.items()}}
        self.most = 0

    @property
    def made(self):
        """How many requests the process has made."""
        return int.from_bytes(self.counted.read_bytes()[:8], "little")

    @property
    def is_reached(self):
        return (self.most or self.made) >= self.number

    def write(self, first, above):
        with open(self.counted, "r+b") as file:
            file.seek(8)
            file.write(struct.pack("<QQ", first, above))

    @contextlib.contextmanager
    def refused_from(self, number, above=0):
        """Within the block each request for more bytes than these is refused, from the block's
        request of this number on."""
        before = self.made
        self.write(before + number, above)
        yield
        self.write(0, 0)
        self.most = max(self.most, self.made - before)

    def run(self, words, source=b""):
        """Runs a command to its end; its status, its output, and its messages for errors."""
        ran = subprocess.run(words, input=source, capture_output=True, env=self.around, timeout=120)
        return ran.returncode, ran.stdout, ran.stderr.decode(errors="replace")

"""The program as deploy/keep-journal runs it, in a folder with its journals."""
import os
import pathlib
import re
import shutil
import signal
import subprocess
import time

from restarting.documents import Documents
from restarting.server import ROOT, Kept, free_port

SCRIPT = pathlib.Path(__file__).resolve().parent.parent.parent / "deploy" / "keep-journal"
COMMANDS = "bash cmp flock ln mv rm sleep sort stat sync tail touch".split()
STOPPED = 10


# What docs/OPERATIONS.md says of a damaged place.
MENDS = """\
if cmp -s -n {place} {earlier} journal
then cp {earlier} journal; else truncate -s {place} journal; fi
rm journal.new
"""
DAMAGED = re.compile(r"journal: damaged (\d+)")


class Looped(Kept):
    """One run of it, which begins with the one of the folder's files that is to be read."""

    def __init__(self, program, folder, path=None, connections=1000, once=True):
        self.port = free_port()
        self.errors = folder.parent / f"{folder.name}.errors"
        words = ["keep", f"127.0.0.1:{self.port}", ROOT, str(connections)]
        with open(self.errors, "wb") as errors:
            self.process = subprocess.Popen(
                [SCRIPT, *(["--once"] if once else []), program, *words],
                cwd=folder,
                stdin=subprocess.DEVNULL,
                stdout=subprocess.DEVNULL,
                stderr=errors,
                start_new_session=True,
                env={**os.environ, **({"PATH": str(path)} if path else {})},
            )
        self.connection = None
        self.asked = 0

    def strike(self):
        os.killpg(self.process.pid, signal.SIGKILL)

    def said(self):
        """What the script said."""
        lines = self.errors.read_text(errors="replace").splitlines()
        return [it.partition(": ")[2] for it in lines if it.startswith("keep-journal: ")]

    def told(self):
        return [it for it in super().told() if not it.startswith("keep-journal: ")]


def damaged_place(kept):
    """The place at which its journal is damaged, once it has ended, or None."""
    status = kept.process.wait(60)
    found = DAMAGED.search("\n".join(kept.told()))
    return int(found[1]) if status == 6 and found else None


def mend(folder, place):
    """Goes on without what is damaged."""
    numbers = [int(it.name[8:]) for it in folder.glob("journal.[0-9]*")]
    text = MENDS.format(place=place, earlier=f"journal.{max(numbers, default=1)}")
    subprocess.run(["sh", "-c", text], cwd=folder, check=True, stderr=subprocess.DEVNULL)


def path_without(folder, name=None, **broken):
    """A folder of all commands that the script needs, but one, or with others in their place."""
    folder.mkdir()
    for it in COMMANDS:
        if it in broken:
            (folder / it).write_text(f"#!/bin/sh\n{broken[it]}\n")
            (folder / it).chmod(0o755)
        elif it != name:
            (folder / it).symlink_to(shutil.which(it))
    return folder


def kept_edits(program, folder, random, known, count):
    """Starts it, makes this many edits, and ends it. Returns the documents."""
    kept = Looped(program, folder)
    for number in range(count):
        asked, after = known.edit(random, known.last + 1)
        assert kept.ask(*asked)[0] in (200, 201)
        known = after
    # The files that were read before go once this one was read.
    wait_for(lambda: not list(folder.glob("journal.[0-9]*")))
    kept.end()
    return known


def wait_for(holds, seconds=60):
    until = time.monotonic() + seconds
    while not holds() and time.monotonic() < until:
        time.sleep(0.02)


def two_journals(program, folder, random, first=60, second=20):
    """A folder with a journal, and a new one that has all of that and more. The documents of both,
    and their bytes."""
    folder.mkdir()
    one = kept_edits(program, folder, random, Documents(), first)
    two = kept_edits(program, folder, random, one, second)
    return one, two, *((folder / it).read_bytes() for it in ("journal", "journal.new"))

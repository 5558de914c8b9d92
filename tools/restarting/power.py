"""Power failures: an XFS of its own is shut down as one would leave it, and mounted again."""
import os
import shutil
import subprocess
import time

from restarting.documents import Documents
from restarting.loop import Looped, damaged_place, mend
from restarting.mounts import QUIET, mount, unmount
from restarting.server import Ended

NEEDED = ("mkfs.xfs", "xfs_io", "mount", "umount")
# So long after a change it is on the disk: it is written each second.
WRITTEN = 3.0


class Disk:
    """A file system on a file of the folder."""

    def __init__(self, folder):
        self.image, self.place = folder / "disk", folder / "mounted"
        self.place.mkdir()
        with open(self.image, "wb") as made:
            made.truncate(400 << 20)
        subprocess.run(["mkfs.xfs", "-q", self.image], check=True, **QUIET)

    def mount(self):
        return mount("-o", "loop", self.image, self.place)

    def fail(self):
        """What wasn't written to the disk is lost from here on."""
        words = ["xfs_io", "-x", "-c", "shutdown", self.place]
        subprocess.run(words, check=True, **QUIET)

    def mount_again(self):
        unmount(self.place)
        assert self.mount()


class Failures:
    """What was acknowledged, from the last change on that is known to be on the disk."""

    def __init__(self, program, disk, random):
        self.program, self.disk, self.random = program, disk, random
        self.folder = disk.place / "kept"
        self.folder.mkdir()
        subprocess.run(["sync", self.folder, disk.place], check=True)
        self.states = [Documents()]
        self.lost = self.cut = 0

    def edit(self, kept, count):
        for _ in range(count):
            asked, after = self.states[-1].edit(self.random, self.states[-1].last + 1)
            assert kept.ask(*asked)[0] in (200, 201)
            self.states.append(after)

    def wait_until_written(self):
        time.sleep(WRITTEN)
        self.states = self.states[-1:]

    def fail(self, kept):
        self.disk.fail()
        kept.kill()
        self.disk.mount_again()

    def start(self):
        """Starts it, as docs/OPERATIONS.md says where the end of the journal is damaged."""
        while True:
            kept = Looped(self.program, self.folder)
            try:
                kept.connect()
                return kept
            except Ended:
                place = damaged_place(kept)
                if place is None:
                    raise
                self.cut += 1
                mend(self.folder, place)

    def compare(self, kept):
        """The state that is held is one since the last that is on the disk."""
        held = [it for it in reversed(self.states) if it.is_held_by(kept)][:1]
        if held:
            self.lost += self.states[-1].last - held[0].last
            self.states = held
        return bool(held)


def two_restarts(failures):
    """21 changes, two restarts, and a power failure at once."""
    kept = failures.start()
    failures.edit(kept, 21)
    failures.wait_until_written()
    for _ in range(2):
        kept.end()
        kept = failures.start()
        failures.edit(kept, 1)
    failures.fail(kept)
    kept = failures.start()
    is_so = failures.compare(kept)
    kept.end()
    return is_so


def at_random(failures, count):
    """Rounds of changes, kills, restarts and a power failure. How many went well."""
    for number in range(count):
        kept = failures.start()
        failures.edit(kept, failures.random.randrange(40))
        if failures.random.random() < 0.7:
            failures.wait_until_written()
        for _ in range(failures.random.randrange(3)):
            kept.kill()
            kept = failures.start()
            failures.edit(kept, failures.random.randrange(10))
        time.sleep(failures.random.random() * 0.7)
        failures.fail(kept)
        kept = failures.start()
        is_so = failures.compare(kept)
        kept.end()
        if not is_so:
            return number
    return count


def try_failures(report, program, disk, random, rounds):
    failures = Failures(program, disk, random)
    what = "21 changes on XFS, two restarts and then a power failure: what was accepted three"
    report.holds(f"{what} seconds before is held", two_restarts(failures))
    right = at_random(failures, rounds)
    report.holds(
        f"{rounds} power failures at random, after kills and restarts: all that was accepted three"
        " seconds before is held, each document with its tag",
        right == rounds,
        f"{right} of {rounds}; of the changes since then {failures.lost} were lost in all;"
        f" {failures.cut} times a journal was damaged, and mended as docs/OPERATIONS.md says",
    )


def power_failures(report, program, folder, random, rounds=12):
    lacking = [it for it in NEEDED if not shutil.which(it)]
    if lacking or os.geteuid():
        report.note(f"not tried: {', '.join(lacking) or 'it needs root'}")
        return
    disk = Disk(folder)
    if not disk.mount():
        report.note("not tried, as no loop device can be mounted here")
        return
    try:
        try_failures(report, program, disk, random, rounds)
    finally:
        unmount(disk.place)

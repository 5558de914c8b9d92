"""File systems that are mounted for a while."""
import subprocess
import time

QUIET = {"stdout": subprocess.DEVNULL, "stderr": subprocess.DEVNULL}


def mount(*words):
    return subprocess.run(["mount", *words], **QUIET).returncode == 0


def unmount(place, seconds=10):
    """Unmounts it, once the last process in it has ended."""
    until = time.monotonic() + seconds
    while subprocess.run(["umount", place], **QUIET).returncode:
        if time.monotonic() > until:
            raise TimeoutError(f"{place} is still in use")
        time.sleep(0.1)

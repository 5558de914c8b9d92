"""A machine of its own for systemd: this system's files under a layer that is thrown away, with
processes and mounts that nobody else sees. The network is the one of the host."""
import pathlib
import subprocess
import time

INIT = """\
set -e
root={folder}/root
mount --make-rprivate /
mount -t tmpfs tmpfs {folder}/layer
mkdir {folder}/layer/above {folder}/layer/work
mount -t overlay overlay -o lowerdir=/,upperdir={folder}/layer/above,workdir={folder}/layer/work $root
mount -t proc proc $root/proc
mount -t sysfs sysfs $root/sys
mount --rbind /dev $root/dev
for place in run tmp sys/fs/cgroup; do mount -t tmpfs tmpfs $root/$place; done
mkdir $root/sys/fs/cgroup/systemd $root/sys/fs/cgroup/unified
mount -t cgroup -o none,name=systemd cgroup $root/sys/fs/cgroup/systemd || true
mount -t cgroup2 cgroup2 $root/sys/fs/cgroup/unified || mount -t cgroup2 cgroup2 $root/sys/fs/cgroup
install {program} $root/usr/local/bin/xcapd
install -D {units}/../keep-journal $root/usr/local/lib/xcapd/keep-journal
install -m 644 {units}/*.service $root/etc/systemd/system/
for kept in {keeping}; do install -D -m 644 {units}/keep.conf $root/etc/systemd/system/$kept.d/keep.conf; done
printf '[Unit]\\nRequires=systemd-journald.service {wanted}\\n' > $root/etc/systemd/system/trial.target
mkdir $root/host
cd $root
pivot_root . host
umount -l /host
export container=trial
exec /lib/systemd/systemd --system --unit=trial.target --show-status=0 --log-target=null
"""
NAMESPACES = ["--pid", "--fork", "--mount", "--uts", "--ipc", "--cgroup", "--kill-child"]


class Machine:
    """It runs systemd with the given units of the repository, of which some keep a journal, and
    ends with its block."""

    def __init__(self, folder, program, units, wanted, keeping=()):
        self.folder = pathlib.Path(folder)
        for place in ("root", "layer"):
            (self.folder / place).mkdir()
        names = {"folder": folder, "program": program, "units": units}
        self.script = INIT.format(**names, wanted=" ".join(wanted), keeping=" ".join(keeping))
        self.wanted = wanted

    def __enter__(self):
        command = ["unshare", *NAMESPACES, "bash", "-c", self.script]
        self.process = subprocess.Popen(command, stdout=subprocess.DEVNULL)
        self.wait_for(lambda: all(self.is_active(it) for it in self.wanted))
        return self

    def __exit__(self, *_):
        self.process.kill()
        self.process.wait()

    def wait_for(self, holds, seconds=30):
        """Whether this comes to hold within this many seconds."""
        until = time.monotonic() + seconds
        while time.monotonic() < until:
            if holds():
                return True
            time.sleep(0.2)
        return False

    def says(self, *words):
        """What a command prints there."""
        children = pathlib.Path(f"/proc/{self.process.pid}/task/{self.process.pid}/children")
        inside = children.read_text().split()
        if not inside:
            return ""
        command = ["nsenter", "-t", inside[0], "-p", "-m", "-C", *words]
        ran = subprocess.run(command, stdout=subprocess.PIPE, stderr=subprocess.DEVNULL, text=True)
        return ran.stdout.strip()

    def value(self, unit, name):
        return self.says("systemctl", "show", "-P", name, unit)

    def is_active(self, unit):
        return self.value(unit, "ActiveState") == "active"

    def told(self, unit):
        """The lines that a unit wrote into the journal."""
        return self.says("journalctl", "-u", unit, "-o", "cat", "--no-pager").splitlines()

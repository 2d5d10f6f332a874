"""A machine of its own for tests/serve/run: systemd as the first process of namespaces, over this system's files.

What it writes stands in memory, and is gone with it. It takes root, overlays, and a systemd that is installed."""

import os
import shutil
import signal
import subprocess
import time
from pathlib import Path

from parts import Skip

# Enters a control group of its own, below that of this process, and from there the namespace that shows no other.
GROUP = """
set -e
mount -t tmpfs tmpfs "$1"
mkdir "$1/groups"
mount -t cgroup2 cgroup2 "$1/groups"
mkdir "$1/groups/$3"
echo 0 >"$1/groups/$3/cgroup.procs"
umount "$1/groups"
exec unshare --cgroup bash -c "$4" boot "$@"
"""

# Removes it, once all that was in it has ended.
NO_GROUP = """
mount -t cgroup2 cgroup2 "$1"
until grep -q "populated 0" "$1/$2/cgroup.events"; do sleep 0.1; done
find "$1/$2" -depth -type d -exec rmdir {} +
"""

BOOT = """
set -e
mkdir "$1/upper" "$1/work" "$1/root"
mount -t overlay overlay -o "lowerdir=/,upperdir=$1/upper,workdir=$1/work" "$1/root"
cd "$1/root"
mount -t proc proc proc
mount -t sysfs sysfs sys
mount -t cgroup2 cgroup2 sys/fs/cgroup
for it in run tmp dev; do mount -t tmpfs tmpfs $it; done
for it in null zero full random urandom tty; do mknod -m 666 dev/$it c $(stat -c '0x%t 0x%T' /dev/$it); done
mkdir dev/pts dev/shm dev/mqueue
mount -t devpts -o ptmxmode=666 devpts dev/pts
mount -t tmpfs tmpfs dev/shm
ln -s pts/ptmx dev/ptmx
ln -s /proc/self/fd dev/fd
# (none of these: the clock and the settings of the kernel are those of all)
for it in systemd-timesyncd systemd-sysctl systemd-udevd systemd-udev-trigger systemd-networkd nginx caddy apache2; do ln -sf /dev/null etc/systemd/system/$it.service; done
# What a container's image may have, so that an installation starts nothing; and what takes long.
rm -f usr/sbin/policy-rc.d var/lib/man-db/auto-update
mkdir -p before
pivot_root . before
umount -l before
# systemd empties /tmp: it begins only over one that is this machine's own, and where no mount of it is seen outside.
[ "$(findmnt -no FSTYPE /tmp)" = tmpfs ]
[ "$(stat --format %d /tmp)" != "$2" ]
[ -z "$(findmnt -nlo PROPAGATION | grep -v private)" ]
exec env -i container=docs_host PATH=/usr/sbin:/usr/bin:/sbin:/bin /lib/systemd/systemd --unit=basic.target --show-status=no
"""

SPACES = ["--mount", "--pid", "--net", "--uts", "--ipc"]
SECONDS = 600


class Machine:
    """A running system, in which words are run as root."""

    def __init__(self, part):
        if os.getuid() != 0:
            raise Skip("a machine of its own takes root")
        for tool in ("unshare", "nsenter", "pivot_root", "systemctl"):
            if not shutil.which(tool):
                raise Skip(f"there is no {tool}, so there is no machine")
        room = Path(part.path("machine"))
        room.mkdir()
        self.told = open(part.path("boot"), "wb")
        self.room, self.group = room, f"docs_host-test-{os.getpid()}"
        words = ["bash", "-c", GROUP, "boot", room, str(os.stat("/tmp").st_dev), self.group, BOOT]
        line = ["unshare", *SPACES, "--fork", "--kill-child", *words]
        self.process = subprocess.Popen(line, stdin=subprocess.DEVNULL, stdout=self.told, stderr=self.told, start_new_session=True)
        self.first = None

    def wait(self):
        """Waits until it has begun; what it said where it does not."""
        end = time.monotonic() + SECONDS
        while time.monotonic() < end and self.process.poll() is None:
            children = Path(f"/proc/{self.process.pid}/task/{self.process.pid}/children").read_text().split()
            if children and Path(f"/proc/{children[0]}/comm").read_text() == "systemd\n":
                self.first = children[0]
                if self.run("systemctl", "is-system-running").stdout.strip() in ("running", "degraded"):
                    return
            time.sleep(0.2)
        said = Path(self.told.name).read_text(errors="replace").strip().splitlines()[-2:]
        raise Skip(f"no systemd begins in a namespace here: {said}")

    def run(self, *words, given=None, **more):
        """Runs words in it."""
        told = {"PATH": "/usr/sbin:/usr/bin:/sbin:/bin", "DEBIAN_FRONTEND": "noninteractive", "HOME": "/root", **more}
        line = ["nsenter", "--target", self.first, *SPACES, "--cgroup", "--root", "--wd", "env", "-i"]
        line += [*(f"{name}={text}" for name, text in told.items()), *words]
        texts = {"capture_output": True, "encoding": "utf-8", "errors": "replace"}
        return subprocess.run(line, input=given or "", timeout=SECONDS, **texts)

    def path(self, path):
        """Where a path of the machine stands here."""
        return Path(f"/proc/{self.first}/root") / path.lstrip("/")

    def __enter__(self):
        try:
            self.wait()
        except BaseException:
            self.__exit__()
            raise
        return self

    def __exit__(self, *_):
        # (its processes end with the first one)
        self.process.send_signal(signal.SIGKILL)
        self.process.wait()
        self.told.close()
        subprocess.run(["unshare", "--mount", "bash", "-c", NO_GROUP, "boot", self.room, self.group], timeout=SECONDS)

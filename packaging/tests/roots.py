# SPDX-License-Identifier: Apache-2.0
"""Roots of their own, into which the package is installed: this system with a layer over it (overlayfs), in namespaces for mounts and the network. One has
no systemd; in the other that is the first process."""
from __future__ import annotations

import os
import re
import shlex
import subprocess
import time
from pathlib import Path

import pytest

TOP = Path(__file__).resolve().parent.parent.parent
MAKE = TOP / "packaging" / "make_deb.py"
PYTHON = "/usr/bin/python3"
PASSWORD = "correct horse battery"
# Seconds for what is to be there, however busy the machine is; for a command, and for which a root is there at most.
PATIENCE, COMMAND, LONGEST = 120, 900, 3600
# What systemd empties as it starts.
EMPTIED = ("/tmp", "/var/tmp")
# The devices that a system has in a root whose first process is systemd, with their numbers.
DEVICES = {"null": "1 3", "zero": "1 5", "full": "1 7", "random": "1 8", "urandom": "1 9", "tty": "5 0"}


def missed(what: str) -> None:
    """Skips a test for something that is not there, or fails it where continuous integration has to have that."""
    if os.environ.get("CI") == "true":
        pytest.fail(what)
    pytest.skip(what)


def made(folder: Path) -> Path:
    """The package, made in a folder."""
    done = subprocess.run([PYTHON, MAKE, "--to", folder], capture_output=True, text=True, timeout=COMMAND)
    assert (done.returncode, done.stderr) == (0, ""), done.stderr
    return Path(done.stdout.strip())


def commands() -> list[str]:
    """The commands of docs/OPERATING.md that set a service up from nothing."""
    page = (TOP / "docs" / "OPERATING.md").read_text(encoding="utf-8")
    block = re.search(r"^## From nothing\n.*?^```\n(.*?)^```$", page, re.MULTILINE | re.DOTALL)[1]
    return block.replace("\\\n", " ").splitlines()


class Root:
    """A root without systemd."""

    # How its /proc and /dev come to be, as commands of a shell in which `root` is its place.
    MOUNTS = "mount --rbind /proc $root/proc && mount --rbind /dev $root/dev"

    def __init__(self, folder: Path) -> None:
        self.layer, self.place = folder / "layers" / "upper", folder / "root"
        self._holder = subprocess.Popen(["unshare", "--mount", "--net", "--propagation", "private", "sleep", str(LONGEST)])
        self._await_own()
        self.place.mkdir()
        (folder / "layers").mkdir()
        parts = shlex.quote(str(folder / "layers"))
        status, told = self._inside(f"root={shlex.quote(str(self.place))}; mount -t tmpfs tmpfs {parts} && mkdir {parts}/upper {parts}/work && "
                                    f"mount -t overlay overlay -o lowerdir=/,upperdir={parts}/upper,workdir={parts}/work $root && "
                                    f"mount -t tmpfs tmpfs $root/run && {self.MOUNTS} && ip link set lo up")
        if status:
            self.end()
            missed(f"a root of its own cannot be made here, which takes root's rights, overlayfs and iproute2: {told.strip()}")

    def _await_own(self) -> None:
        """Waits until the namespaces are there: what is mounted before would be mounted for the whole machine."""
        end = time.monotonic() + PATIENCE
        while any(os.readlink(f"/proc/{self._holder.pid}/ns/{kind}") == os.readlink(f"/proc/self/ns/{kind}") for kind in ("mnt", "net")):
            if self._holder.poll() is not None or time.monotonic() > end:
                self.end()
                missed("a root of its own cannot be made here: unshare --mount --net is refused")
            time.sleep(0.01)

    def _words(self, command: str) -> list[str]:
        """The words that run a command of a shell in the namespaces, over the system's own root."""
        return ["nsenter", "--target", str(self._holder.pid), "--mount", "--net", "bash", "-c", command]

    def _inside(self, command: str) -> tuple[int, str]:
        done = subprocess.run(self._words(command), capture_output=True, text=True, timeout=COMMAND)
        return done.returncode, done.stdout + done.stderr

    def _chrooted(self, command: str) -> list[str]:
        """The words that run a command, without what this process has in its environment."""
        place = shlex.quote(str(self.place))
        return self._words(f"exec env -u PYTHONPATH -u PYTHONPYCACHEPREFIX LC_ALL=C.UTF-8 PATH=/usr/sbin:/usr/bin:/sbin:/bin chroot {place} {command}")

    def words(self, command: str) -> list[str]:
        """The words that run a command of a shell in this root, in the tree's folder."""
        inner = f"cd {shlex.quote(str(TOP))} && {command}"
        return self._chrooted(f"bash -c {shlex.quote(inner)}")

    def run(self, command: str, told: str = "") -> str:
        """Runs a command of a shell in this root: what it writes. It has to end well."""
        done = subprocess.run(self.words(command), input=told, capture_output=True, text=True, timeout=COMMAND)
        assert done.returncode == 0, f"{command}: {done.stdout}{done.stderr}"
        return done.stdout

    def succeeds(self, command: str) -> bool:
        """Whether a command ends well."""
        return subprocess.run(self.words(command), stdin=subprocess.DEVNULL, capture_output=True, timeout=COMMAND).returncode == 0

    def comes(self, command: str, what: str) -> None:
        """Waits until a command ends well."""
        end = time.monotonic() + PATIENCE
        while not self.succeeds(command):
            assert time.monotonic() < end, f"missed: {what}"
            time.sleep(0.2)

    def changed(self) -> set[str]:
        """The paths of what was made or changed in this root; what is taken away is not among them."""
        listed = self._inside(f"find {shlex.quote(str(self.layer))} -mindepth 1 ! -type c -printf '/%P\\n'")[1]
        return set(listed.splitlines())

    def end(self) -> None:
        """Ends the namespaces, and with them the layer."""
        self._holder.kill()
        self._holder.wait()


class Booted(Root):
    """A root whose first process is systemd, which has a control group and namespaces for processes of its own. It changes nothing of the machine: it sees
    /sys and /proc/sys, but may not write there, and has devices of its own. Where the system refuses that, tests are skipped by name, wherever that is."""

    MOUNTS = ("mount -t tmpfs -o mode=755 tmpfs $root/dev && " +
              "".join(f"mknod -m 666 $root/dev/{name} c {numbers} && " for name, numbers in DEVICES.items()) +
              "mkdir $root/dev/pts $root/dev/shm && mount -t devpts -o newinstance,ptmxmode=666 devpts $root/dev/pts && ln -s pts/ptmx $root/dev/ptmx && "
              "ln -s /proc/self/fd $root/dev/fd && mount -t tmpfs tmpfs $root/dev/shm")
    # What its first process does before it becomes systemd, in namespaces of its own. From within a chroot the system would refuse namespaces of users,
    # which the units have.
    FIRST = ("mount -t proc proc $root/proc && mount --bind $root/proc/sys $root/proc/sys && mount -o remount,bind,ro $root/proc/sys && "
             "mount -t sysfs -o ro sysfs $root/sys && mount -t cgroup2 cgroup2 $root/sys/fs/cgroup && cd $root && pivot_root . . && umount -l . && "
             "exec env -i container=other PATH=/usr/sbin:/usr/bin:/sbin:/bin /lib/systemd/systemd --system --unit=basic.target")

    def __init__(self, folder: Path) -> None:
        self._group: Path | None = None
        self._first: subprocess.Popen[bytes] | None = None
        if any(TOP.is_relative_to(place) for place in EMPTIED):
            missed(f"{TOP}: systemd empties {' and '.join(EMPTIED)} as it starts: put the tree elsewhere")
        super().__init__(folder)
        try:
            self._group = group_of_its_own()
        except OSError as error:
            self.end()
            pytest.skip(f"systemd cannot have a control group here: {error}")
        first = f"root={shlex.quote(str(self.place))}; {self.FIRST}"
        into = f"exec unshare --mount --pid --uts --ipc --cgroup --fork --kill-child bash -c {shlex.quote(first)}"
        self._told = folder / "told"
        with self._told.open("wb") as told:
            self._first = subprocess.Popen(["bash", "-c", 'echo $$ >"$0/cgroup.procs" && exec "$@"', self._group, *self._words(into)],
                                           stdin=subprocess.DEVNULL, stdout=told, stderr=told)
        try:
            self._pid = self._systemd()
            self.comes("systemctl is-active basic.target", "systemd as the first process")
        except BaseException:
            self.end()
            raise

    def _systemd(self) -> str:
        """The first process of the root, once it is systemd."""
        end = time.monotonic() + PATIENCE
        while self._first.poll() is None and time.monotonic() < end:
            started = Path(f"/proc/{self._first.pid}/task/{self._first.pid}/children").read_text(encoding="ascii").split()
            if started and Path(f"/proc/{started[0]}/comm").read_text(encoding="ascii") == "systemd\n":
                return started[0]
            time.sleep(0.05)
        pytest.skip(f"systemd cannot be started here: {self._told.read_text(encoding='utf-8').strip()}")

    def _chrooted(self, command: str) -> list[str]:
        return ["nsenter", "--target", self._pid, "--mount", "--net", "--pid", "--uts", "--ipc", "--cgroup", "env", "-u", "PYTHONPATH",
                "-u", "PYTHONPYCACHEPREFIX", "LC_ALL=C.UTF-8", "PATH=/usr/sbin:/usr/bin:/sbin:/bin", *shlex.split(command)]

    def end(self) -> None:
        if self._first is not None:
            self._first.kill()
            self._first.wait()
        super().end()
        if self._group is not None:
            removes_group(self._group)


def group_of_its_own() -> Path:
    """A control group of the second version for a system. Raises OSError if there can be none."""
    mounts = [line.split() for line in Path("/proc/self/mountinfo").read_text(encoding="utf-8").splitlines()]
    places = [Path(words[4]) for words in mounts if words[words.index("-") + 1] == "cgroup2"]
    if not places:
        raise OSError("no cgroup2 is mounted")
    place = places[0] / f"mserve-test-{os.getpid()}"
    place.mkdir()
    return place


def removes_group(place: Path) -> None:
    """Removes a control group with those below it, once its processes have ended."""
    end = time.monotonic() + PATIENCE
    while place.exists():
        try:
            for folder, _, _ in os.walk(place, topdown=False):
                os.rmdir(folder)
        except OSError:
            assert time.monotonic() < end, f"processes that do not end: {place}"
            time.sleep(0.1)

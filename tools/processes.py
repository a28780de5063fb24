# SPDX-License-Identifier: Apache-2.0
"""What the processes below one use: their memory, and the processor seconds of the prover by crate and by part of its work."""
import os
import threading
from collections import defaultdict
from typing import NamedTuple

TICKS = os.sysconf("SC_CLK_TCK")
PAGE = os.sysconf("SC_PAGE_SIZE")
# A crate's proof; that of its tests; a check of the crate as it is before and after its edits; and its edits.
PARTS = ("proof", "tests", "seed", "edits")


class Process(NamedTuple):
    """A process: its parent, when it began, the processor seconds that it used, and the bytes of memory that it holds."""

    parent: int
    began: int
    seconds: float
    memory: int


def processes() -> dict[int, Process]:
    """All processes, by their numbers."""
    found = {}
    for name in filter(str.isdigit, os.listdir("/proc")):
        try:
            with open(f"/proc/{name}/stat", encoding="utf-8", errors="replace") as file:
                fields = file.read().rpartition(")")[2].split()
            found[int(name)] = Process(int(fields[1]), int(fields[19]), (int(fields[11]) + int(fields[12])) / TICKS, int(fields[21]) * PAGE)
        except OSError:
            pass
    return found


def below(top: int, found: dict[int, Process]) -> list[int]:
    """The top process, those that it started, and those that they started."""
    children = defaultdict(list)
    for pid, process in found.items():
        children[process.parent].append(pid)
    left, all_below = [top], []
    while left:
        pid = left.pop()
        all_below.append(pid)
        left += children[pid]
    return all_below


def own_memory(pid: int, held: int) -> int:
    """The bytes of memory that a process holds, of what it shares with others its part: the prover's jobs share most of theirs. `held` if that is not told."""
    try:
        with open(f"/proc/{pid}/smaps_rollup", encoding="ascii") as file:
            return next(int(line.split()[1]) << 10 for line in file if line.startswith("Pss:"))
    except (OSError, StopIteration):
        return held


def memory_below(top: int) -> int:
    """The bytes of memory that the processes below this one hold, itself left out."""
    found = processes()
    return sum(own_memory(pid, found[pid].memory) for pid in below(top, found) if pid in found and pid != top)


def task_of(pid: int) -> tuple[str, str] | None:
    """The crate and the part that a process of the prover works for; None for another process."""
    try:
        with open(f"/proc/{pid}/cmdline", encoding="utf-8", errors="replace") as file:
            words = file.read().split("\0")
        folder = os.readlink(f"/proc/{pid}/cwd")
    except OSError:
        return None
    if "--crate-name" not in words:
        return None
    crate = words[words.index("--crate-name") + 1]
    if "rt-edit-" in folder:
        return crate, "seed" if any(word.endswith("/seed") for word in words) else "edits"
    return crate, "tests" if "--test" in words else "proof"


class Watch(threading.Thread):
    """Reads the processor times of what is below a process, five times a second, until `end` is called."""

    def __init__(self, top: int) -> None:
        super().__init__(daemon=True)
        self.top, self.ended, self.tasks, self.times = top, threading.Event(), {}, {}

    def run(self) -> None:
        while not self.ended.wait(0.2):
            found = processes()
            for pid in found.keys() & below(self.top, found):
                key = pid, found[pid].began
                self.tasks[key] = self.tasks.get(key) or task_of(pid)
                self.times[key] = found[pid].seconds

    def end(self) -> None:
        self.ended.set()
        self.join()

    def spent(self) -> tuple[dict[str, dict[str, float]], float]:
        """The seconds of each crate by part, and those of all other processes."""
        by_crate, other = defaultdict(lambda: dict.fromkeys(PARTS, 0.0)), 0.0
        for key, used in self.times.items():
            if self.tasks.get(key):
                crate, part = self.tasks[key]
                by_crate[crate][part] += used
            else:
                other += used
        return by_crate, other

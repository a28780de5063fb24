# SPDX-License-Identifier: Apache-2.0
"""What is measured: processes, who started whom, the processor time that they took, and the memory that they have; and of which sources that is."""
from __future__ import annotations

import ctypes
import os
import subprocess
from collections.abc import Iterable
from pathlib import Path

from mserve_front.slices import ATTRIBUTES

TICKS = os.sysconf("SC_CLK_TCK")
# sched_getattr.
SLICE_OF = {"x86_64": 315, "aarch64": 275}


def _fields(pid: int) -> list[str]:
    """What the system says of a process, after its name."""
    return Path(f"/proc/{pid}/stat").read_text().rpartition(")")[2].split()


def started_by(parents: Iterable[int]) -> list[int]:
    """The processes that these have started themselves."""
    wanted, found = set(parents), []
    for name in os.listdir("/proc"):
        try:
            if name.isdigit() and int(_fields(int(name))[1]) in wanted:
                found.append(int(name))
        except OSError:
            # It has ended meanwhile.
            continue
    return found


def fronts_of(*gates: int) -> list[int]:
    """The fronts of gates: each gate has a process that starts them."""
    return started_by(started_by(gates))


def processor_time(pids: Iterable[int]) -> float:
    """Seconds that these processes took, and those of their children that have ended."""
    return sum(int(ticks) for pid in pids for ticks in _fields(pid)[11:15]) / TICKS


def memory(pids: Iterable[int]) -> float:
    """Millions of bytes that these processes have in memory; what several share is counted once, in equal parts."""
    total = 0
    for pid in pids:
        found = next(line for line in Path(f"/proc/{pid}/smaps_rollup").read_text().splitlines() if line.startswith("Pss:"))
        total += int(found.split()[1])
    return total * 1024 / 1e6


def slices(pid: int) -> set[int]:
    """The lengths of the slices of a processor that the threads of a process have, in nanoseconds; 0 from a system that has no such thing."""
    found = ctypes.create_string_buffer(ATTRIBUTES.size)
    lengths = set()
    for thread in os.listdir(f"/proc/{pid}/task"):
        assert ctypes.CDLL(None).syscall(SLICE_OF[os.uname().machine], int(thread), found, ATTRIBUTES.size, 0) == 0
        lengths.add(ATTRIBUTES.unpack(found.raw)[5])
    return lengths


def revision() -> str:
    """The revision of these sources, if that is known."""
    place = Path(__file__).resolve().parent
    return subprocess.run(["git", "-C", place, "describe", "--always", "--dirty"], capture_output=True, text=True).stdout.strip()

# SPDX-License-Identifier: Apache-2.0
"""How long a thread goes on at a processor before another one has its turn. Gates and fronts work for a fraction of a millisecond, many times for each line;
one that asks for short slices is let on sooner when something has come, before what computes for long. It gets no larger share of the processor by that.

Linux takes notice from 6.12 on; an earlier one, or a sandbox that refuses the call, leaves all as it was."""
from __future__ import annotations

import contextlib
import ctypes
import os
import platform
import struct

# The shortest slice that there is, in nanoseconds; and none that is asked for, which is the system's own.
SHORT, OWN = 100_000, 0
# sched_setattr, by the machine; neither Python nor the C library has it.
CALLS = {"x86_64": 314, "aarch64": 274}
# struct sched_attr: its size, policy, flags, nice, priority, and three times.
ATTRIBUTES = struct.Struct("IIQiIQQQ")
KEEP_POLICY = 8


def take_slices(length: int, process: int = 0) -> None:
    """Asks for slices of this length for a process that has one thread, or for this thread; what a process starts afterwards has them too."""
    call = CALLS.get(platform.machine())
    if call is None:
        return
    # What was given by nice(1) stays.
    with contextlib.suppress(OSError):
        nice = os.getpriority(os.PRIO_PROCESS, process)
        ctypes.CDLL(None).syscall(call, process, ATTRIBUTES.pack(ATTRIBUTES.size, 0, KEEP_POLICY, nice, 0, length, 0, 0), 0)

# SPDX-License-Identifier: Apache-2.0
"""What happens at a step of the journal's rule, once a file says so: {"step": .., "what": .., "count": ..}. The file is gone when it happens."""
from __future__ import annotations

import contextlib
import functools
import json
import os
import signal
import threading
import time
from collections.abc import Callable, Iterable
from pathlib import Path

# The steps, in the order of the rule.
STEPS = ("lines wait", "lines are durable", "lines are sent", "a reply has come", "a reply is durable", "a reply is handed out", "the server is started",
         "rows are durable", "a start is durable")
# What can happen at one.
WHATS = ("server", "front", "both", "machine", "connection", "disk full", "clock back")
FULL, BACK = 1.5, 3600
# The variable that names a machine: its processes are those that have it with the same text.
MACHINE = "MFRONT_MACHINE"


class LastingTrouble:
    """The trouble that lasts a while: a disk that is full, or a clock that went back."""

    full_until = 0.0
    back = 0


def children() -> list[int]:
    """The processes that this one started."""
    found = Path(f"/proc/{os.getpid()}/task")
    return [int(pid) for task in found.iterdir() for pid in (task / "children").read_text().split()]


def kill_children() -> None:
    """Ends the server at once."""
    for pid in children():
        os.kill(pid, signal.SIGKILL)


def of_machine() -> list[int]:
    """The other processes of this one's machine."""
    wanted, found = f"{MACHINE}={os.environ[MACHINE]}".encode(), []
    for pid in (int(name) for name in os.listdir("/proc") if name.isdigit() and int(name) != os.getpid()):
        with contextlib.suppress(OSError):
            if wanted in Path(f"/proc/{pid}/environ").read_bytes().split(b"\0"):
                found.append(pid)
    return found


def above() -> list[int]:
    """The processes above this one, the first of them first: each ends with the one above it."""
    found = [os.getppid()]
    while found[-1] > 1:
        found.append(int(Path(f"/proc/{found[-1]}/stat").read_text().rpartition(")")[2].split()[1]))
    return found[::-1]


def kill_machine() -> None:
    """Ends all other processes of this one's machine. They are stopped first: none sees another one end. Those above this one are last, and of them the
    first one first, with which this process ends: one that is stopped would stay."""
    found = of_machine()
    signalled(found, signal.SIGSTOP)
    all_of_it, ways = {*found, *of_machine()}, above()
    signalled(all_of_it.difference(ways), signal.SIGKILL)
    signalled((pid for pid in ways if pid in all_of_it), signal.SIGKILL)


def signalled(pids: Iterable[int], number: signal.Signals) -> None:
    """Sends a signal to processes, of which some may have ended."""
    for pid in pids:
        with contextlib.suppress(ProcessLookupError):
            os.kill(pid, number)


def happens(what: str) -> None:
    """Does what is to happen."""
    if what in ("server", "both"):
        kill_children()
    if what in ("front", "both", "machine"):
        os.kill(os.getpid(), signal.SIGKILL)
    if what == "connection":
        from mserve_front.turns import FairConnection
        for turns in FairConnection.made:
            turns.abort()
    if what == "disk full":
        LastingTrouble.full_until = time.monotonic() + FULL
    if what == "clock back":
        LastingTrouble.back = BACK


class Steps:
    """The steps that are looked at: what a file says happens at the step that it names."""

    def __init__(self, place: str):
        self.path, self.turn = Path(place), threading.Lock()

    def wanted(self, name: str) -> str:
        """What is to happen at this step, if anything is; it is counted here, and the file is gone with the last one."""
        with self.turn:
            try:
                wanted = json.loads(self.path.read_text())
            except (OSError, ValueError):
                return ""
            if wanted["step"] != name:
                return ""
            wanted["count"] -= 1
            if wanted["count"] > 0:
                self.path.write_text(json.dumps(wanted))
                return ""
            # This comes first: with its gate's end this process may end too, before it has come further.
            self.path.unlink()
            if wanted["what"] == "machine":
                kill_machine()
        return wanted["what"]

    def step(self, name: str) -> None:
        """Comes to a step."""
        if what := self.wanted(name):
            happens(what)

    def around(self, owner: type, name: str, before: Callable[..., str], after: Callable[..., str]) -> None:
        """Has a method come to a step before it does its work, and to one after it."""
        own = getattr(owner, name)

        @functools.wraps(own)
        def made(this, *given):
            self.step(before(*given))
            found = own(this, *given)
            self.step(after(*given))
            return found
        setattr(owner, name, made)


def install(place: str) -> None:
    """Has the steps looked at."""
    from mserve_front import journal, server, turns
    around = Steps(place).around
    durable = {"_Lines": "lines are durable", "_Reply": "a reply is durable", "_Rows": "rows are durable", "_Start": "a start is durable"}
    done = {"_Lines": "lines are sent", "_Reply": "a reply is handed out"}
    around(journal.Journal, "_done", lambda entry: durable[type(entry).__name__], lambda entry: done.get(type(entry).__name__, ""))
    around(journal.Journal, "lines", lambda *_: "lines wait", lambda *_: "")
    around(turns.FairConnection, "_answered", lambda *_: "a reply has come", lambda *_: "")
    around(server.Server, "_connect", lambda *_: "the server is started", lambda *_: "")
    note_turns()
    trouble_disk_and_clock()


def note_turns() -> None:
    """Keeps the last `FairConnection` that were made, whose connection can be broken."""
    from mserve_front import turns
    turns.FairConnection.made = []
    begun = turns.FairConnection.__init__

    def first(self, *given):
        begun(self, *given)
        turns.FairConnection.made[:] = [self]
    turns.FairConnection.__init__ = first


def trouble_disk_and_clock() -> None:
    """Has the disk be full, and the clock be back, while `LastingTrouble` says so."""
    from mserve_front import journal_file
    write, now = journal_file.FileLog._write, time.time_ns

    def written(self, data):
        if time.monotonic() < LastingTrouble.full_until:
            raise OSError(28, "No space left on device")
        write(self, data)
    journal_file.FileLog._write = written
    time.time_ns = lambda: now() - LastingTrouble.back * 10**9
